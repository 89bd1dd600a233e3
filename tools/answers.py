#!/usr/bin/env python3
"""Takes each answer in proofs/ away by itself and checks its function: tells which ones the check finds alone, and leaves those away.
usage: python3 tools/answers.py CRATE..    from the repository's top, on a clean tree; some 10 to 15 seconds for an answer"""
import os, re, subprocess, sys

TOP = os.path.join(os.path.dirname(os.path.abspath(__file__)), '..')
NEXT = re.compile(r'(pub |use |abbrev |unfoldable |module |--|record |\S.* : )')


def answers(text):
    """(name, first line, line behind the last) of each answer."""
    lines, i, found = text.split('\n'), 0, []
    while i < len(lines):
        m = re.match(r'pub (\S+) : goal\.', lines[i])
        if not m: i += 1; continue
        j = i + 1
        while j < len(lines) and not NEXT.match(lines[j]): j += 1
        while lines[j - 1] == '': j -= 1
        found.append((m[1], i, j))
        i = j
    return found


def without(text, name):
    first, behind = [(i, j) for n, i, j in answers(text) if n == name][0]
    lines = text.split('\n')
    return '\n'.join(lines[:first] + lines[behind:])


def proved(folder, function):
    """Whether the check proves the function and what it calls; None where it does not say so."""
    run = subprocess.run(['rt', 'check', '--only', function], cwd=folder, capture_output=True, text=True)
    m = re.search(r'only=(\d+) proved=(\d+)', run.stdout + run.stderr)
    return m and m[1] == m[2] != '0'


for crate in sys.argv[1:]:
    folder = os.path.join(TOP, 'crates', crate)
    tried = gone = 0
    for root, _, names in sorted(os.walk(os.path.join(folder, 'proofs'))):
        if 'Answers.antt' not in names: continue
        path = os.path.join(root, 'Answers.antt')
        function = '::'.join([crate] + os.path.relpath(root, os.path.join(folder, 'proofs')).split(os.sep))
        for name, _, _ in answers(open(path).read()):
            text = open(path).read()
            rest = without(text, name)
            os.remove(path)
            if answers(rest): open(path, 'w').write(rest)
            tried += 1
            if proved(folder, function):
                gone += 1
                print(function, name, flush=True)
                if not answers(rest): break
            else: open(path, 'w').write(text)
    print(f'{crate}: {tried} answers tried, {gone} found by the check alone', flush=True)
