#!/usr/bin/env python3
"""Counts the places of docs/DESIGN-PASS.md in src/: python3 tools/places.py [COMMIT] [-v].  Without COMMIT the files as they lie; -v lists each place."""
import collections, os, re, subprocess, sys, tarfile, io

TOP = os.path.join(os.path.dirname(os.path.abspath(__file__)), '..')
arguments = [a for a in sys.argv[1:] if a != '-v']
VERBOSE = '-v' in sys.argv


def files():
    if arguments:
        data = subprocess.run(['git', '-C', TOP, 'archive', arguments[0], 'crates'], capture_output=True, check=True).stdout
        with tarfile.open(fileobj=io.BytesIO(data)) as tar:
            for member in tar.getmembers():
                if member.isfile() and member.name.endswith(('.rt', '.antt')): yield member.name, tar.extractfile(member).read().decode()
        return
    for root, folders, names in os.walk(os.path.join(TOP, 'crates')):
        folders[:] = [f for f in folders if f != 'out']
        for name in names:
            path = os.path.join(root, name)
            if path.endswith(('.rt', '.antt')): yield os.path.relpath(path, TOP), open(path).read()


def functions(path, text):
    """(name, parameters, clauses, body) of each function; the layout is rt fmt's."""
    lines = text.split('\n')
    i = 0
    while i < len(lines):
        m = re.match(r'^(\s*)(pub )?(extern "C" )?(const )?fn (\w+)', lines[i])
        if not m: i += 1; continue
        indent, j = m.group(1), i
        while not (lines[j] == indent + '{' or re.search(r'\) (-> .*)?\{$', lines[j]) or lines[j].endswith(';') and j > i or lines[j].endswith('}') and j == i): j += 1
        head = '\n'.join(lines[i:j + 1])
        e = j
        while lines[e] != indent + '}' and not (e == i and lines[e].endswith('}')): e += 1
        signature = re.split(r'\n\s*(?:requires|ensures)', head)[0]
        inside = re.search(r'fn \w+(?:<[^(]*>)?\((.*)\)', signature, re.S)
        parameters = [p.strip() for p in inside.group(1).split(',') if ':' in p] if inside else []
        yield path + ' ' + m.group(5), parameters, head[len(signature):], '\n'.join(lines[j + 1:e])
        i = e + 1


def conjuncts(clauses):
    for kind, body in re.findall(r'(requires|ensures)[^{]*\{(.*?)\}(?=\n|$)', clauses, re.S):
        if kind == 'requires':
            for part in body.split('×'): yield re.sub(r'^\((.*)\)$', r'\1', ' '.join(part.split()))


def shape(body):
    names = {}
    def one(m): return names.setdefault(m.group(0), 'x%d' % len(names))
    body = re.sub(r'//.*', '', body)
    body = re.sub(r'\b\d[\d_xa-f]*(u8|u16|u32|u64|usize)?\b', '0', body)
    keep = {'let', 'mut', 'while', 'for', 'in', 'if', 'else', 'return', 'true', 'false', 'match', 'as', 'loop', 'break'}
    return ' '.join(re.sub(r'[A-Za-z_]\w*', lambda m: m.group(0) if m.group(0) in keep else one(m), body).split())


found = collections.defaultdict(list)
source = dict(files())
rows = [f for path, text in source.items() if path.endswith('.rt') for f in functions(path, text)]
for path, text in source.items():
    if path.endswith('.antt'):
        if '/proofs/' in path: found['8 answers'] += re.findall(r'^pub [\w+-]+ : goal\.', text, re.M)
        if '/proofs/' in path: found['8 lines of proof'] += text.split('\n')
        continue
    for m in re.finditer(r'^(?:pub )?enum (\w+) \{(.*?)^\}', text, re.S | re.M):
        variants = re.findall(r'^    (\w+)', m.group(2), re.M)
        if len(variants) == 2 and re.search(r'[({]', m.group(2)) or 'Refused' in variants or 'None' in variants:
            found['1 own enums of the shape of Option or Result'].append(path + ' ' + m.group(1))
    for n, line in enumerate(text.split('\n'), 1):
        here = '%s:%d %s' % (path, n, line.strip())
        code = line.split('//')[0]
        if re.search(r'Refused\(\d+\)', code) or re.search(r'\bnumber == \d', code): found['1 numbers for refusals'].append(here)
        if re.search(r'\b(kind|class|g|group|case|how|sort|tag|own)\s*:\s*u(8|16|32)\b', code): found['1 kinds declared as numbers'].append(here)
        if re.search(r'\b(kind|class|case|found|group)\s*(:|==|!=|<=|<)\s*\d+|\d+ < class\b|\b(Passed|Bucket|Single|entered)\([^)]*\b[1245],|case: \d', code): found['1 kinds by a numeral'].append(here)
        if re.search(r'^\s*\d+ => ', code): found['1 kinds by a numeral'].append(here)
        if re.search(r'//.*(\b0 (if|where) (there is|no|it is)|\(\d+: (there is )?none\)|, 0 (if|where) |\bor 0 where|0 for none)', line): found['1 a number that says none'].append(here)
        if re.match(r'\s*(while|loop)\b', code): found['3 loops that count by hand'].append(here)
        if re.match(r'\s*(for)\b', code): found['3 (for loops)'].append(here)
        if re.search(r'\bas (u16|u32|u64|usize)\b', code): found['4 casts that may be From'].append(here)
        if re.search(r'\b(run: Run|group: bool|clauses: bool)\b', code): found['7 a parameter that says what to run'].append(here)
shapes = collections.defaultdict(list)
facts = collections.defaultdict(list)
groups = collections.defaultdict(set)
for name, parameters, clauses, body in rows:
    if len(shape(body).split()) >= 16: shapes[shape(body)].append(name)
    for fact in set(conjuncts(clauses)): facts[fact].append(name)
    for i in range(len(parameters)):
        for k in range(i + 3, len(parameters) + 1): groups[', '.join(parameters[i:k])].add(name)
    loops = re.search(r'^\s*(while|for|loop)\b', body, re.M)
    if not loops and re.search(r'return (true|false);', body): found['4 truth by returns'].append(name)
    if re.fullmatch(r'\s*\w+ as u\d+\s*', body): found['4 conversions by hand'].append(name)
    if len(re.findall(r'^\s*(\w+): \w+\.\1,$', body, re.M)) >= 3: found['4 copies by hand'].append(name)
    if re.search(r' (same_\w+|zeros|number_of|lower|least|left)$', name) and '==' not in re.sub(r'//.*', '', body).split('\n')[0]: found['4 equality, order and such by hand'].append(name)
    if re.search(r'\b(\w+): &(mut )?\[\w+\]', ', '.join(parameters)):
        for slice_name in re.findall(r'(\w+): &(?:mut )?\[\w+\]', ', '.join(parameters)):
            counts = [p.split(':')[0] for p in parameters if p.endswith(': usize')]
            if any(re.search(r'\b%s ≤ length (\(records_of )?%s\.' % (c, slice_name), clauses) for c in counts): found['6 a buffer with its length beside'].append(name + ' ' + slice_name)
    if len(re.findall(r'length \w+\.(?:now|old) ≡ (?:32 \* )?length \w+\.now', clauses.split('ensures')[0])) >= 1: found['6 parallel columns'].append(name)
for names in shapes.values():
    if len(names) > 1: found['2 functions of one shape'].append(' | '.join(names))
for fact, names in facts.items():
    if len(names) >= 3: found['5 facts in three requires or more'].append('%d: %s' % (len(names), fact))
largest = [g for g, names in groups.items() if len(names) >= 3 and not any(g != h and g in h and len(groups[h]) >= len(names) for h in groups)]
found['5 parameters that travel together'] += ['%d: %s' % (len(groups[g]), g) for g in largest]
for point in sorted(found):
    print('%s: %d' % (point, len(found[point])))
    if VERBOSE and not point.startswith('8'):
        for place in sorted(found[point]): print('    ' + place)
