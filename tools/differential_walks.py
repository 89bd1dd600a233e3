#!/usr/bin/env python3
"""Compares the program walks with the original Rust and with the model on random inputs of five calls, answer by answer and record by record.

walks prints through replay_walks, 200 inputs to a process, two processes at a time.
usage: python3 tools/differential_walks.py N SEED [limited|broken] [model]   (needs build/bin/replay_walks, which tools/programs makes)
       python3 tools/differential_walks.py limits   (needs build/bin/walks: a few inputs at the ends of document 01's ranges)
Plain: room for every expansion, everything from the oracle. limited: capacities near what the calls need, from the model,
and from the oracle what the oracle can say. broken: damaged inputs, calls and handed-in indexes, from the model.
With `model` no Rattle program runs: the oracle against the model."""
import collections, multiprocessing, os, random, subprocess, sys, time
from cases import build_oracle, rec, walks_input
from model import MOST
from random_walks import MAKERS
from replay_lines import BODY, atom, case, framed, lst, settings
from replay_walks import count, expected, table
from walk_lists import L, U, a, full
from walks_model import LONGEST, printed

BIN = os.path.join(os.path.dirname(os.path.abspath(__file__)), '..', 'build', 'bin')
BATCH = 200


def printed_by_program(inputs):
    """What replay_walks prints of each input."""
    try:
        p = subprocess.run([os.path.join(BIN, 'replay_walks')], input=b''.join(map(framed, inputs)), capture_output=True, timeout=300)
        text, end = p.stdout, 'exit %d' % p.returncode
    except subprocess.TimeoutExpired as e: text, end = e.stdout or b'', 'no end'
    found = [part.partition('\n')[2] for part in ('\n' + text.decode()).split('\ninput ')[1:]]
    return found + ['nothing, ' + end] * (len(inputs) - len(found))


def first_difference(want, have):
    want, have = want.split('\n'), have.split('\n')
    at = next((i for i, (w, h) in enumerate(zip(want, have)) if w != h), min(len(want), len(have)))
    return 'line %d: expected %r, walks has %r' % (at + 1, want[at:at + 1], have[at:at + 1])


def batch(job):
    """The counts of a batch and its first difference, if there is one."""
    oracle, seeds, mode, program = job
    counts, inputs = collections.Counter(), [MAKERS[mode](random.Random(s)) for s in seeds]
    shown = printed_by_program(inputs) if program else [None] * len(inputs)
    for s, data, text in zip(seeds, inputs, shown):
        found, differs = expected(oracle, data)
        want = ''.join(t for _, t in found)
        if text is not None and want.rstrip('\n') != text.rstrip('\n'): differs = first_difference(want, text)
        if differs: return counts, 'seed %s, input %s\n%s' % (s, data.hex(), differs)
        count(counts, found)
        counts['records compared'] += want.count('\n') - len(found)
    return counts, None


def main(n, seed, mode, program):
    oracle, counts, began = build_oracle(), collections.Counter(), time.time()
    seeds = ['%d.%d' % (seed, i) for i in range(n)]
    jobs = [(oracle, seeds[i:i + BATCH], mode, program) for i in range(0, n, BATCH)]
    with multiprocessing.Pool(2) as pool:
        for part, differs in pool.imap(batch, jobs):
            counts.update(part)
            if differs:
                print(differs)
                return 1
    print(table(counts))
    print('%d inputs from seed %d (%s, %s), %d seconds: no difference' % (n, seed, mode, 'the program' if program else 'model against oracle', time.time() - began))
    return 0


def large():
    """Inputs at the ends of the ranges: name, data."""
    yield 'an index of 65,535 records', walks_input(dict(full(1008, 30), calls=[a(3)] + [U] * 31 + [a(3)] * 32), 1008, 2**64 - 1)
    yield 'an index of 65,536 records', walks_input(dict(full(991, 63), calls=[U] * 32), 991, 2**64 - 1)
    k = case(settings(32, 1, 0, 'e'), [[atom(i % 60), atom(i, 32)] for i in range(1024)])
    calls = sum([[first] + [U] * 30 + [a(7)] for first in (U, a(4), a(5), a(6), a(4))], [])
    yield 'an index grown to 65,535 records', walks_input(dict(k, calls=calls), 1024, MOST)
    many = case(settings(3), [[atom(i % 7), atom(i % 11, 2), lst(3) if i % 2 else atom(i, 3)] for i in range(1024)])
    calls = [U, a(4), a(5), a(3), a(5), U, a(2), a(4), L, U, U, L, U, a(4), a(5)]
    for capacity in (MOST, 4500, 3200): yield '1,024 clauses, capacity %d' % capacity, walks_input(dict(many, calls=calls), 1024, capacity)
    yield '1,025 clauses', walks_input(dict(case(settings(1), [[atom(i)] for i in range(1025)]), calls=[U]), 1025, MOST)
    for n in (32768, 32769):
        k = case(settings(1), [[atom(7)]], after=[BODY] * (n - 2))
        yield 'code of %d records' % n, walks_input(dict(k, calls=[a(7), U]), 1, MOST)
    k = case(settings(1), [[atom(7)]], after=[BODY] * 30000)
    given = [(1, 0, 0, 0, 0), (3, 0, 1, 0, 0), (6, 1, 0, 1, 0)]
    longest = walks_input(dict(k, calls=[a(7), U]), 1, 4, given + [(9,) * 5] * (LONGEST // 16 - 30002 - 9), 3)
    assert len(longest) == LONGEST
    yield 'input of 65,536 records', longest
    yield 'input one byte longer', longest + b'x'
    yield 'input one record longer, c 0', rec(240, 0, 1, 0, 0) + longest[16:] + BODY


def limits():
    for name, data in large():
        p = subprocess.run([os.path.join(BIN, 'walks')], input=data, capture_output=True)
        want, have = printed(data), p.stdout.decode()
        if want != have:
            print(name, 'differs, exit', p.returncode, first_difference(want, have))
            return 1
        print('%-36s %8d bytes of input, %7d lines: %s' % (name, len(data), want.count('\n'), want.partition('\n')[0]))
    return 0


if __name__ == '__main__':
    words = sys.argv[1:]
    if words == ['limits']: sys.exit(limits())
    sys.exit(main(int(words[0]), int(words[1]), next((w for w in words[2:] if w in MAKERS), 'plenty'), 'model' not in words))
