#!/usr/bin/env python3
"""Compares the program lines with the original Rust on random inputs, record by record.

Both print the index as a listing: the Rust through the oracle, lines through replay_lines, 500 inputs to a process.
usage: python3 tools/differential.py N SEED [broken]   (needs build/bin/replay_lines, which tools/programs makes)
With `broken` some bytes of each input are changed; the number of a refused one is that of the model in replay_lines.py.
"""
import os, random, subprocess, sys
from cases import build_oracle, lines_input, oracle_listing, random_case, rec
from replay_lines import framed, number, parts

PROGRAM = os.path.join(os.path.dirname(os.path.abspath(__file__)), '..', 'build', 'bin', 'replay_lines')


def accepted(rnd):
    """An accepted input: mostly small, some with many clauses."""
    while True:
        k = random_case(rnd, 0, rnd.choice([3, 8, 8, 8, 8, 8, 30, 100]))
        data = lines_input(k)
        if k['code'][0][0] != 241 and number(data)[0] == 0: return data


def broken(rnd):
    """An input with bytes changed, cut, records taken out or put in."""
    b = bytearray(lines_input(random_case(rnd, 0, 4)))
    for _ in range(rnd.choice([1, 1, 2, 4])):
        how, at = rnd.randrange(8), 16 * rnd.randrange(len(b) // 16 + 1)
        field = at + rnd.choice([0, 1, 2, 2, 4, 4, 8])
        if how < 4 and field < len(b): b[field] = rnd.choice([0, 1, 2, 3, 4, 5, 16, 17, 18, 19, 64, 240, 241, 255, rnd.randrange(256)])
        elif how == 4: del b[rnd.randrange(len(b) + 1):]
        elif how == 5: del b[at:at + 16]
        elif how == 6: b[at:at] = rec(rnd.choice([16, 17, 18, 19, 64, 241, 240]), rnd.choice([0, 0, 1, 4]), rnd.randrange(3), rnd.randrange(3), rnd.randrange(3))
        else: b += bytes(rnd.choice([1, 15, 16]))
    return bytes(b)


def expected(oracle, data):
    n = number(data)[0]
    if n: return 'refused %d\n' % n
    (_, sub, half, word, long), starts, code = parts(data)
    s = dict(arity=half, c=long, mask=word, dynamic=sub & 1, extensible=sub >> 1 & 1, noncounted=sub >> 2 & 1, skip=sub >> 3 & 1)
    return oracle_listing(oracle, dict(settings=s, starts=starts, code=[code], calls=[]))


def listings(inputs):
    """What replay_lines prints of each input."""
    text = subprocess.run([PROGRAM], input=b''.join(map(framed, inputs)), capture_output=True).stdout.decode()
    return [part.partition('\n')[2] for part in ('\n' + text).split('\ninput ')[1:]]


def main(n, seed, make):
    oracle, records, refused = build_oracle(), 0, 0
    for first in range(0, n, 500):
        seeds = ['%d.%d' % (seed, i) for i in range(first, min(first + 500, n))]
        inputs = [make(random.Random(s)) for s in seeds]
        found = listings(inputs) + ['nothing'] * 500
        for s, data, text in zip(seeds, inputs, found):
            want = expected(oracle, data)
            if want.rstrip('\n') != text.rstrip('\n'):
                print('seed', s, 'differs: expected\n' + want + 'and lines has\n' + text)
                return 1
            refused += want.startswith('refused')
            records += 0 if want.startswith('refused') else want.count('\n')
    print('%d inputs from seed %d, %d of them refused, %d records: no difference' % (n, seed, refused, records))
    return 0


if __name__ == '__main__':
    sys.exit(main(int(sys.argv[1]), int(sys.argv[2]), broken if sys.argv[3:] == ['broken'] else accepted))
