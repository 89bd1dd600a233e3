#!/usr/bin/env python3
"""Makes the input and the expected output of the program crate replay_keys.

The expected output comes from a model of document 01, sections 1 and 2 and numbers 1 to 8, written here from the
paper and not from the Rattle code.  usage: python3 tools/replay_keys.py   (writes crates/replay_keys/stdin, stdout)

Input, in records of 16 bytes: 244 (half arity, word number of starts, long c), 245 (word number of code bytes), one
241 for each start (word), then the code, filled up with zeros to whole records.
Output for each case: `case N code A build B`, A and B the refusal numbers or 0; if A is 0, for each clause its offset
and for each argument sort, arity and bits of its key.
"""
import os, random, struct

PROLOGUE, ARGLESS = range(0, 10), range(32, 39)
STRUCTURE, LIST, CONSTANT, STRING = 16, 17, 18, 19


def rec(kind, sub=0, half=0, word=0, long=0):
    return struct.pack('<BBHIQ', kind, sub, half, word, long)


def opclass(op):
    if op in PROLOGUE: return 'prologue'
    if op in ARGLESS: return 'argless'
    return {STRUCTURE: 'structure', LIST: 'list', CONSTANT: 'constant', STRING: 'string'}.get(op, 'body')


def is_body(r):
    kind, sub = r[0], r[1]
    c = opclass(kind)
    return c == 'body' or (c in ('structure', 'list', 'constant', 'string') and sub & 3 != 0)


def refusal(arity, c, code, starts, building):
    if not 1 <= arity <= 32: return 1
    if building and not 1 <= c <= arity: return 2
    if len(code) % 16 or len(code) // 16 > 32768: return 3
    rs = [struct.unpack_from('<BBHIQ', code, i) for i in range(0, len(code), 16)]
    if not 1 <= len(starts) <= 1024: return 4
    if any(a >= b for a, b in zip(starts, starts[1:])) or starts[-1] >= len(rs): return 4
    for i, s in enumerate(starts):
        clause = rs[s:starts[i + 1]] if i + 1 < len(starts) else rs[s:]
        if not any(is_body(r) for r in clause): return 5
        last = 0
        for r in clause:
            kind, sub, half, word, _ = r
            cl = opclass(kind)
            if cl in ('structure', 'list', 'constant', 'string'):
                if sub >> 2: return 6
                if sub & 3 == 0:
                    if cl == 'constant' and half not in (1, 2, 3): return 6
                    if cl == 'structure' and not 1 <= half <= 255: return 6
                    if word == 0 or word > arity or word <= last: return 7
                    last = word
            if is_body(r): break
    if building:
        for i, s in enumerate(starts):
            if keys(rs, starts, i, arity)[c - 1] == (0, 0, 0): return 8
    return 0


def keys(rs, starts, i, arity):
    clause = rs[starts[i]:starts[i + 1]] if i + 1 < len(starts) else rs[starts[i]:]
    row = [(0, 0, 0)] * arity
    for kind, sub, half, word, long in clause:
        if is_body((kind, sub)): break
        cl = opclass(kind)
        if cl == 'structure': row[word - 1] = (4, half, long)
        elif cl in ('list', 'string'): row[word - 1] = (5, 0, 0)
        elif cl == 'constant': row[word - 1] = (half, 0, long)
    return row


BODY = rec(64)


def cases():
    out = []
    def case(arity, c, starts, code): out.append((arity, c, starts, b''.join(code) if isinstance(code, list) else code))
    # every opcode: alone before a body record; the model says which of them end the head
    for op in range(256): case(1, 1, [0], [rec(op, 0, 1, 1, 7), rec(CONSTANT, 0, 2, 1, 5), BODY])
    # each keyed opcode with each value of sub
    for op in (STRUCTURE, LIST, CONSTANT, STRING):
        for sub in list(range(9)) + [16, 32, 64, 128, 129, 255]: case(2, 1, [0], [rec(LIST, 0, 0, 1), rec(op, sub, 2, 2, 9), BODY])
    # 1 and 2
    for arity in (0, 1, 2, 31, 32, 33, 34, 255, 256, 65535):
        for c in (0, 1, 2, arity - 1 if arity else 0, arity, arity + 1, 2**32 + 1, 2**64 - 1): case(arity, c, [0], [rec(LIST, 0, 0, 1), BODY])
    # 3: part records
    for n in (0, 1, 15, 16, 17, 31, 32, 33): case(1, 1, [0], (rec(CONSTANT, 0, 1, 1, 1) + BODY + BODY)[:n])
    # 4
    three = [rec(CONSTANT, 0, 1, 1, 1), BODY] * 3
    for starts in ([], [0], [2], [5], [6], [7], [0, 2], [0, 2, 4], [2, 0], [3, 3], [0, 0], [0, 4, 2], [0, 5], [0, 6], [2**32 - 1], [0, 2**31], [4], [2, 4]): case(1, 1, starts, three)
    # 5 before 6 and 7 of the same clause, clause 1's 7 before clause 2's 5
    case(2, 1, [0], [rec(LIST, 0, 0, 1)])
    case(2, 1, [0], [rec(LIST, 4, 0, 1)])
    case(2, 1, [0], [rec(LIST, 0, 0, 3)])
    case(2, 1, [0, 2], [rec(LIST, 0, 0, 0), BODY, rec(LIST, 0, 0, 1)])
    case(2, 1, [0, 1], [rec(LIST, 0, 0, 1), rec(LIST, 0, 0, 0), BODY])
    case(2, 1, [0, 2], [rec(LIST, 0, 0, 1), BODY, rec(LIST, 8, 0, 0), BODY])
    case(2, 1, [0, 1, 2], [rec(9), rec(32), BODY])
    # 6 and 7 within a record and a clause
    for half in (0, 1, 2, 3, 4, 255, 256, 257, 65535):
        for op in (STRUCTURE, CONSTANT, LIST, STRING):
            for sub in (0, 1, 2, 4): case(1, 1, [0], [rec(op, sub, half, 1, 2**63 + 1), BODY])
    for word in (0, 1, 2, 3, 4, 2**31, 2**32 - 1):
        for op in (STRUCTURE, CONSTANT, LIST, STRING): case(3, 1, [0], [rec(LIST, 0, 9, 1, 9), rec(op, 0, 1, word, 3), BODY])
    for a in range(4):
        for b in range(4): case(3, 2, [0], [rec(CONSTANT, 0, 1, a, 1), rec(32), rec(CONSTANT, 0, 2, b, 2), rec(1), BODY])
    case(1, 1, [0], [rec(LIST, 0, 0, 1), rec(LIST, 1, 0, 0), BODY])
    case(1, 1, [0], [rec(LIST, 5, 0, 1), BODY])
    case(1, 1, [0], [rec(LIST, 0, 0, 1), BODY, rec(CONSTANT, 0, 9, 0), rec(LIST, 255, 0, 0)])
    # 8, and records before the first start
    case(2, 2, [0], [rec(LIST, 0, 0, 1), BODY])
    case(2, 2, [0, 2], [rec(LIST, 0, 0, 2), BODY, rec(LIST, 0, 0, 1), BODY])
    case(2, 1, [1], [rec(LIST, 255, 9, 0), rec(LIST, 0, 0, 1), BODY])
    # arity 32, every argument keyed
    case(32, 32, [0], [rec(CONSTANT, 0, 1 + i % 3, i + 1, i * i) for i in range(32)] + [BODY])
    case(32, 32, [0], [rec(STRUCTURE, 0, i + 224, i + 1, 2**64 - 1 - i) for i in range(32)] + [BODY])
    # random ones, from a fixed seed
    rnd = random.Random(1983)
    for _ in range(300):
        arity, code, starts = rnd.randint(1, 5), [rec(rnd.randrange(256), rnd.randrange(256))] * rnd.randint(0, 1), []
        for _ in range(rnd.randint(1, 4)):
            starts.append(len(code))
            for reg in sorted(rnd.sample(range(1, arity + 1), rnd.randint(0, arity))):
                for _ in range(rnd.randint(0, 1)): code.append(rec(rnd.choice([0, 4, 9, 32, 35, 38]), rnd.randrange(256), rnd.randrange(65536), rnd.randrange(9)))
                op = rnd.choice([STRUCTURE, LIST, CONSTANT, STRING])
                code.append(rec(op, 0, rnd.randint(1, 3), reg, rnd.choice([0, 1, 7, 2**64 - 1, rnd.getrandbits(64)])))
            if rnd.random() < 0.1 and code:
                at = rnd.randrange(len(code)); r = bytearray(code[at]); r[rnd.choice([0, 1, 2, 4])] ^= 1 << rnd.randrange(8); code[at] = bytes(r)
            if rnd.random() < 0.97: code.append(rec(rnd.choice([64, 10, 15, 20, 39, 255]), rnd.randrange(256), 7, 7, 7))
            for _ in range(rnd.randint(0, 1)): code.append(rec(rnd.randrange(256), rnd.randrange(256), 1, 2, 3))
        case(arity, rnd.randint(1, arity), starts, code)
    return out


def shown(n, arity, c, starts, code):
    a, b = refusal(arity, c, code, starts, False), refusal(arity, c, code, starts, True)
    lines = ['case %d code %d build %d' % (n, a, b)]
    if a == 0:
        rs = [struct.unpack_from('<BBHIQ', code, i) for i in range(0, len(code), 16)]
        for i, s in enumerate(starts):
            lines.append(' '.join([str(s + 1)] + ['%d,%d,%d' % k for k in keys(rs, starts, i, arity)]))
    return lines


def large():
    """The cases that the program makes in memory: n records, the last one a body record, one start; n body records, n starts."""
    lines = []
    for n in (32767, 32768, 32769):
        code = rec(LIST, 0, 0, 1) + bytes(16 * (n - 2)) + BODY
        lines.append('records %d code %d build %d' % (n, refusal(1, 1, code, [0], False), refusal(1, 1, code, [0], True)))
    for n in (1023, 1024, 1025):
        code = BODY * n
        lines.append('starts %d code %d build %d' % (n, refusal(1, 1, code, list(range(n)), False), refusal(1, 1, code, list(range(n)), True)))
    return lines


if __name__ == '__main__':
    here = os.path.join(os.path.dirname(os.path.abspath(__file__)), '..', 'crates', 'replay_keys')
    data, lines, reached = [], [], {}
    for n, (arity, c, starts, code) in enumerate(cases()):
        data.append(rec(244, 0, arity, len(starts), c) + rec(245, 0, 0, len(code)))
        data += [rec(241, 0, 0, s) for s in starts] + [code + bytes(-len(code) % 16)]
        more = shown(n, arity, c, starts, code)
        lines += more
        for w in (more[0].split()[3], more[0].split()[5]): reached[w] = reached.get(w, 0) + 1
    lines += large()
    open(os.path.join(here, 'stdin'), 'wb').write(b''.join(data))
    open(os.path.join(here, 'stdout'), 'w').write('\n'.join(lines) + '\n')
    print(len(cases()), 'cases,', sum(map(len, data)), 'bytes; numbers reached:', dict(sorted(reached.items())))
