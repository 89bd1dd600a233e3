#!/usr/bin/env python3
"""Makes the input and the expected output of the program crate replay_lines, and the worked show of the program lines.

The index of an accepted input comes from the original Rust, through the oracle. The number of a refused one comes from
the model below: document 01's "Worked show" for the input, refusal() of replay_keys.py for 1 to 8, and the size of
the index for 9.  usage: python3 tools/replay_lines.py   (writes stdin and stdout of crates/lines and crates/replay_lines)

Input: for each case a record 246 (word the number of bytes), then the bytes, filled up with zeros to whole records.
Output for each case: `input N`, then what the program lines prints of it.
"""
import os, random, struct
from cases import build_oracle, lines_input, oracle_listing, random_case, rec, settings_record, STRUCTURE, LIST, CONSTANT, STRING
from replay_keys import keys, refusal

BODY = rec(64)
LONGEST = 65536  # bytes of 4,096 records, of the input and of the index


def parts(data):
    """Settings record, starts and code of an input."""
    rs = [struct.unpack_from('<BBHIQ', data, i) for i in range(0, len(data) - 15, 16)]
    first = rs[0] if rs else (0, 0, 0, 0, 0)
    if len(data) > LONGEST: return first, [], data[:1]
    starts = []
    for r in rs[1:]:
        if r[0] != 241: break
        starts.append(r[3])
    return first, starts, data[16 * (1 + len(starts)):]


def tables(arity, mask, extensible, rows, argument):
    """How many records the on-demand and dead tables of a line take; rows are the keys of its clauses."""
    n = 0
    for a in range(argument + 1, arity + 1):
        if mask >> (a - 1) & 1: continue
        is_open = sum(row[a - 1] == (0, 0, 0) for row in rows)
        if is_open == 0: n += 1
        elif extensible: n += 1 + is_open
    return n


def size(first, rows, c):
    """How many records the built index takes."""
    arity, mask, dynamic, extensible = first[2], first[3], first[1] & 1, first[1] >> 1 & 1
    buckets = {}
    for row in rows: buckets.setdefault(row[c - 1], []).append(row)
    if dynamic: buckets.setdefault((5, 0, 0), [])
    n = 1 + 1 + len(buckets) + tables(arity, mask, extensible, rows, c) + len(rows)
    for members in buckets.values():
        if dynamic or len(members) > 1: n += 1 + tables(arity, mask, extensible, members, c) + len(members)
    return n


def number(data):
    """The number of an input's refusal, 0 if it is accepted; and the size of the index of accepted code."""
    first, starts, code = parts(data)
    arity, c = first[2] if first[0] == 240 else 0, first[4]
    n = refusal(arity, c, code, starts, True)
    if n: return n, 0
    rs = [struct.unpack_from('<BBHIQ', code, i) for i in range(0, len(code), 16)]
    records = size(first, [keys(rs, starts, i, arity) for i in range(len(starts))], c)
    return (9 if records > LONGEST // 16 else 0), records


def settings(arity, c=1, mask=0, flags=''):
    """flags: d dynamic, e extensible, n non-counted, s skip."""
    return dict(arity=arity, c=c, mask=mask, dynamic=int('d' in flags), extensible=int('e' in flags), noncounted=int('n' in flags), skip=int('s' in flags))


def atom(a, reg=1): return rec(CONSTANT, 0, 1, reg, a)
def lst(reg=1): return rec(LIST, 0, 0, reg)


def case(s, clauses, before=(), after=()):
    """clauses: lists of records without the body record."""
    code, starts = list(before), []
    for clause in clauses:
        starts.append(len(code))
        code += list(clause) + [BODY]
    return dict(settings=s, starts=starts, code=code + list(after), calls=[])


SHOW = [[atom(7), atom(1, 2)], [atom(8), lst(2)], [atom(7), atom(2, 2)]]
OPEN = [[atom(7), atom(1, 2), atom(5, 3)], [atom(8), lst(3)], [lst(), atom(2, 2)], [atom(7), lst(2), atom(5, 3)], [lst(), rec(STRUCTURE, 0, 2, 2, 9), atom(6, 3)]]
SORTS = [[rec(CONSTANT, 0, 1, 1, 5)], [rec(CONSTANT, 0, 2, 1, 5)], [rec(CONSTANT, 0, 3, 1, 5)], [rec(STRUCTURE, 0, 1, 1, 5)],
         [rec(LIST, 0, 9, 1, 9)], [rec(STRING, 0, 8, 1, 8)], [rec(CONSTANT, 0, 2, 1, 5)], [rec(STRUCTURE, 0, 1, 1, 5)]]
ARITIES = [[rec(STRUCTURE, 0, n, 1, 12), rec(STRUCTURE, 0, 3 - n, 2, 12)] for n in (1, 2, 1, 2, 1)]


# with arity 32 and extensible, an index of 4,096 records if argument 2 is masked, and of one more if not
FULL = [[atom(i), atom(i % 3, 2)] for i in range(127)]


def accepted():
    out = []
    flags = [''.join(f for i, f in enumerate('dens') if k >> i & 1) for k in range(16)]
    out += [case(settings(2, 1, 0, f), SHOW) for f in flags]
    out += [case(settings(3, 1, 0, f), OPEN) for f in flags]
    # masks: of c itself, of one and of all later arguments, and bits from the arity up
    for mask in (1, 2, 4, 6, 7, 2**32 - 1, 2**32 - 8, 2**31): out += [case(settings(3, 1, mask, f), OPEN) for f in ('', 'e')]
    # c in the middle and last
    middle = [[atom(i, 1), atom(i % 2, 2), lst(3), atom(i % 3, 4)] for i in range(4)]
    for c in (1, 2, 3, 4): out += [case(settings(4, c, 0, f), middle) for f in ('', 'd')]
    out.append(case(settings(4, 2, 8, 'e'), [[atom(i % 2, 2)] + [atom(i, 4)] * (i % 2) for i in range(4)]))
    # every sort, equal names of different arity, the widest keys
    for f in ('', 'd', 'n', 'dn'): out.append(case(settings(1, 1, 0, f), SORTS))
    for f in ('', 'd'): out += [case(settings(2, c, 0, f), ARITIES) for c in (1, 2)]
    wide = [[rec(CONSTANT, 0, s, 1, b)] for s in (1, 2, 3) for b in (0, 2**32, 2**63, 2**64 - 1, 0x7ff8000000000000)]
    out += [case(settings(1, 1, 0, f), wide + wide[:4] + [[rec(STRUCTURE, 0, 255, 1, 2**64 - 1)]]) for f in ('', 'd')]
    # one clause, one key, only lists
    for f in ('', 'd', 's', 'n'):
        out.append(case(settings(1, 1, 0, f), [[atom(3)]]))
        out.append(case(settings(2, 1, 0, f), [[atom(3), atom(i, 2)] for i in range(5)]))
        out.append(case(settings(2, 1, 0, f), [[lst(), lst(2)], [lst(), atom(1, 2)]]))
    # many keys, and prologue, argless and body records between and after
    many = [[rec(0), rec(CONSTANT, 0, 1 + i % 3, 1, i % 20), rec(33, 9, 9, 9, 9), atom(i, 2)] for i in range(60)]
    out += [case(settings(2, 1, 0, f), many, [rec(250)], [rec(LIST, 255), BODY]) for f in ('', 'de')]
    out.append(case(settings(2, 2), [[lst(), lst(2)], [atom(1, 2), rec(LIST, 1, 0, 0)]]))
    # arity 32
    rows = [[atom(i * j % 7, j) for j in range(1, 33)] for i in range(5)]
    out += [case(settings(32, c, m, f), rows) for c, m, f in ((1, 0, ''), (16, 0, 'e'), (32, 0, 'd'), (31, 2**31, ''), (1, 0xaaaaaaaa, 'd'))]
    # 300 clauses; 400 with one key each; an index of exactly 4,096 records; an input of exactly 4,096
    out.append(case(settings(2, 1, 0, 'n'), [[atom(i % 100), atom(i, 2)] for i in range(300)]))
    out.append(case(settings(1, 1, 0, 's'), [[atom(i * i)] for i in range(400)]))
    out.append(case(settings(32, 1, 2, 'e'), FULL))
    big = case(settings(1, 1, 0, 'd'), [[atom(i)] for i in range(1023)])
    out.append(dict(big, code=big['code'] + [rec(17, 99)] * (4096 - 1 - 3 * 1023)))
    rnd = random.Random(1983)
    while len(out) < 150:
        k = random_case(rnd)
        if k['code'][0][0] != 241: out.append(k)
    return out


def noisy(k):
    """The same input with bits and fields that are not read."""
    s = bytearray(settings_record(k['settings'])); s[1] |= 0xf0
    return bytes(s) + b''.join(rec(241, 7, 65535, n, 2**64 - 1) for n in k['starts']) + b''.join(k['code'])


def refused():
    show, head = case(settings(2), SHOW), settings_record(settings(2))
    data = lines_input(show)
    def with_head(arity, c): return rec(240, 0, arity, 0, c) + data[16:]
    def coded(starts, *code): return head + b''.join(rec(241, 0, 0, s) for s in starts) + b''.join(code)
    # 1: nothing, under a record, no settings, arity
    yield from (b'', data[:1], data[:15], data[16:], rec(239) + data[16:], rec(241, 0, 2, 0, 1) + data[16:], bytes(16) + data[16:])
    for arity in (0, 33, 34, 256, 65535): yield with_head(arity, 1)
    yield with_head(33, 0) + b'x'
    # 2
    for c in (0, 3, 2**32 + 1, 2**64 - 1): yield with_head(2, c)
    yield with_head(2, 3) + b'x'
    # 3: part records of code, of a start and after the settings; one record too many of input that is else accepted
    yield from (data + b'x', data + bytes(15), data[:-1], data[:33], head + b'x', head + rec(241)[:15])
    big = case(settings(1, 1, 0, 'd'), [[atom(i)] for i in range(1023)])
    yield lines_input(big) + rec(17, 99) * (4097 - 1 - 3 * 1023)
    # 4: none, not rising, equal, at and past the end; a second settings record is code
    yield from (head, coded([], *show['code']), coded([3, 0], *show['code']), coded([3, 3], *show['code']), coded([0, 3, 9], *show['code']))
    yield from (coded([9], *show['code']), coded([2**32 - 1], *show['code']), head + head + data[16:])
    # 5
    yield from (coded([0], atom(1)), coded([0, 2], atom(1), BODY, atom(2)), coded([0, 1], atom(1), atom(9, 3), BODY))
    # 6
    for half in (0, 4): yield coded([0], rec(CONSTANT, 0, half, 1, 5), BODY)
    for half in (0, 256): yield coded([0], rec(STRUCTURE, 0, half, 1, 5), BODY)
    yield from (coded([0], rec(LIST, 4, 0, 1), BODY), coded([0], rec(STRING, 0, 0, 1), rec(LIST, 129), BODY), coded([0], rec(CONSTANT, 0, 4, 3), BODY))
    # 7
    for regs in ((0,), (3,), (2, 1), (1, 1), (1, 2, 2)): yield coded([0], *[atom(5, reg) for reg in regs], BODY)
    # 8
    yield from (coded([0], atom(5, 2), BODY), coded([0, 2], atom(5), BODY, BODY), head + rec(241) + head, coded([0], rec(LIST, 1, 0, 1), BODY))
    # 9: one record too many; dead clauses in every line
    yield lines_input(case(settings(32, 1, 0, 'e'), FULL))
    yield lines_input(case(settings(32, 1, 0, 'ed'), [[atom(i)] for i in range(60)]))
    yield lines_input(case(settings(32, 1, 0, 'en'), [[atom(i % 2)] for i in range(200)]))


def framed(data):
    return rec(246, 0, 0, len(data)) + data + bytes(-len(data) % 16)


def write(crate, data, text):
    here = os.path.join(os.path.dirname(os.path.abspath(__file__)), '..', 'crates', crate)
    open(os.path.join(here, 'stdin'), 'wb').write(data)
    open(os.path.join(here, 'stdout'), 'w').write(text)


if __name__ == '__main__':
    oracle, data, lines, reached = build_oracle(), [], [], {}
    for k in accepted():
        inputs = [lines_input(k)] + ([noisy(k)] if len(data) % 10 == 0 and len(k['code']) < 100 else [])
        listing = oracle_listing(oracle, k)
        for d in inputs:
            assert number(d) == (0, listing.count('\n')), (number(d), listing.count('\n'))
            data.append(d); lines.append(listing)
    count = len(data)
    for d in refused():
        n = number(d)[0]
        assert n != 0, d[:64]
        reached[n] = reached.get(n, 0) + 1
        data.append(d); lines.append('refused %d\n' % n)
    write('replay_lines', b''.join(map(framed, data)), ''.join('input %d\n%s' % p for p in enumerate(lines)))
    show = case(settings(2), SHOW)
    write('lines', lines_input(show), oracle_listing(oracle, show))
    print(count, 'accepted,', len(data) - count, 'refused', reached, sum(len(framed(d)) for d in data), 'bytes,', sum(l.count('\n') for l in lines), 'lines')
