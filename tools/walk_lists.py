"""The stored lists of walks: inputs of the program walks, each with what it must show at least.

A list is (what, data): what is 'accepted' if no call may be refused, a number if all calls (or the builder) must be refused
with it, 'mixed' otherwise."""
import random
from cases import rec, settings_record, walks_input, LIST, CONSTANT, STRING, STRUCTURE
from model import INTERNAL, MOST, build
from random_walks import MAKERS, grown_index, made_index, some_case
from replay_lines import ARITIES, BODY, OPEN, SHOW, SORTS, atom, case, lst, settings

U, L = rec(0), rec(0, 5)
def a(n): return rec(0, 1, 0, 0, n)
def lit(sort, n): return rec(0, sort, 0, 0, n)
def st(n, arity=2): return rec(0, 4, arity, 0, n)

# index records
def line(n, dynamic=0): return (1, dynamic, 0, n, 0)
def switch(argument): return (2, 0, argument, 0, 0)
def demand(argument): return (3, 0, argument, 0, 0)
def dead(argument): return (4, 0, argument, 0, 0)
def entry(sort, pointer, bits=0, arity=0): return (5, sort, arity, pointer, bits)
def off(tag, offset): return (6, tag, 0, offset, 0)
def gone(offset): return (7, 0, 0, offset, 0)
def to(distance): return INTERNAL | distance


def index_of(k): return build(k['settings'], k['starts'], b''.join(k['code']), MOST)[1]


def walks(k, calls, room=None, out=None, index=None, count=None, capacity=None):
    """room: records beyond what is there; plenty if not said."""
    there = len(index_of(k) if index is None else index)
    if capacity is None: capacity = MOST if room is None else there + room
    out = len(k['starts']) if out is None else out
    return walks_input(dict(k, calls=calls), out, capacity, index, there if count is None else count)


SHOWN = case(settings(2), SHOW)
SHOWN_CALLS = [U, L, a(7), a(9), a(9), U, U, U, st(3), L, a(7), a(1), U, L, a(7), a(2), L, L, U, a(5)]
OPEN_CALLS = [U, U, a(5), a(7), a(1), a(6), L, st(9), U, L, a(2), a(5), U, a(2), U, a(7), L, L, a(7), a(1), a(6), a(8), U, L]
DEEP = [[atom(i % 2), atom(i // 2 % 2, 2), atom(i // 4 % 2, 3), [lst(4), atom(i, 4), rec(STRUCTURE, 0, 2, 4, 5)][i % 3]] for i in range(8)]
DEEP_CALLS = [a(0), a(1), a(0), U, U, a(1), a(1), L, U, U, U, a(4), a(1), a(0), a(1), a(5), a(0), a(1), a(0), U, U, U, a(0), st(5), U, a(0), U, lit(2, 4)]
MIDDLE = [[atom(i, 1), atom(i % 2, 2), lst(3), atom(i % 3, 4)] for i in range(4)]


def full(n, buckets):
    """n clauses with a key at argument 1 alone, dead tables everywhere: 33 * buckets + 64 * n + 33 records."""
    return case(settings(32, 1, 0, 'e'), [[atom(i % buckets)] for i in range(n)])


def rows():
    """The worked show's ten rows: what, data, what the last answer's first line begins with."""
    def call(*args): return walks(SHOWN, list(args))
    yield 'accepted', walks(SHOWN, []), 'built 12 1'
    yield 'accepted', call(U, L), 'walk external 0 1 2 stored 15 4'
    yield 'accepted', call(a(7), a(9)), 'walk fail 0 0 2 stored 14'
    yield 'accepted', call(a(9), U), 'walk fail 0 0 1 stored 12'
    yield 'accepted', call(U, U), 'walk variadic 0 3 2 stored 12 1 4 7'
    yield 'accepted', walks(SHOWN, [U, L], capacity=13), 'walk external 0 1 2 unstored 12 4'
    yield 'accepted', call(st(3), L), 'walk fail 0 0 1 stored 12'
    yield 'accepted', walks(case(settings(2, flags='d'), SHOW), [L, U]), 'walk sequence 1 0 2 stored'
    yield 9, walks(SHOWN, [U, L], capacity=11), 'refused 9'
    yield 'accepted', walks(case(settings(32), SHOW), []), 'built 12 1'
    yield 1, walks_input(case(settings(33), SHOW), 3, MOST), 'refused 1'


def fresh():
    """Indexes built: capacities, settings, masks, chosen arguments, sorts."""
    for f in ('', 'd', 'n', 'de', 's'):
        for room in (0, 1, 2, 3, 5, None) if f != 's' else (None,): yield 'accepted', walks(case(settings(2, flags=f), SHOW), SHOWN_CALLS, room)
    for f in ('', 'e', 'd', 'de', 'dens'):
        for room in (0, 2, 5, 9, None): yield 'accepted', walks(case(settings(3, flags=f), OPEN), OPEN_CALLS, room)
    for f in ('', 'd', 'n'):
        for room in (0, 7, 20, 60, None) if f != 'n' else (30,): yield 'accepted', walks(case(settings(4, flags=f), DEEP), DEEP_CALLS, room)
    calls = [U, a(1), U, U, U, U, L, a(2), a(3), a(1), L, a(1), U, U, U, a(0), a(2), U, st(1), U, U, a(0), L, a(2)]
    for c in (1, 2, 3, 4):
        for f, room in (('', None), ('d', None), ('e', 4)): yield 'accepted', walks(case(settings(4, c, 0, f), MIDDLE), calls, room)
    for mask in (1, 2, 4, 6, 7, 2**32 - 1, 2**32 - 8):
        for f in ('', 'de'): yield 'accepted', walks(case(settings(3, 1, mask, f), OPEN), OPEN_CALLS)
    # every sort at once; one entry of a group followed whatever its key; floats by their bits
    sorts = [lit(s, 5) for s in (1, 2, 3)] + [lit(1, 6), L, st(5, 1), st(5, 2), U]
    for f in ('', 'd'): yield 'accepted', walks(case(settings(1, flags=f), SORTS), sorts)
    one = [[atom(7)], [rec(STRUCTURE, 0, 1, 1, 5)], [lst()]]
    for f in ('', 'd'):
        yield 'accepted', walks(case(settings(1, flags=f), one), [a(7), a(8), lit(3, 2**64 - 1), st(5, 1), st(5, 2), st(9, 255), L, U])
        yield 'accepted', walks(case(settings(1, flags=f), one[:1]), [a(7), a(8), lit(2, 0), st(5, 1), L, U])
    nan = [0x7ff8000000000000, 0x7ff8000000000001, 0xfff8000000000000, 0, 2**63]
    wide = [[rec(CONSTANT, 0, 3, 1, b), rec(CONSTANT, 0, 3, 2, nan[i - 1])] for i, b in enumerate(nan)]
    for f in ('', 'd'):
        yield 'accepted', walks(case(settings(2, flags=f), wide), sum([[lit(3, b), U] for b in nan], []) + [U, lit(3, nan[1]), U, lit(3, 1), lit(1, 0), U])
    for c in (1, 2): yield 'accepted', walks(case(settings(2, c), ARITIES), [st(12, 1), U, U, st(12, 2), st(12, 1), st(12, 2), st(12, 3), U, st(12, 255), st(12, 1)])
    # many tables in a line; a line of one clause; the empty list line expanded; out longer than the starts
    wide = case(settings(32), [[atom(i * j % 7, j) for j in range(1, 33)] for i in range(3)])
    yield 'accepted', walks(wide, [U] * 31 + [a(1)] + [U] * 32 + [U] * 15 + [a(1)] * 17)
    yield 'accepted', walks(wide, ([U] * 31 + [a(1)]) * 2, 1)
    for room in (0, 3, 8, None): yield 'accepted', walks(case(settings(3, flags='d'), [[atom(7), atom(1, 2), atom(2, 3)]]), [L, U, U, L, a(1), U, L, L, a(2), L, L, L, U, L, L, L, U, L], room, 9)
    many = case(settings(2), [[atom(i % 5), rec(CONSTANT, 0, 2, 2, i)] for i in range(40)])
    yield 'accepted', walks(many, [a(3), lit(2, 8), U, lit(2, 9), a(3), lit(2, 8)])
    yield 'accepted', walks(many, [a(3), lit(2, 8), U, lit(2, 9), a(3), lit(2, 8)], 12)
    text = case(settings(2), [[rec(STRING, 0, 7, 1, 9), atom(1, 2)], [lst(), atom(2, 2)]], [rec(250)], [rec(LIST, 255)])
    yield 'accepted', walks(text, [L, a(1), U, a(2), L, a(3)])


def refused_calls():
    """Refused calls among accepted ones, and out too short."""
    bad = [rec(0, 6), rec(0, 255), rec(0, 4, 0, 0, 7), rec(0, 4, 256, 0, 7), rec(0, 4, 65535), rec(1), rec(1, 1, 0, 0, 7), rec(0, 0, 1), rec(0, 0, 0, 0, 1), rec(0, 1, 1, 0, 7),
           rec(0, 1, 0, 1, 7), rec(0, 3, 1), rec(0, 5, 1), rec(0, 5, 0, 0, 1), rec(0, 5, 0, 1), rec(0, 0, 0, 2**31), rec(0, 2, 0, 2**24, 7)]
    for n, b in enumerate(bad):
        yield 'mixed', walks(SHOWN, [U, L, b, U, U, L, a(7), b, a(7), a(9)], [None, 0, 2, 3][n % 4])
    for calls in ([U], [U, L, U], [U, L, a(7), a(9), a(7)]): yield 'mixed', walks(SHOWN, calls)
    for out in (0, 2): yield 11, walks(SHOWN, [U, L, a(9), U, U, U], out=out)
    yield 'mixed', walks(SHOWN, [rec(9), L, U, L, U], out=2)
    yield 'accepted', walks(SHOWN, [U, U, a(8), U, U, U], out=5)


def head(k): return settings_record(k['settings']) + b''.join(rec(241, 0, 0, s) for s in k['starts'])
def code_of(k): return b''.join(k['code'])


def taken_apart():
    """How an input is taken apart."""
    data, h, code = walks(SHOWN, [U, L, a(7), a(9)]), head(SHOWN), code_of(SHOWN)
    given = walks(SHOWN, [U, L, a(7), a(9)], index=index_of(SHOWN))
    # no settings, under a record, nothing
    for d in (b'', data[:1], data[:15], data[16:], rec(239) + data[16:], rec(242, 1) + data[16:]): yield 1, d
    for d in (given[16:], rec(239, 0, 2) + given[16:], rec(240, 0, 0) + given[16:], rec(240, 0, 33) + given[16:], rec(240, 0, 65535) + given[16:]): yield 1, d
    # no 242: no room, and the record there is code
    yield 9, h + code
    yield 4, h
    yield 'accepted', h + rec(242, 0, 3, 0, 12) + code
    # unused fields and bits, a capacity above the most
    yield 'mixed', h + rec(242, 254, 3, 2, 2**64 - 1) + U + L + code
    yield 'mixed', rec(240, 240, 2, 0, 1) + h[16:] + rec(242, 0, 3, 2, 65536) + U + L + code
    # fewer calls than 242 says: the code counts as calls
    yield 4, h + rec(242, 0, 3, 2**32 - 1, 100) + U + L + code
    yield 4, h + rec(242, 0, 3, 11, 100) + U + L + code
    # no 243: an index of no records and count 0; fewer records than 243 says
    yield 12, h + rec(242, 1, 3, 2, 50) + U + L + code
    yield 12, h + rec(242, 1, 3, 4, 50) + rec(243, 9, 9, 0, 0) + U + L + U + U + code
    yield 4, h + rec(242, 1, 3, 2, 50) + rec(243, 0, 0, 2**32 - 1, 12) + U + L + code
    yield 'accepted', h + rec(242, 1, 3, 2, 50)
    # part records: of the code, a call, the index, 242, a start
    for cut in (1, 8, 15): yield 3, data[:-cut]
    yield 3, data + b'x'
    yield 3, given[:-1]
    for n in (len(h) + 5, len(h) + 16, len(h) + 20, len(h) + 40, 33): yield (4 if n % 16 == 0 else 3), data[:n]
    for n in (len(h) + 60, len(h) + 100, len(h) + 300): yield 3, given[:n + (n % 16 == 0)]


def refused_code():
    """The builder's numbers, and the walk's of the same code with an index handed in."""
    def both(n, s, starts, *code):
        k = dict(settings=s, starts=starts, code=list(code))
        yield n, walks_input(dict(k, calls=[U] * 2 * min(s['arity'], 32)), 9, 99)
        if n not in (2, 8): yield n, walks_input(dict(k, calls=[a(7)] * 3 * max(1, s['arity'])), 9, 99, index_of(SHOWN), 12)
        else: yield 'accepted', walks_input(dict(k, calls=[a(7)] * 2 * s['arity']), 9, 99, [line(0), demand(1), demand(2), off(1, 1)], 4)
    two = settings(2)
    for arity in (0, 33, 40): yield from both(1, settings(arity), [0], atom(1), BODY)
    for c in (0, 3, 2**64 - 1): yield from both(2, settings(2, c), [0], atom(1), BODY)
    yield from both(3, two, [0], atom(1), BODY, b'x')
    for starts in ([], [1, 0], [0, 0], [0, 2], [2**32 - 1]): yield from both(4, two, starts, atom(1), BODY)
    yield from both(5, two, [0], atom(1))
    yield from both(5, two, [0, 1], atom(1), atom(9, 3), BODY)
    for r in (rec(LIST, 4, 0, 1), rec(CONSTANT, 0, 4, 1), rec(CONSTANT, 0, 0, 1), rec(STRUCTURE, 0, 0, 1), rec(STRUCTURE, 0, 256, 1), rec(LIST, 5)): yield from both(6, two, [0], r, BODY)
    for regs in ((0,), (3,), (2, 1), (1, 1)): yield from both(7, two, [0], *[atom(7, reg) for reg in regs], BODY)
    yield from both(8, two, [0], atom(7, 2), BODY)
    yield from both(8, two, [0, 2], atom(7), BODY, BODY)
    yield 9, walks(SHOWN, [U, L], capacity=0)
    yield 9, walks(case(settings(2, flags='de'), SHOW), [U, L], -1)
    # an index of 65,536 records: no capacity is above 65,535
    yield 9, walks_input(dict(full(991, 63), calls=[U] * 32), 991, 2**64 - 1)


def randoms(n):
    rnd = random.Random(1983)
    for i in range(n):
        k = some_case(rnd, 5, 5)
        index = [None, grown_index, made_index][i % 3]
        index = index and index(rnd, k)
        if len(index_of(k)) + len(index or []) < 90: yield 'accepted', walks(k, k['calls'], rnd.choice([0, 1, 4, 9, 30]), index=index)
    for i in range(n // 2):
        data = MAKERS['broken'](rnd)
        if len(data) < 1500: yield 'mixed', data
