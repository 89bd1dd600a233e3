"""The stored lists of walks with an index handed in: well-formed ones, and for each rule of number 12 one that breaks it.

The form of a list is that of walk_lists.py. Clauses: those of the worked show (offsets 1, 4, 7) and OPEN (offsets 1, 5, 8, 11, 15)."""
from cases import rec
from replay_lines import OPEN, SHOW, atom, case, settings
from walk_lists import L, OPEN_CALLS, SHOWN, SHOWN_CALLS, U, a, dead, demand, entry, gone, index_of, line, lit, off, st, switch, to, walks
from model import unpacked, walk

MANY = case(settings(3), OPEN)
ALL = [off(1, 1), off(2, 5), off(2, 8), off(2, 11), off(4, 15)]
DYNAMIC = case(settings(2, flags='d'), SHOW)


def after(k, calls):
    """The built index of a case after some calls."""
    buffer, code, arity = index_of(k), b''.join(k['code']), k['settings']['arity']
    count, buffer = len(buffer), buffer + [(0,) * 5] * 500
    for i in range(0, len(calls), arity):
        count = walk(k['settings'], k['starts'], code, unpacked(b''.join(calls[i:i + arity])), buffer, count, [0] * len(k['starts'])).newcount
    return buffer[:count]


def well_formed():
    """Handed in and accepted: built, partly expanded, and made by hand."""
    for f in ('', 'd', 'n'):
        k = case(settings(2, flags=f), SHOW)
        for room in (0, 2, None): yield 'accepted', walks(k, SHOWN_CALLS, room, index=index_of(k))
        for room in (0, 3, None): yield 'accepted', walks(k, SHOWN_CALLS, room, index=after(k, [U, L, a(7), a(9)]))
    for f in ('e', 'de'):
        k = case(settings(3, flags=f), OPEN)
        for room in (0, 9, None): yield 'accepted', walks(k, OPEN_CALLS, room, index=after(k, [a(7), L, U, U, a(2), U]))
    # settings other than the builder's: tags of new lines, masks and dead tables go by those that the walk gets
    yield 'accepted', walks(case(settings(2, 1, 0, 'n'), SHOW), SHOWN_CALLS, index=index_of(SHOWN))
    yield 'accepted', walks(case(settings(3, 0, 4, 'e'), OPEN), OPEN_CALLS, index=index_of(MANY))
    # the count below the records handed in, and fewer records than are handed in fit
    yield 'accepted', walks(SHOWN, SHOWN_CALLS, index=index_of(SHOWN), count=11)
    yield 'accepted', walks(SHOWN, SHOWN_CALLS, index=index_of(SHOWN), count=11, capacity=11)
    yield 'accepted', walks(SHOWN, SHOWN_CALLS, index=index_of(SHOWN) + [(9, 9, 9, 9, 9)] * 4, count=12)
    # static, made by hand
    for index in STATIC: yield 'accepted', walks(MANY, OPEN_CALLS, index=[line(0)] + index)
    for room in (0, 1, 2, 3, 5, 8): yield 'accepted', walks(MANY, OPEN_CALLS, room, index=[line(0)] + STATIC[0])
    for room in (1, 3): yield 'accepted', walks(MANY, [U, a(2), a(5), a(7), U, a(5), U, U, L, L, L, L], room, index=[line(0)] + STATIC[12])
    yield 'accepted', walks(case(settings(3, 1, 7), OPEN), OPEN_CALLS, index=[line(0)] + STATIC[0])
    # line 1's first table expands to dead with three clauses, its second with two: where only the second fits, neither is stored
    for dynamic, tags in ((0, (1, 2, 4)), (1, (6, 7, 6))):
        k, offs = case(settings(3, flags='d' * dynamic), [[atom(7)], [atom(7)], [atom(7), atom(5, 3)]]), list(map(off, tags, (1, 3, 5)))
        index = [line(0, dynamic), switch(1), entry(1, to(1), 7)] + offs + [line(1, dynamic), demand(2), demand(3)] + offs
        for room in (1, 2, 3, 4, 5): yield 'accepted', walks(k, [a(7), a(1), a(5), a(7), U, a(5), a(7), a(1), a(5), a(7), a(1), U], room, index=index)
    # dynamic, made by hand
    for index in MOVING:
        for room in (None, 4): yield 'accepted', walks(DYNAMIC, SHOWN_CALLS, room, index=[line(0, 1)] + index)


STATIC = [
    [demand(1), demand(2), demand(3)] + ALL,                                     # the last two expand to dead
    ALL,                                                                         # no table
    [off(5, 15)],                                                                # one clause of five
    [demand(1), off(5, 1), off(4, 5), off(3, 8), off(2, 11), off(1, 15)],        # tags in any order
    [switch(1)] + ALL,                                                           # no entry
    [switch(1), entry(1, 5, 8), entry(3, 8, 7), entry(1, 1, 7), entry(5, 11), entry(4, 15, 9, 65535), entry(4, 1, 9, 0)] + ALL,
    [dead(1), dead(2), gone(5), dead(3), gone(1), gone(15)] + ALL,               # dead though not extensible, one without clauses
    [switch(1), entry(1, to(1), 7), entry(1, to(1), 8), entry(5, to(1))] + ALL + [line(1), demand(2), off(1, 1), off(4, 11)],
    [switch(1), entry(1, 1, 7), entry(1, 5, 8)] + ALL + [line(1), switch(1), entry(5, to(1))] + ALL + [line(2), off(1, 8)],
    [switch(1), entry(5, to(3)), entry(4, to(2), 9, 2)] + ALL + [line(1), off(1, 5), line(2), switch(3), entry(1, 15, 6), off(2, 15), line(3), switch(2), entry(4, to(1), 9, 2), off(1, 8), off(4, 15), line(4), demand(3), off(1, 15)],
    [demand(3)] + ALL,                                                           # no switch on an earlier argument
    [switch(2), entry(1, 8, 1), demand(3)] + ALL,
    [switch(1), entry(1, to(1), 7), demand(2), demand(3)] + ALL + [line(1), demand(2), demand(3), off(1, 1), off(2, 8), off(4, 11)],
    [demand(1), off(1, 1)],
    [switch(1), entry(2, to(1), 7), dead(2), switch(3), entry(1, to(2), 5), entry(1, to(2), 6)] + ALL + [line(1), dead(2), dead(3), off(3, 11), line(2), off(3, 8)],
]
MOVING = [
    [demand(1), demand(2), off(6, 1), off(7, 4), off(6, 7)],                     # new lines keep A and Z
    [demand(1), demand(2)],                                                      # no clause
    [],
    [switch(1), demand(2), off(7, 4)],
    [switch(1), entry(1, to(1), 7), entry(1, to(2), 8), off(6, 1), off(6, 4), line(1, 1), demand(2), off(6, 1), off(6, 7), line(2, 1), demand(2)],
    [switch(1), entry(5, to(2)), entry(4, to(1), 1, 1), off(7, 1), line(1, 1), line(2, 1), dead(2), gone(4), off(6, 4)],
]


def with_at(index, at, *records):
    return index[:at] + list(records) + index[at + len(records):]


def put_in(index, at, *records):
    return index[:at] + list(records) + index[at:]


def broken_static():
    """The worked show's index: 0 line, 1 switch, 2 and 3 entries, 4 on demand, 5 to 7 offsets, 8 line, 9 on demand, 10 and 11 offsets."""
    x = index_of(SHOWN)
    # kinds, line 0, numbers, mode
    for r in (demand(1), (0,) * 5, (8, 0, 0, 0, 0), (255, 0, 0, 0, 0), line(1), line(0, 1), line(0, 2), (1, 0, 1, 0, 0), (1, 0, 0, 0, 1)): yield with_at(x, 0, r)
    for r in (line(0), line(2), line(1, 1), (1, 0, 2, 1, 0), (1, 0, 0, 1, 2**63), off(4, 8), (0,) * 5): yield with_at(x, 8, r)
    # unused fields and arguments of a table
    for r in ((2, 1, 1, 0, 0), (2, 0, 1, 1, 0), (2, 0, 1, 0, 1), switch(0), switch(2), switch(3), (9, 0, 1, 0, 0)): yield with_at(x, 1, r)
    for r in ((3, 1, 2, 0, 0), (3, 0, 2, 1, 0), (3, 0, 2, 0, 1), demand(0), demand(1), demand(3), (4, 1, 2, 0, 0), (4, 0, 2, 9, 0), (4, 0, 2, 0, 9), dead(3), dead(65535)): yield with_at(x, 4, r)
    yield put_in(x, 4, demand(2))
    # entries: sorts, fields, distinct keys, one list, order
    for r in (entry(0, 4, 8), entry(6, 4, 8), entry(1, 4, 8, 1), entry(3, 4, 8, 255), entry(5, 4, 8), entry(5, 4, 0, 1), entry(1, 4, 7)): yield with_at(x, 3, r)
    yield put_in(x, 4, entry(5, 4), entry(5, 7))
    yield put_in(x, 4, entry(4, 4, 9, 1), entry(5, 7))
    yield put_in(x, 4, entry(4, 4, 9, 1), entry(4, 7, 9, 1))
    for r in (entry(5, 1), entry(4, 1, 9, 1)): yield put_in(x, 2, r)
    # pointers
    for p in (0, 2, 3, 8, 10, 12, 2**31 - 1, to(0), to(2), to(3), to(2**31 - 1)): yield with_at(x, 2, entry(1, p, 7))
    yield with_at(x, 9, demand(1))
    yield with_at(x, 9, switch(1))
    yield [line(0), switch(2), entry(1, to(1), 1), off(1, 1), line(1), demand(1), off(1, 1)]
    # order of the parts of a line
    yield put_in(x, 5, entry(1, 4, 9))
    yield put_in(x, 1, entry(1, 4, 9))
    yield put_in(x, 5, gone(1))
    yield put_in(x, 2, gone(1))
    yield with_at(x, 3, gone(1))
    yield put_in(x, 1, gone(1))
    for r in (entry(1, 4, 9), gone(7), demand(2), switch(2), dead(2)): yield put_in(x, 6, r)
    for r in (demand(2), gone(7), entry(1, 4, 9), line(2), line(3), (0,) * 5, (8, 0, 0, 0, 0)): yield x + [r]
    # offsets: fields, tags, known, rising; a static line has one
    for r in ((6, 1, 1, 1, 0), (6, 1, 0, 1, 1), off(0, 1), off(6, 1), off(7, 1), off(8, 1), off(1, 0), off(1, 2), off(1, 4), off(1, 7)): yield with_at(x, 5, r)
    for o in (1, 4, 5, 8, 9, 2**31 + 7, 2**32 - 1): yield with_at(x, 7, off(4, o))
    yield x[:5] + x[8:]
    yield x[:10]
    yield x[:9]
    yield x[:8]
    # dead clauses
    for rs in ([(7, 1, 0, 1, 0)], [(7, 0, 1, 1, 0)], [(7, 0, 0, 1, 1)], [gone(0)], [gone(2)], [gone(8)], [gone(4), gone(4)], [gone(7), gone(1)], [gone(1), entry(1, 4, 9)]):
        yield with_at(put_in(x, 5, *rs), 4, dead(2))


def broken_moving():
    """The same built dynamic: 0 line, 1 switch, 2 to 4 entries, 5 on demand, 6 to 8 offsets, 9 line, 10 on demand, 11 line, ..."""
    x = index_of(DYNAMIC)
    for t in (0, 1, 2, 4, 5, 8, 255): yield with_at(x, 6, off(t, 1))
    for r in (line(0), line(0, 2)): yield with_at(x, 0, r)
    for p in (1, 4, to(0), to(4)): yield with_at(x, 2, entry(1, p, 7))
    yield with_at(x, 9, line(1))


def not_well_formed():
    calls = [U, L, a(7), lit(2, 1), st(1), U]
    for x in broken_static(): yield 12, walks(SHOWN, calls[:4], 3, index=x)
    for x in broken_moving(): yield 12, walks(DYNAMIC, calls[:4], 3, index=x)
    x = index_of(SHOWN)
    # the count: 0, above the capacity, beyond the records handed in
    for count in (0, 13, 65535, 65536, 2**32 + 12, 2**64 - 1): yield 12, walks(SHOWN, calls, 0, index=x, count=count)
    yield 12, walks(SHOWN, calls, 0, index=x, capacity=11)
    yield 12, walks(SHOWN, calls, 5, index=x, count=13)
    yield 12, walks(SHOWN, calls, 0, index=[])
    yield 12, walks(SHOWN, calls, 0, index=x, capacity=0)
    # 10 before 11 before 12
    bad = with_at(x, 0, demand(1))
    yield 11, walks(SHOWN, calls, 0, 2, bad)
    yield 'mixed', walks(SHOWN, [U, rec(0, 6), L, L, U], 0, 2, bad)
    yield 'mixed', walks(SHOWN, [U, rec(0, 6), L, L, U], 0, 3, bad)
