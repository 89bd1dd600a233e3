"""Random inputs of the program walks: calls near the clauses, capacities near what the calls need, handed-in indexes that
are well formed though no builder makes them, and damage to all of these."""
from cases import random_case, rec, walks_input
from model import DEAD, INTERNAL, LITERALS, LISTS, MOST, NONE, ON_DEMAND, STRUCTURES, SWITCH, Line, Rules, build, records_of, unpacked, walk
from walks_model import answers

WIDTHS = [2**8, 2**8, 2**16, 2**32, 2**64]  # of a record's fields
ODD = [0, 2**63, 2**64 - 1, 0x7ff8000000000000, 0xfff8000000000001]


def rules_of(k):
    return Rules(k['settings'], k['starts'], b''.join(k['code']))


def other_key(rnd):
    sort, bits = rnd.choice([1, 1, 2, 3, 4, 5]), rnd.choice(ODD + [0, 1, 1, 2, 3])
    return (5, 0, 0) if sort == 5 else (4, rnd.choice([1, 1, 2, 3, 255]), bits) if sort == 4 else (sort, 0, bits)


def some_call(rnd, rows, arity):
    """One call: each argument unbound, the key of one clause or of any clause, or another key."""
    row, bound = rnd.choice(list(rows.values())), rnd.choice([0.4, 0.7, 1.0])
    call = []
    for a in range(arity):
        key = row[a] if rnd.random() < 0.75 else rnd.choice(list(rows.values()))[a]
        if key == NONE or rnd.random() < 0.12: key = other_key(rnd) if rnd.random() < 0.5 else NONE
        if rnd.random() > bound: key = NONE
        call.append(rec(0, key[0], key[1], 0, key[2]))
    return call


def some_calls(rnd, k, n):
    """n calls, some of them made again at once or later."""
    rows, calls = rules_of(k).rows, []
    for _ in range(n):
        again = calls and rnd.random() < 0.15
        calls.append(rnd.choice(calls) if again else some_call(rnd, rows, k['settings']['arity']))
    return sum(calls, [])


def some_case(rnd, n=5, most_clauses=None):
    k = random_case(rnd, 0, most_clauses or rnd.choice([3, 8, 8, 8, 8, 20, 60]))
    return dict(k, calls=some_calls(rnd, k, n))


def made_index(rnd, k):
    """A well-formed index with a few lines of any tables."""
    s, rules = k['settings'], rules_of(k)
    known, dynamic = list(rules.rows), s['dynamic']
    n = rnd.choice([1, 2, 3, 4, 6])
    arguments = [sorted(rnd.sample(range(1, s['arity'] + 1), rnd.randint(0, min(s['arity'], 3)))) for _ in range(n)]
    lines = []
    for own in range(n):
        tables = []
        for a in arguments[own]:
            kind = rnd.choice([SWITCH, SWITCH, ON_DEMAND, ON_DEMAND, DEAD])
            to = [INTERNAL | m - own for m in range(own + 1, n) if all(b > a for b in arguments[m])]
            if not dynamic: to += to + known
            found = {}
            for _ in range(rnd.choice([0, 1, 1, 2, 3, 5]) if kind == SWITCH and to else 0):
                key = rnd.choice(list(rules.rows.values()))[a - 1]
                if key == NONE or rnd.random() < 0.2: key = other_key(rnd)
                if key[0] == 4 and rnd.random() < 0.1: key = (4, rnd.choice([0, 256, 65535]), key[2])
                found[key] = rnd.choice(to)
            rows = [e for g in (LITERALS, LISTS, STRUCTURES) for e in found.items() if e[0][0] in g]
            if kind == DEAD: rows = [o for o in known if rnd.random() < 0.5]
            tables.append((kind, a, rows))
        part = rnd.choice([1.0, 0.7, 0.3])
        offsets = [o for o in known if rnd.random() < part] or ([] if dynamic else known[:1])
        lines.append(Line(tables, [(rnd.choice([6, 7]) if dynamic else rnd.randint(1, 5), o) for o in offsets]))
    return records_of(lines, dynamic)


def grown_index(rnd, k):
    """The built index after a few other calls."""
    s, code = k['settings'], b''.join(k['code'])
    records = build(s, k['starts'], code, MOST)[1]
    buffer, count = records + [(0,) * 5] * 1000, len(records)
    arity = s['arity']
    for _ in range(rnd.randint(0, 3)):
        call = unpacked(b''.join(some_call(rnd, rules_of(k).rows, arity)))
        count = walk(s, k['starts'], code, call, buffer, count, [0] * len(k['starts'])).newcount
    return buffer[:count]


def plenty(rnd):
    """Built, with room for every expansion: the oracle answers."""
    k = some_case(rnd)
    return walks_input(k, len(k['starts']) + rnd.choice([0, 0, 1, 7]), rnd.choice([MOST, MOST, 2**16, 2**64 - 1]))


def limited(rnd):
    """Capacities from what is there up to what the calls need, some calls refused."""
    k = some_case(rnd)
    index = rnd.choice([None, None, None, grown_index, made_index])
    index = index and index(rnd, k)
    if rnd.random() < 0.3: k['calls'] = damaged_calls(rnd, k['calls'])
    out, count = len(k['starts']) + rnd.choice([0, 0, 0, 1, 7]), len(index or [])
    counts = [a.newcount for a, _ in answers(walks_input(k, out, MOST, index, count))[1:] if not isinstance(a, int)]
    least = count if index else len(build(k['settings'], k['starts'], b''.join(k['code']), MOST)[1])
    most = max(counts + [least])
    capacity = rnd.choice([least, least + 1, rnd.randint(least, most), rnd.randint(least, most), max(least, most - 1), most])
    return walks_input(k, out, capacity, index, count)


def damaged_calls(rnd, calls):
    """One or two call records changed, or the last call cut."""
    calls = list(calls)
    for _ in range(rnd.choice([1, 1, 2])):
        at = rnd.randrange(len(calls))
        kind, sub, half, word, long = unpacked(calls[at])[0]
        calls[at] = rnd.choice([rec(kind, 6, half, word, long), rec(kind, 4, rnd.choice([0, 256]), word, long), rec(kind, sub, half + 1, word, long), rec(1, sub, half, 0, long),
                                rec(kind, sub, half, 1, long), rec(kind, sub, half, word, long ^ 1), rec(kind, 0, half, word, long), rec(kind, 5, 0, 0, rnd.randrange(2)), rec(kind, rnd.randrange(256))])
    return calls[:-1] if rnd.random() < 0.2 else calls


def damaged_index(rnd, index):
    """One or two records of an index changed, exchanged, taken out or doubled."""
    index = list(index)
    for _ in range(rnd.choice([1, 1, 1, 2])):
        at, how = rnd.randrange(len(index)), rnd.randrange(10)
        r = list(index[at])
        if how < 6:
            field = rnd.choice([0, 1, 2, 3, 3, 4])
            r[field] = rnd.choice([r[field] + 1, r[field] - 1, r[field] + 3, 0, 1, 2, 7, r[field] ^ (INTERNAL if field == 3 else 128)]) % WIDTHS[field]
            index[at] = tuple(r)
        elif how == 6: del index[at]
        elif how == 7: index.insert(at, index[at])
        else:
            other = min(at + 1, len(index) - 1) if how == 8 else rnd.randrange(len(index))
            index[at], index[other] = index[other], index[at]
        if not index: return index
    return index


def broken(rnd):
    """Damage to a handed-in index, the calls, the numbers of the plan, or any byte."""
    k = some_case(rnd, 5, rnd.choice([1, 3, 5]))
    index = rnd.choice([made_index, made_index, grown_index, lambda *_: None])(rnd, k)
    if index and rnd.random() < 0.6: index = damaged_index(rnd, index)
    if rnd.random() < 0.4: k['calls'] = damaged_calls(rnd, k['calls'])
    count = len(index or []) + rnd.choice([0, 0, 0, 0, 0, 0, 0, 0, 0, -1, 1])
    out, room = len(k['starts']) + rnd.choice([0, 0, 0, 0, 0, 5, -1]), rnd.choice([0, 0, 1, 3, 10, 100])
    data = bytearray(walks_input(k, out, (len(index or [])) + room + (0 if index else rnd.choice([0, 15, 100])), index, max(0, count)))
    if rnd.random() < 0.7: return bytes(data)
    starts = len(k['starts'])
    for _ in range(rnd.choice([1, 1, 2])):
        last = len(data) // 16 - 1
        how, at = rnd.randrange(9), 16 * rnd.choice([rnd.randint(0, last)] * 5 + [rnd.randint(last * 2 // 3, last)] * 3 + [0, min(starts + rnd.randrange(3), last)])
        field = at + rnd.choice([0, 1, 2, 2, 4, 4, 8])
        if how < 5: data[field] = rnd.choice([0, 1, 2, 3, 4, 5, 16, 17, 18, 64, 240, 241, 242, 243, 255, rnd.randrange(256), data[field] ^ 1])
        elif how == 5: del data[rnd.randrange(len(data)):]
        elif how == 6: del data[at:at + 16]
        elif how == 7: data[at:at] = data[at:at + 16]
        else: data += bytes(rnd.choice([1, 15, 16]))
        if len(data) < 32: break
    return bytes(data)


MAKERS = {'plenty': plenty, 'limited': limited, 'broken': broken}
