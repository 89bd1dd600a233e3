"""Document 01 in Python: the builder, what is well formed, and the walk.

Written from the paper, plain and not fast. Numbers 1 to 8 and the keys of a clause are refusal() and keys() of
replay_keys.py. A key is (sort, arity, bits). An index is a list of lines; a line is a list of its tables and a list
of its offsets (tag, offset); a table is (kind, argument, rows), rows the entries (key, pointer) of a switch or the
offsets of a dead table."""
import struct
from collections import namedtuple
from replay_keys import keys, refusal

LINE, SWITCH, ON_DEMAND, DEAD, ENTRY, OFFSET, DEAD_CLAUSE = range(1, 8)
TRY, RETRY, DEFAULT_RETRY, TRUST, DEFAULT_TRUST, A, Z = range(1, 8)
NONE, LIST_KEY = (0, 0, 0), (5, 0, 0)
LITERALS, LISTS, STRUCTURES = (1, 2, 3), (5,), (4,)
INTERNAL = 1 << 31
MOST = 65535  # records of an index

Line = namedtuple('Line', 'tables offsets')
Answer = namedtuple('Answer', 'case line count tables mark newcount expansions')


def unpacked(data):
    return [struct.unpack_from('<BBHIQ', data, i) for i in range(0, len(data) - 15, 16)]


def rank(sort):
    """The place of a sort's group among the entries of a switch."""
    return 0 if sort in LITERALS else 1 if sort in LISTS else 2


class Rules:
    """Settings and clauses that numbers 1 and 3 to 7 accept; sections 3 and 4 over their keys."""
    def __init__(self, settings, starts, code):
        self.s, records = settings, unpacked(code)
        self.rows = {s + 1: keys(records, starts, i, settings['arity']) for i, s in enumerate(starts)}

    def without_key(self, argument, offsets):
        return [o for _, o in offsets if self.rows[o][argument - 1] == NONE]

    def tagged(self, offsets):
        """Static: the tags of section 3. Dynamic: each offset keeps its own."""
        if self.s['dynamic']: return offsets
        middle, last = (DEFAULT_RETRY, DEFAULT_TRUST) if self.s['noncounted'] else (RETRY, TRUST)
        tags = [TRY] + [middle] * (len(offsets) - 1)
        if len(tags) > 1: tags[-1] = last
        return list(zip(tags, [o for _, o in offsets]))

    def later_tables(self, argument, offsets):
        tables = []
        for a in range(argument + 1, self.s['arity'] + 1):
            if self.s['mask'] >> (a - 1) & 1: continue
            dead = self.without_key(a, offsets)
            if not dead: tables.append((ON_DEMAND, a, []))
            elif self.s['extensible']: tables.append((DEAD, a, dead))
        return tables

    def expansion(self, argument, offsets, distance):
        """The table that an on-demand one becomes, and the lines to add; distance is that of the first of them."""
        dead = self.without_key(argument, offsets)
        if dead: return (DEAD, argument, dead), []
        buckets = {}  # by first clause, since offsets rise
        for tag, o in offsets: buckets.setdefault(self.rows[o][argument - 1], []).append((tag, o))
        if self.s['dynamic']: buckets.setdefault(LIST_KEY, [])
        lines, pointers = [], {}
        for sorts in (LISTS, STRUCTURES, LITERALS):
            for key, members in buckets.items():
                if key[0] not in sorts: continue
                if self.s['dynamic'] or len(members) > 1:
                    pointers[key] = INTERNAL | distance + len(lines)
                    lines.append(Line(self.later_tables(argument, members), self.tagged(members)))
                else: pointers[key] = members[0][1]
        return (SWITCH, argument, sorted(pointers.items(), key=lambda e: rank(e[0][0]))), lines

    def built(self):
        offsets = self.tagged([(Z, o) for o in self.rows])
        switch, lines = self.expansion(self.s['c'], offsets, 1)
        return [Line([switch] + self.later_tables(self.s['c'], offsets), offsets)] + lines


def records_of(lines, dynamic):
    """An index as records."""
    out = []
    for n, line in enumerate(lines):
        out.append((LINE, dynamic, 0, n, 0))
        for kind, argument, rows in line.tables:
            out.append((kind, 0, argument, 0, 0))
            if kind == SWITCH: out += [(ENTRY, sort, arity, pointer, bits) for (sort, arity, bits), pointer in rows]
            if kind == DEAD: out += [(DEAD_CLAUSE, 0, 0, o, 0) for o in rows]
        out += [(OFFSET, tag, 0, o, 0) for tag, o in line.offsets]
    return out


def read_record(lines, r, s, known):
    """Adds a record to the lines read so far. False if it cannot stand there; pointers are looked at later."""
    kind, sub, half, word, long = r
    if kind == LINE:
        if lines and not lines[-1].offsets and not s['dynamic']: return False
        if (sub, half, word, long) != (s['dynamic'], 0, len(lines), 0): return False
        lines.append(Line([], []))
        return True
    if not lines: return False
    tables, offsets = lines[-1]
    if kind == OFFSET:
        if half or long or sub not in ((A, Z) if s['dynamic'] else range(TRY, DEFAULT_TRUST + 1)): return False
        if word not in known or offsets and word <= offsets[-1][1]: return False
        offsets.append((sub, word))
        return True
    if offsets: return False
    if kind in (SWITCH, ON_DEMAND, DEAD):
        if sub or word or long or not 1 <= half <= s['arity'] or tables and half <= tables[-1][1]: return False
        tables.append((kind, half, []))
        return True
    if not tables: return False
    above, _, rows = tables[-1]
    if kind == ENTRY:
        if above != SWITCH or not 1 <= sub <= 5 or sub in LITERALS and half or sub in LISTS and (half or long): return False
        if rows and rank(sub) < rank(rows[-1][0][0]) or (sub, half, long) in [key for key, _ in rows]: return False
        rows.append(((sub, half, long), word))
        return True
    if kind == DEAD_CLAUSE:
        if above != DEAD or sub or half or long or word not in known or rows and word <= rows[-1]: return False
        rows.append(word)
        return True
    return False


def well_formed(buffer, count, s, starts):
    """The lines of a handed-in index, or None: number 12."""
    if count > len(buffer): return None
    lines, known = [], {x + 1 for x in starts}
    if not all(read_record(lines, r, s, known) for r in buffer[:count]): return None
    if not lines or not lines[-1].offsets and not s['dynamic']: return None
    for n, line in enumerate(lines):
        for kind, argument, rows in line.tables:
            for _, pointer in rows if kind == SWITCH else []:
                if not pointer & INTERNAL:
                    if s['dynamic'] or pointer not in known: return None
                    continue
                to = n + (pointer ^ INTERNAL)
                if not n < to < len(lines) or any(a <= argument for _, a, _ in lines[to].tables): return None
    return lines


def call_refused(call, arity):
    """Number 10."""
    def good(kind, sub, half, word, long):
        if kind or word or sub > 5: return False
        if sub in (0, 5): return half == 0 and long == 0
        return 1 <= half <= 255 if sub == 4 else half == 0
    return len(call) != arity or not all(good(*r) for r in call)


def build(s, starts, code, capacity):
    """Refusal number or 0, and the records."""
    number = refusal(s['arity'], s['c'], code, starts, True)
    if number: return number, []
    records = records_of(Rules(s, starts, code).built(), s['dynamic'])
    return (9, []) if len(records) > capacity else (0, records)


def followed(entries, key):
    """The pointer that a switch has for a key, None if it has none: one entry of the key's group is followed whatever its key."""
    entries = [(k, p) for k, p in entries if rank(k[0]) == rank(key[0])]
    return next((p for k, p in entries if k == key or len(entries) == 1), None)


def walk(s, starts, code, call, buffer, count, out):
    """The refusal number or the answer. An accepted walk changes buffer, a list of records, and out."""
    number = refusal(s['arity'], 0, code, starts, False)
    if number: return number
    if call_refused(call, s['arity']): return 10
    if len(out) < len(starts): return 11
    lines = well_formed(buffer, count, s, starts)
    if lines is None: return 12
    rules, keys_of_call = Rules(s, starts, code), [(sub, half, long) for _, sub, half, _, long in call]
    # lines gets every expansion of this call; kept are the records before the first one that does not fit
    kept, kept_lines, expansions, own, place, looked, case, offsets = None, len(lines), 0, 0, 0, 0, None, []
    while case is None:
        if place == len(lines[own].tables):
            case, offsets = 'sequence' if own else 'variadic', [o for _, o in lines[own].offsets]
            break
        looked += 1
        kind, argument, rows = lines[own].tables[place]
        key = keys_of_call[argument - 1]
        if kind == ON_DEMAND and key != NONE:
            expansions += 1
            before = records_of(lines, s['dynamic'])
            table, more = rules.expansion(argument, lines[own].offsets, len(lines) - own)
            lines[own].tables[place] = table
            lines += more
            if kept is None and len(records_of(lines, s['dynamic'])) > len(buffer): kept = before
            if kept is None: kept_lines = len(lines)
            kind, argument, rows = table
        if kind == DEAD or key == NONE:
            place += 1
            continue
        pointer = followed(rows, key)
        if pointer is None: case = 'fail'
        elif pointer & INTERNAL: own, place = own + (pointer ^ INTERNAL), 0
        else: case, offsets = 'external', [pointer]
    left = records_of(lines, s['dynamic']) if kept is None else kept
    buffer[:len(left)], out[:len(offsets)] = left, offsets
    number = own if case == 'sequence' and own < kept_lines else 0
    return Answer(case, number, len(offsets), looked, 'stored' if kept is None else 'unstored', len(left), expansions)
