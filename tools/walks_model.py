"""What the program walks prints of an input, by the model.

Input, in records: 240 settings, 241 for each start, one 242 (half the length of out, word the number of call records, long
the capacity, sub bit 0 set if an index is handed in), then if so one 243 (word the number of index records, long the
count that the walk is told), the call records, the index records, then code to the end. Output: `built COUNT VARIABLE`
or `given COUNT` and the index records; for each call `refused N` or `walk CASE LINE COUNT TABLES MARK NEWCOUNT O1 O2 ...` and
the index records. If the builder refuses, `refused N` is all."""
from collections import namedtuple
from model import MOST, build, unpacked, walk

LONGEST = 1048576  # bytes of an input
Input = namedtuple('Input', 'settings starts code calls out capacity given index count')


def parts(data):
    """An input of the program walks taken apart. The first record stands for settings whatever its kind."""
    rs = unpacked(data)
    first = rs[0] if rs else (0, 0, 0, 0, 0)
    sub, arity = (first[1], first[2]) if first[0] == 240 else (0, 0)
    s = dict(arity=arity, c=first[4], mask=first[3], dynamic=sub & 1, extensible=sub >> 1 & 1, noncounted=sub >> 2 & 1, skip=sub >> 3 & 1)
    if len(data) > LONGEST: return Input(s, [], data[:1], [], 0, 0, False, [], 0)
    at = 1
    while at < len(rs) and rs[at][0] == 241: at += 1
    starts, plan, given = [r[3] for r in rs[1:at]], (0,) * 5, (0,) * 5
    if at < len(rs) and rs[at][0] == 242: plan, at = rs[at], at + 1
    if plan[1] & 1 and at < len(rs) and rs[at][0] == 243: given, at = rs[at], at + 1
    calls = rs[at:at + plan[3]]
    index = rs[at + len(calls):at + len(calls) + given[3]]
    code = data[16 * (at + len(calls) + len(index)):]
    cut = max(1, arity)
    calls = [calls[i:i + cut] for i in range(0, len(calls), cut)]
    return Input(s, starts, code, calls, plan[2], min(plan[4], MOST), bool(plan[1] & 1), index, given[4])


def answers(data):
    """What the program walks does with an input: the first line, and for each call the refusal number or the answer, each
    with the text that is printed."""
    i = parts(data)
    def listing(buffer, count): return ''.join('%d %d %d %d %d\n' % r for r in buffer[:count])
    if i.given: records, count, head = i.index[:i.capacity], i.count, 'given %d' % i.count
    else:
        number, records = build(i.settings, i.starts, i.code, i.capacity)
        if number: return [(number, 'refused %d\n' % number)]
        count, head = len(records), 'built %d %d' % (len(records), 2 if i.settings['skip'] else 1)
    buffer, out = records + [(0,) * 5] * (i.capacity - len(records)), [0] * i.out
    found = [(0, head + '\n' + listing(buffer, count))]
    for call in i.calls:
        a = walk(i.settings, i.starts, i.code, call, buffer, count, out)
        if isinstance(a, int):
            found.append((a, 'refused %d\n' % a))
            continue
        count = a.newcount
        words = [a.case, a.line, a.count, a.tables, a.mark, a.newcount] + out[:a.count]
        found.append((a, 'walk ' + ' '.join(map(str, words)) + '\n' + listing(buffer, count)))
    return found


def printed(data):
    return ''.join(text for _, text in answers(data))
