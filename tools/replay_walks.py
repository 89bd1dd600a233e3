#!/usr/bin/env python3
"""Makes the input and the expected output of the program crate replay_walks, and the worked show's list of the program walks.

An index built here and the walks on it while all is stored come from the original Rust, through the oracle, and the
model must agree; an unstored walk's case, count, tables and offsets too. Refusals, capacity and handed-in indexes
come from the model alone.  usage: python3 tools/replay_walks.py   (writes stdin and stdout of crates/walks and crates/replay_walks)

Input: for each list a record 246 (word the number of bytes), then the bytes, filled up with zeros to whole records.
Output for each list: `input N`, then what the program walks prints of it.
"""
import collections, os
from cases import build_oracle, oracle_input, rec, run
from replay_lines import framed, write
from walk_indexes import not_well_formed, well_formed
from walk_lists import SHOWN, SHOWN_CALLS, fresh, randoms, refused_calls, refused_code, rows, taken_apart, walks
from walks_model import answers, parts

LISTING = '''1 0 0 0 0
2 0 1 0 0
5 1 0 2147483649 7
5 1 0 4 8
3 0 2 0 0
6 1 0 1 0
6 2 0 4 0
6 4 0 7 0
1 0 0 1 0
3 0 2 0 0
6 1 0 1 0
6 4 0 7 0
'''


def answer_of(text):
    """What does not hang on the index stored: case, count, tables, offsets."""
    words = text.partition('\n')[0].split()
    return words[:2] + words[3:5] + words[7:]


def oracle_texts(oracle, data, found):
    """The oracle's text for each accepted answer of an input whose index is built."""
    i = parts(data)
    calls = [rec(*r) for call, (a, _) in zip(i.calls, found[1:]) if not isinstance(a, int) for r in call]
    text = run(oracle, oracle_input(dict(settings=i.settings, starts=i.starts, code=[i.code], calls=calls)))
    first, *rest = text.split('walk ')
    return [first] + ['walk ' + part for part in rest]


def expected(oracle, data):
    """What walks prints of an input, as the answers and the text of each; with the oracle's text while all is stored. And where
    model and oracle differ, if they do."""
    found = answers(data)
    if found[0][0] or parts(data).given: return found, None
    out, stored, theirs = [], True, oracle_texts(oracle, data, found)
    for a, text in found:
        if a and isinstance(a, int):
            out.append((a, text))
            continue
        other = theirs.pop(0) if theirs else 'nothing\n'
        stored = stored and not (a and a.mark == 'unstored')
        if other != text if stored else answer_of(other) != answer_of(text): return found, 'the oracle has\n' + other + 'and the model\n' + text
        out.append((a, other if stored else text))
    return out, None


def as_said(what, found):
    """Whether a list shows what it is for."""
    numbers = [a for a, _ in (found[1:] or found)]
    if what == 'accepted': return not any(isinstance(a, int) and a for a in numbers)
    return what == 'mixed' or all(a == what for a in numbers)


def count(counts, found):
    counts['lists'] += 1
    counts['calls'] += len(found) - 1
    counts['handed-in indexes'] += found[0][1].startswith('given')
    for a, text in found:
        if isinstance(a, int): counts['refused %2d' % a] += a > 0
        else:
            counts['accepted'] += 1
            counts[a.mark] += 1
            counts['case ' + a.case] += 1
            counts['expansions'] += a.expansions
            counts['unstored, several tables'] += a.mark == 'unstored' and a.tables > 1


def table(counts):
    return '\n'.join('%-26s %d' % (name, n) for name, n in sorted(counts.items()) if n)


def main():
    oracle, data, lines, counts = build_oracle(), [], [], collections.Counter()
    lists = [(what, d) for what, d, _ in rows()]
    for part in (fresh(), refused_calls(), taken_apart(), refused_code(), well_formed(), not_well_formed(), randoms(40)): lists += part
    for what, d in lists:
        found, differs = expected(oracle, d)
        assert differs is None, differs
        assert as_said(what, found), (what, [a for a, _ in found], d.hex())
        count(counts, found)
        data.append(framed(d))
        lines.append('input %d\n' % len(lines) + ''.join(text for _, text in found))
    for n, (_, d, last) in enumerate(rows()):
        text = expected(oracle, d)[0]
        assert text[-1][1].startswith(last), (n, last, text)
        if n == 0: assert text[0][1] == 'built 12 1\n' + LISTING
    write('replay_walks', b''.join(data), ''.join(lines))
    show = walks(SHOWN, SHOWN_CALLS)
    write('walks', show, ''.join(text for _, text in expected(oracle, show)[0]))
    print(table(counts))
    print(sum(map(len, data)), 'bytes of input,', sum(map(len, lines)), 'of output')


if __name__ == '__main__':
    for crate in ('walks', 'replay_walks'): os.makedirs(os.path.join(os.path.dirname(os.path.abspath(__file__)), '..', 'crates', crate), exist_ok=True)
    main()
