"""Random inputs for the differential runs and the stored lists, and the oracle's answers to them.

A case is settings, starts, code records and calls. Code that is accepted by document 01: registers rise, every clause has a key at the chosen
argument and a body record. The oracle is ../shared/oracle, built by build_oracle() in a folder of its own."""
import os, shutil, struct, subprocess, sys, tempfile

HERE = os.path.dirname(os.path.abspath(__file__))
SHARED = os.path.join(HERE, '..', '..', 'shared')
STRUCTURE, LIST, CONSTANT, STRING = 16, 17, 18, 19


def rec(kind, sub=0, half=0, word=0, long=0):
    return struct.pack('<BBHIQ', kind, sub, half, word, long)


def settings_record(s):
    sub = s['dynamic'] | s['extensible'] << 1 | s['noncounted'] << 2 | s['skip'] << 3
    return rec(240, sub, s['arity'], s['mask'], s['c'])


def lines_input(case):
    """The input of the program lines."""
    return b''.join([settings_record(case['settings'])] + [rec(241, 0, 0, s) for s in case['starts']] + case['code'])


def oracle_input(case):
    calls = case['calls']
    head = [settings_record(case['settings'])] + [rec(241, 0, 0, s) for s in case['starts']]
    return b''.join(head + [rec(242, 0, 0, len(calls))] + calls + case['code'])


def walks_input(case, out, capacity, index=None, count=0):
    """The input of the program walks: out's length in numbers, the capacity of the index in records, and if an index is
    handed in its records and the count that the walk is told."""
    calls = case['calls']
    head = [settings_record(case['settings'])] + [rec(241, 0, 0, s) for s in case['starts']]
    head.append(rec(242, int(index is not None), out, len(calls), capacity))
    if index is not None: head.append(rec(243, 0, 0, len(index), count))
    return b''.join(head + calls + [rec(*r) for r in index or []] + case['code'])


def some_key(rnd, few):
    """A clause's key as (opcode, half, long)."""
    op = rnd.choice([STRUCTURE, LIST, CONSTANT, CONSTANT, CONSTANT, STRING])
    bits = rnd.randrange(few) if rnd.random() < 0.95 else rnd.choice([2**63, 2**64 - 1, 0x7ff8000000000000, rnd.getrandbits(64)])
    if op == STRUCTURE: return op, rnd.choice([1, 1, 2, 3, 255]), bits
    if op == CONSTANT: return op, rnd.choice([1, 1, 1, 2, 3]), bits
    return op, rnd.choice([0, 7]), rnd.choice([0, bits])


def call_record(rnd, few):
    """One argument of a call, unbound or bound."""
    sort = rnd.choice([0, 0, 1, 1, 1, 2, 3, 4, 4, 5])
    if sort == 0: return rec(0)
    if sort == 5: return rec(0, 5)
    bits = rnd.randrange(few + 1)
    return rec(0, sort, rnd.choice([1, 1, 2, 3]) if sort == 4 else 0, 0, bits)


def random_case(rnd, calls=0, most_clauses=8):
    arity = rnd.choice([1, 2, 2, 3, 3, 4, 5, 32]) if rnd.random() < 0.95 else rnd.randint(1, 32)
    c = rnd.choice([1, 1, 1, rnd.randint(1, arity)])
    s = dict(arity=arity, c=c, mask=rnd.choice([0, 0, 0, rnd.getrandbits(32), rnd.getrandbits(arity)]), dynamic=rnd.random() < 0.4,
             extensible=rnd.random() < 0.4, noncounted=rnd.random() < 0.3, skip=rnd.random() < 0.2)
    s = {k: int(v) for k, v in s.items()}
    few, full = rnd.choice([1, 2, 2, 3, 6]), rnd.choice([0.5, 0.8, 1.0])
    code, starts = [rec(rnd.randrange(256), rnd.randrange(256))] * rnd.choice([0, 0, 0, 1]), []
    for _ in range(rnd.randint(1, most_clauses)):
        starts.append(len(code))
        for reg in range(1, min(arity, 8) + 1) if c <= 8 else [c]:
            if reg != c and rnd.random() > full: continue
            for _ in range(rnd.choice([0, 0, 0, 1])): code.append(rec(rnd.choice([0, 3, 9, 32, 35, 38]), rnd.randrange(256), rnd.randrange(9), rnd.randrange(9)))
            op, half, bits = some_key(rnd, few)
            code.append(rec(op, 0, half, reg, bits))
        code.append(rnd.choice([rec(64), rec(255, 7, 7, 7, 7), rec(CONSTANT, 1, 9, 0, 3), rec(LIST, 2)]))
        for _ in range(rnd.choice([0, 0, 0, 1])): code.append(rec(rnd.randrange(256), rnd.randrange(256), 1, 2, 3))
    return dict(settings=s, starts=starts, code=code, calls=[call_record(rnd, few) for _ in range(calls * arity)])


def build_oracle():
    """Builds ../shared/oracle in a temporary folder beside a link to its sources, and gives the program's path. Ends the program where it is missing."""
    if not os.path.isdir(os.path.join(SHARED, 'oracle')):
        print('%s: ../shared/oracle is missing: the original Rust, which this compares with' % os.path.relpath(sys.argv[0]), file=sys.stderr)
        sys.exit(2)
    top = os.path.join(tempfile.gettempdir(), 'podrulka-oracle')
    exe = os.path.join(top, 'oracle', 'target', 'release', 'oracle')
    if not os.path.exists(exe):
        shutil.rmtree(top, ignore_errors=True)
        shutil.copytree(os.path.join(SHARED, 'oracle'), os.path.join(top, 'oracle'))
        shutil.copytree(os.path.join(SHARED, 'docs'), os.path.join(top, 'docs'))
        subprocess.run(['chmod', '-R', 'u+w', top], check=True)
        subprocess.run(['cargo', 'build', '--release', '--offline'], cwd=os.path.join(top, 'oracle'), check=True, capture_output=True)
    return exe


def run(exe, data):
    p = subprocess.run([exe], input=data, capture_output=True)
    return p.stdout.decode() if p.returncode == 0 else 'exit %d\n%s' % (p.returncode, p.stderr.decode())


def oracle_listing(exe, case):
    """The oracle's index of a case with no calls, as the program lines prints it."""
    text = run(exe, oracle_input(dict(case, calls=[])))
    head, _, rest = text.partition('\n')
    assert head.startswith('built'), text
    return rest
