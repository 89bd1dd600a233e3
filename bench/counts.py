"""Instruction counts by callgrind (they repeat to the digit, whatever else the machine does): per call or build, ours and the Rust's,
and where ours go.  usage: python3 bench/counts.py   (after bench/run, from the repository's root; needs valgrind)"""
import collections
import os
import re
import subprocess
import sys

PROGRAM, OUT = "bench/target/release/bench", "bench/out/callgrind.out"
ARITY, CALLS, BUILDS = 4, 16, 8
CLAUSES = (16, 64, 256, 1024)
KINDS = ("build", "first", "later", "bound")
# the archive's functions after inlining: what is not listed stands in podrulka_build or podrulka_walk itself
PARTS = {
    "indexing_iter::checks::check_clauses_of": "code",
    "indexing_iter::checks::check_clause": "code",
    "indexing_iter::checks::first_refused": "code",
    "podrulka_walk": "index",
    "well_formed::check_records": "index",
    "well_formed::formed_in": "index",
    "memset": "clearing",
    "indexing_walk::walk_index": "lookup",
}


def costs(path):
    """Own instructions by function, and by function and address."""
    functions, places = collections.Counter(), collections.Counter()
    names, name, address, of_call = {}, "", 0, False
    for line in open(path):
        m = re.match(r"(c?fn)=\((\d+)\)(?: (.*))?", line)
        if m:
            if m[3]:
                names[m[2]] = m[3].strip()
            if m[1] == "fn":
                name = names[m[2]]
        elif line.startswith("calls="):
            of_call = True
        elif m := re.match(r"(0x[0-9a-f]+|\+\d+|-\d+|\*) \S+ (\d+)$", line):
            address = int(m[1], 16) if m[1].startswith("0x") else address + (0 if m[1] == "*" else int(m[1]))
            if not of_call:  # the line after calls= is the callee's cost
                functions[name] += int(m[2])
                places[name, address] += int(m[2])
            of_call = False
    return functions, places


def counted(what, side, clauses, keys):
    """Counts of a round of one kind, and what the program says of the index after it: records and pairs of keys."""
    command = ["valgrind", "--tool=callgrind", "--toggle-collect=counted", "--dump-instr=yes", f"--callgrind-out-file={OUT}",
               PROGRAM, what, side, str(clauses), str(ARITY), keys]
    done = subprocess.run(command, capture_output=True, text=True, check=True)
    records, pairs = map(int, done.stdout.split())
    return *costs(OUT), records, pairs


def per_call(what):
    return BUILDS if what == "build" else CALLS


def part(name):
    return next((p for f, p in PARTS.items() if f == name or f == "memset" and "memset" in name), "rest")


def totals():
    print(f"\nInstructions per build or call, arity {ARITY}\n")
    print("| what | keys | clauses | ours | Rust | ours / Rust | every rule |\n|---|---|---|---|---|---|---|")
    for what in KINDS:
        for keys in ("few", "many"):
            for n in CLAUSES:
                sides = ("ours", "rust") if what in ("build", "first") else ("ours", "rust", "every")
                c = [sum(counted(what, side, n, keys)[0].values()) / per_call(what) for side in sides]
                last = f"{c[2]:,.0f}" if len(c) > 2 else ""
                print(f"| {what} | {keys} | {n} | {c[0]:,.0f} | {c[1]:,.0f} | {c[0] / c[1]:.1f} | {last} |", flush=True)


def shares():
    print(f"\nWhere a later call's instructions go, arity {ARITY}\n")
    print("| keys | clauses | index records | all | check of the code | check of the index: key pairs | its rest | clearing of tables | lookup |")
    print("|---|---|---|---|---|---|---|---|---|")
    for keys in ("few", "many"):
        for n in CLAUSES:
            functions, places, records, pairs = counted("later", "ours", n, keys)
            by = collections.Counter()
            for name, cost in functions.items():
                by[part(name)] += cost
            # the loop over pairs: the walk's own instructions that are run just as often as there are pairs of keys
            loop = sum(c for (name, _), c in places.items() if part(name) == "index" and c == pairs * CALLS)
            whole = sum(functions.values())
            row = [by["code"], loop, by["index"] - loop, by["clearing"], by["lookup"]]
            cells = " | ".join(f"{c / CALLS:,.0f} ({100 * c / whole:.0f} %)" for c in row)
            print(f"| {keys} | {n} | {records:,} | {whole / CALLS:,.0f} | {cells} |", flush=True)


def builds():
    print(f"\nFunctions of a build and of first calls with 5 % or more of the instructions, arity {ARITY}, 1,024 clauses\n")
    print("| what | keys | function | share |\n|---|---|---|---|")
    for what in ("build", "first"):
        for keys in ("few", "many"):
            functions = counted(what, "ours", 1024, keys)[0]
            whole = sum(functions.values())
            for name, cost in functions.most_common():
                if cost >= 0.05 * whole:
                    print(f"| {what} | {keys} | `{name}` | {100 * cost / whole:.0f} % |", flush=True)


if not os.path.exists(PROGRAM):
    sys.exit(f"bench/counts.py: {PROGRAM} is missing: bench/run makes it")
os.makedirs(os.path.dirname(OUT), exist_ok=True)
shares()
builds()
totals()
