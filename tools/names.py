#!/usr/bin/env python3
"""Brings the names of definitions and lemmas to the kit's spelling: words in snake case.

usage: tools/names.py            in the repository: rewrites crates/ (sources, definitions, proofs, edits)
       tools/names.py --look     lists old and new names, and names that would fall together; writes nothing

A name that a specs/ or proofs/ file declares and that has a part in lower camel case, as `recordsOf` or
`length-recordsOf`, gets that part in snake case. Parts that begin with a capital are types and stay. `getD` is the
older kit's word for `get_or`. Functions of src/ are in snake case already; strings, inputs and outputs stay.
"""

import os
import re
import sys

DECLARED = re.compile(r"\s*(?:(?:abbrev|unfoldable|axiom)\s+)?(?:pub\s+)?(?:record\s+|data\s+|ruleset\s+)?([^\s:(){}\[\],;.λ]+)\s*(?:[({].*)?:(?!=)")
CAMEL = re.compile(r"^[a-z][a-z0-9]*[A-Z]")
PART = r"[\w'-]"

# Lemmas whose name a definition gets: they end in _lem. A path, and the names in the files below it.
LEMMAS = {
    "claims/proofs": ["agree_at"],
    "index_writer/proofs/BucketLaws.antt": ["list_count"],
    "index_writer/proofs/ColumnLaws.antt": ["open_row"],
    "index_writer/proofs/LineLaws.antt": ["list_count"],
    "index_writer/proofs/Upto.antt": ["list_count"],
    "indexing/proofs/BridgeColumns.antt": ["same_at"],
    "indexing/proofs/BridgeEntries.antt": ["group_lines"],
    "indexing/proofs/BridgeExpand.antt": ["group_lines"],
    "indexing/proofs/BridgeGroups.antt": ["group_lines"],
    "indexing/proofs/BridgeLines.antt": ["group_lines"],
    "indexing/proofs/Pointers.antt": ["new_line"],
    "well_formed/proofs/PassFound.antt": ["tag_in"],
    "well_formed/proofs/PassSound.antt": ["tag_in"],
}


def new_part(part):
    if not CAMEL.match(part):
        return part
    if part == "getD":
        return "get_or"
    return re.sub(r"[A-Z]", lambda m: "_" + m.group(0).lower(), part)


def new_name(name):
    return "-".join("_".join(new_part(q) for q in p.split("_")) for p in name.split("-"))


def files(root, ends, below="crates"):
    for folder, dirs, names in os.walk(os.path.join(root, below)):
        dirs[:] = sorted(d for d in dirs if d not in ("out", ".git", "target"))
        for f in sorted(names):
            if f.endswith(ends):
                yield os.path.join(folder, f)


def read(path):
    with open(path, encoding="utf-8") as f:
        return f.read()


def declared(root):
    found = set()
    for path in files(root, ".antt"):
        for line in read(path).split("\n"):
            m = DECLARED.match(line)
            if m and not line.lstrip().startswith(("--", "let ")):
                found.add(m.group(1))
    return {n: new_name(n) for n in found if new_name(n) != n}


def pattern(names):
    words = "|".join(re.escape(n) for n in sorted(names, key=len, reverse=True))
    return re.compile(rf"(?<!{PART})(?:{words})(?!{PART})")


def look(root, names):
    for old in sorted(names):
        print(f"{old}\t{names[old]}")
    back = {}
    for old, new in names.items():
        back.setdefault(new, []).append(old)
    for new, olds in sorted(back.items()):
        if len(olds) > 1:
            print(f"together: {new}: {' '.join(sorted(olds))}")
    one = pattern(names)
    for path in files(root, (".antt", ".rt")):
        text = read(path)
        code = re.sub(r"(?m)(--|//).*$", "", text)
        code = re.sub(r"(?m)^\s*use .*$", "", code)
        for old in sorted(set(one.findall(code))):
            if re.search(rf"(?<!{PART})(?<!\.){re.escape(names[old])}(?!{PART})", code):
                print(f"beside: {path[len(root) + 1:]}: {old} {names[old]}")


def main():
    root = os.path.dirname(os.path.dirname(os.path.realpath(__file__)))
    if len(sys.argv) > 2:
        root = sys.argv[2]
    names = declared(root)
    if sys.argv[1:2] == ["--look"]:
        return look(root, names)
    one = pattern(names)
    changed = 0
    for path in list(files(root, (".antt", ".rt", ".edit"))):
        text = read(path)
        new = text
        for below, lemmas in LEMMAS.items():
            if path[len(root) + 8:].startswith(below):
                new = pattern(lemmas).sub(lambda m: m.group(0) + "_lem", new)
        new = one.sub(lambda m: names[m.group(0)], new)
        if new != text:
            changed += 1
            with open(path, "w", encoding="utf-8") as f:
                f.write(new)
    print(f"names: {len(names)} names, {changed} files")


main()
