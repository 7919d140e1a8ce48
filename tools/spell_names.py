#!/usr/bin/env python3
"""Spells the repository's own definitions and lemmas as the library spells its own: types and facts in upper camel case,
everything else in snake case. Run once, at the top of the checkout, after the kit's port.py.

usage: python3 tools/spell_names.py           renames in crates/: specs, proofs, clauses and must-fail edits
       python3 tools/spell_names.py --look    only says what would be renamed, and which names would fall together

Names of the library, and names that the check makes of the code, keep their spelling.
"""

import collections
import os
import re
import sys

TOP = os.path.realpath(os.path.join(os.path.dirname(__file__), ".."))
NAME = re.compile(r"[A-Za-z_][A-Za-z0-9_']*(?:-[A-Za-z0-9_'≤≢₀-₉]+)+")
WORD = re.compile(r"[A-Za-z_][A-Za-z0-9_'-]*")
DEFINED = re.compile(r"^\s*(?:abbrev |unfoldable )?(?:pub )?(?:record |data )?([A-Za-z_][\w'-]*)(?: [({][^=]*)? :(?!:)")
LOCAL = re.compile(r"(?:let |λ |λ \(|[({])([A-Za-z_][\w'-]*-[\w'-]*)(?= (?:=|:))")
RENAMED = re.compile(r" as ([A-Za-z_][\w'-]*-[\w'-]*)")
MADE = re.compile(r": (?:goal|given|need)\.")
IMPORTED = re.compile(r"use (?:Rattle\.std|borrow|denote|Prim|mathlib|native|sem)[\w.◌'+-]*\.\{([^}]*)\}")

# names that would fall together with another name of the same place
OTHERWISE = {
    "bit-and": "and_of_bits",
    "bit-or": "or_of_bits",
    "bit-xor": "xor_of_bits",
    "sheet-size": "size_of_sheet",
}


def files(*endings):
    for folder, dirs, names in os.walk(os.path.join(TOP, "crates")):
        dirs[:] = sorted(d for d in dirs if d != "out")
        for name in sorted(names):
            if name.endswith(endings):
                yield os.path.join(folder, name)


def read(path):
    with open(path, encoding="utf-8") as f:
        return f.read()


def spelled(name):
    if name in OTHERWISE:
        return OTHERWISE[name]
    parts = name.split("-")
    if name[0].isupper():
        return "".join(p[:1].upper() + p[1:] for p in parts)
    return "_".join(parts)


def own_names():
    own, library = set(), set()
    for path in files(".antt", ".rt"):
        text = read(path)
        for group in IMPORTED.findall(text):
            for item in group.split(","):
                library.update(item.strip().split(" as ")[:1])
        if not path.endswith(".antt"):
            continue
        for line in text.splitlines():
            if line.lstrip().startswith("--") or MADE.search(line):
                continue
            found = DEFINED.match(line)
            if found and "-" in found.group(1):
                own.add(found.group(1))
            own.update(LOCAL.findall(line))
            own.update(RENAMED.findall(line))
    return {n for n in own if n not in library}, library


def turned(text, names):
    return NAME.sub(lambda m: names.get(m.group(0), m.group(0)), text)


def look(names):
    taken = collections.defaultdict(set)
    for path in files(".antt", ".rt"):
        for word in set(WORD.findall(read(path))):
            taken[word].add(os.path.relpath(path, TOP))
    for old, new in sorted(names.items()):
        if new in taken:
            print(f"{old} -> {new}: there already: {sorted(taken[new])[:6]}")
    both = collections.defaultdict(list)
    for old, new in names.items():
        both[new].append(old)
    for new, olds in sorted(both.items()):
        if len(olds) > 1:
            print(f"{olds} would both be {new}")


def main():
    own, library = own_names()
    names = {n: spelled(n) for n in sorted(own)}
    if "--look" in sys.argv:
        look(names)
        print(f"{len(names)} names")
        return
    for path in list(files(".antt", ".rt", ".edit")):
        text = read(path)
        new = turned(text, names)
        if new != text:
            with open(path, "w", encoding="utf-8") as f:
                f.write(new)
    print(f"{len(names)} names")


if __name__ == "__main__":
    main()
