#!/usr/bin/env python3
"""Brings the names of the repository's own definitions and lemmas to snake case.

usage: python3 tools/respell.py [FOLDER]     once, at the top of a checkout that port.py has just turned

Every name that an .antt file below crates/ declares and that is written in camel case is respelled wherever it stands as a whole name in
the .antt, .rt and .edit files. Parts of a name that a dash joins are respelled each by itself; a part that begins with a capital names a
type and stays. OTHER has the names that would otherwise be those of a field of a struct or of a record beside them.
"""

import os
import re
import sys

NAME = re.compile(r"[A-Za-z_][A-Za-z0-9_'\-]*")
WORDS = r"(?:pub|unfoldable|abbrev|ruleset|let|infixl|infixr|infix)"
DECLARED = re.compile(r"^[ \t|]*(?:" + WORDS + r" )*((?:[a-z][A-Za-z0-9_'\-]*)(?: [a-z][A-Za-z0-9_'\-]*)*)(?: [({][^:=\n]*)? :(?:\s|$)", re.M)
OTHER = {
    "byNumber": "words_by_number",
    "byRank": "words_by_rank",
    "maxLoad": "max_load_of",
    "minLoad": "min_load_of",
    "totalLoad": "total_load_of",
}


def part(p):
    if not p[:1].islower():
        return p
    p = re.sub(r"([a-z0-9])([A-Z])", r"\1_\2", p)
    p = re.sub(r"([A-Z])([A-Z][a-z])", r"\1_\2", p)
    return p.lower()


def snake(name):
    return OTHER.get(name) or "-".join(part(p) for p in name.split("-"))


def files(root, endings):
    for folder, dirs, names in os.walk(os.path.join(root, "crates")):
        dirs[:] = sorted(d for d in dirs if d not in ("out", "target"))
        for n in sorted(names):
            if n.endswith(endings):
                yield os.path.join(folder, n)


def read(path):
    with open(path, encoding="utf-8") as f:
        return f.read()


def declared(root):
    found = set()
    for p in files(root, (".antt",)):
        for m in DECLARED.finditer(read(p)):
            found.update(m.group(1).split())
    return found


def main(argv):
    root = argv[0] if argv else "."
    names = {n: snake(n) for n in declared(root) if snake(n) != n}
    # names that only an edit still has, since port.py turns no edit
    for n in ("countOf", "formatOf", "wordOf", "orElse", "withBlocks", "effectOf", "blockOf"):
        names[n] = snake(n)
    back = {}
    for old, new in sorted(names.items()):
        if new in back:
            print(f"fall together: {old} and {back[new]} are both {new}")
            return 1
        back[new] = old
    changed = 0
    for p in files(root, (".antt", ".rt", ".edit")):
        text = read(p)
        turned = NAME.sub(lambda m: names.get(m.group(), m.group()), text)
        if turned != text:
            with open(p, "w", encoding="utf-8") as f:
                f.write(turned)
            changed += 1
    print(f"{len(names)} names respelled in {changed} files")
    return 0


if __name__ == "__main__":
    raise SystemExit(main(sys.argv[1:]))
