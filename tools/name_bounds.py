#!/usr/bin/env python3
"""Writes the members of a bound through their type parameter: kind and columns as K.kind and K.columns,
and slots and outside as S.slots and S.outside.

usage: tools/name_bounds.py    in the top folder of the repository, after tools/respell.py

It was run once; run again, it finds nothing to do.
"""
import os
import re
import sys

sys.path.insert(0, os.path.dirname(os.path.realpath(__file__)))
from respell import files

OWN_MEMBERS = {"kinds"}
SHELF_CRATES = {"shelves", "shelves_tests"}
CLAUSE = re.compile(r"\b(?:(?:requires|ensures)\b[^{};\"]*\{|ghost \w+ = \{)")


def turned(text, shelf_members):
    text = re.sub(r"(?<![\w.'-])(kind|columns)(?![\w'-])", r"K.\1", text)
    if shelf_members:
        text = re.sub(r"(?<![\w.'-])(slots|outside)(?![\w'-])", r"S.\1", text)
    return text


def clauses_turned(text, shelf_members):
    out, i = [], 0
    while True:
        m = CLAUSE.search(text, i)
        if not m:
            out.append(text[i:])
            return "".join(out)
        end, depth = m.end(), 1
        while depth:
            depth += {"{": 1, "}": -1}.get(text[end], 0)
            end += 1
        out.append(text[i : m.end()])
        out.append(turned(text[m.end() : end], shelf_members))
        i = end


def main(root):
    for path in files(root, (".rt", ".edit")):
        crate = os.path.relpath(path, root).split(os.sep)[1]
        if crate in OWN_MEMBERS:
            continue
        with open(path, encoding="utf-8") as f:
            old = f.read()
        new = clauses_turned(old, crate not in SHELF_CRATES)
        if new != old:
            print(path)
            with open(path, "w", encoding="utf-8") as f:
                f.write(new)


if __name__ == "__main__":
    main(sys.argv[1] if len(sys.argv) > 1 else ".")
