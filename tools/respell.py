#!/usr/bin/env python3
"""Brings this repository's own definitions and lemmas to today's spelling of Rattle, after port.py.

usage: tools/respell.py [FOLDER]    in the top folder of the repository, or of the one that is named

A name of specs/ or proofs/ that has a dash, or a capital inside a word, becomes upper camel case if it is
a type or a fact, and else snake case. Every place where the name stands in a clause, a ghost item, a
definition or a proof follows. Functions, types and fields of src/, strings and comments in code stay.
It was run once; run again, it finds nothing to do.
"""
import os
import re
import sys

WORD = r"[^\s(){}\[\],;.:λ⌜⌝«»]+"
TOKEN = re.compile(WORD)
GENERATED = ("Answers.antt", "Invariants.antt", "Proof.antt")


def files(root, ends):
    for folder, dirs, names in os.walk(os.path.join(root, "crates")):
        dirs[:] = sorted(d for d in dirs if d != "out")
        for name in sorted(names):
            if name.endswith(ends):
                yield os.path.join(folder, name)


def declared(text, generated):
    """The names that a file of specs/ or proofs/ declares, with what they are."""
    for line in text.split("\n"):
        if line.strip().startswith("--"):
            continue
        if line.startswith(("use ", "ghost use ")):
            for alias in re.findall(r"\sas (" + WORD + ")", line):
                yield alias, "term"
            continue
        m = re.match(r"^(?:(?:abbrev|unfoldable|pub)\s+)*(record|data)\s+(" + WORD + ")", line)
        if m:
            yield m[2], "type"
            continue
        m = re.match(r"^(?:(?:abbrev|unfoldable|pub)\s+)*(" + WORD + r")\s*:(?:\s(.*))?$", line)
        if m:
            if not (generated and (m[2] or "").startswith("goal.")):
                yield m[1], "term"
            continue
        m = re.match(r"^\s+(?:pub\s+)?(" + WORD + r")\s*:(?:\s|$)", line)
        if m:
            yield m[1], "term"


# what would fall together with a type of src/
OWN_WAY = {"So-far": "IsSoFar"}


def respelled(name):
    if name in OWN_WAY:
        return OWN_WAY[name]
    name = name.replace("′", "'")
    parts = re.split("[-_]" if name[0].isupper() else "-", name)
    if name[0].isupper() and len(parts[0]) > 1:
        return "".join(p[:1].upper() + p[1:] for p in parts)
    name = "_".join(parts)
    return re.sub(r"(?<=[a-z])([A-Z])(?=[a-z])", lambda m: "_" + m[1].lower(), name)


def table(root):
    names = set()
    for path in files(root, (".antt", ".rt")):
        with open(path, encoding="utf-8") as f:
            text = f.read()
        if path.endswith(".antt"):
            found = declared(text, path.endswith(GENERATED))
        else:
            found = ((alias, "term") for alias in re.findall(r"\sas ([\w'-]+)(?=[,}])", text))
        for name, _ in found:
            names.add(name)
    turn = {n: respelled(n) for n in names if respelled(n) != n}
    back = {}
    for name in sorted(names):
        back.setdefault(turn.get(name, name), []).append(name)
    fall = {n: olds for n, olds in back.items() if len(olds) > 1}
    return turn, fall


def turned(text, turn):
    lines = []
    for line in text.split("\n"):
        if not line.lstrip().startswith(("--", "//")):
            line = TOKEN.sub(lambda m: turn.get(m[0], m[0]), line)
        lines.append(line)
    return "\n".join(lines)


def ghost_parts(text, turn):
    """A source file with the names turned in its clauses and ghost items alone."""
    out, i = [], 0
    clause = re.compile(r"\b(?:ghost use [^;]*;|(?:requires|ensures|ghost)\b[^{};\"]*\{)", re.S)
    while True:
        m = clause.search(text, i)
        if not m:
            out.append(text[i:])
            return "".join(out)
        out.append(text[i : m.start()])
        end = m.end()
        if m[0].endswith("{"):
            depth = 1
            while depth:
                depth += {"{": 1, "}": -1}.get(text[end], 0)
                end += 1
        out.append(turned(text[m.start() : end], turn))
        i = end


def main(root):
    turn, fall = table(root)
    for new, olds in sorted(fall.items()):
        print(f"fall together: {', '.join(olds)} as {new}")
    count = 0
    for path in files(root, (".antt", ".rt", ".edit")):
        with open(path, encoding="utf-8") as f:
            old = f.read()
        if path.endswith(".antt"):
            new = turned(old, turn)
        else:
            new = ghost_parts(old, turn)
        if new != old:
            count += 1
            with open(path, "w", encoding="utf-8") as f:
                f.write(new)
    for name in sorted(turn):
        print(f"{name} {turn[name]}")
    print(f"{len(turn)} names, {count} files")


if __name__ == "__main__":
    main(sys.argv[1] if len(sys.argv) > 1 else ".")
