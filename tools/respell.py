#!/usr/bin/env python3
"""Respells this repository's own definitions and lemmas in snake case, once, after port.py: functions of src/, strings, inputs and outputs stay.

usage: python3 tools/respell.py          at the top of the repository

A name in camel case that begins with a small letter is written with underscores, wherever it stands: specs/, proofs/, clauses of src/, edits and pages.
A lemma that then would have its definition's name gets _lem. A fact that was spelled as a value gets a capital. It prints each name that it changed.
"""
import os
import re

DECLARED = re.compile(r"^\s*(?:(?:abbrev|unfoldable|opaque|pub|coherent|inline)\s+)*([^\s:(){}|=.,]+)\s*:(?!:)")
FACTS = {"aTimer": "ATimer", "aCounter": "ACounter", "aConstant": "AConstant", "aSlope": "ASlope"}
WORD = r"(?<![\w'\u25cc-])%s(?![\w'\u25cc-])"


def files(kinds):
    for top in ("crates", "docs", "hosts", "README.md", "crates.txt"):
        if os.path.isfile(top):
            yield top
        for folder, dirs, names in os.walk(top):
            dirs[:] = sorted(d for d in dirs if d not in ("out", "data"))
            for f in sorted(names):
                if f.endswith(kinds):
                    yield os.path.join(folder, f)


def read(p):
    with open(p, encoding="utf-8") as f:
        return f.read()


def snake(n):
    n = re.sub(r"([a-z0-9])([A-Z])", r"\1_\2", n)
    return re.sub(r"([A-Z])([A-Z][a-z])", r"\1_\2", n).lower()


def main():
    names = {}
    for p in files((".antt",)):
        for line in read(p).splitlines():
            m = DECLARED.match(line)
            if m:
                names.setdefault(m.group(1), []).append(p)
    camel = {n: FACTS.get(n, snake(n)) for n in names if re.match(r"[a-z]\w*[A-Z]", n) and re.fullmatch(r"\w+", n)}
    for p in files((".antt", ".rt")):
        for n in re.findall(r"(?:\{|,\s)\S+ as ([a-z]\w*[A-Z]\w*)", read(p)):
            camel[n] = snake(n)
    twice = {s for s in camel.values() if list(camel.values()).count(s) > 1}
    if twice:
        raise SystemExit(f"two names fall together: {sorted(twice)}")
    lemmas = sorted(s for s in camel.values() if s in names)
    # a path's part or a projection, as .same_lines, is a function's or a field's name, and stays
    lem = re.compile(r"(?<![\w'.\u25cc-])(%s)(?![\w'\u25cc-])" % "|".join(lemmas))
    word = re.compile(WORD % ("(" + "|".join(sorted(camel, key=len, reverse=True)) + ")"))
    for p in files((".antt", ".rt", ".edit", ".md", ".h")):
        old = read(p)
        new = lem.sub(lambda m: m.group(1) + "_lem", old) if p.endswith(".antt") else old
        new = word.sub(lambda m: camel[m.group(1)], new)
        if p == "crates/theorems/proofs/Timer.antt":
            new = re.sub(r"(?m)^abbrev clear : Link|^clear k =|\bclear k →", lambda m: m.group(0).replace("clear", "IsClear"), new)
        if new != old:
            with open(p, "w", encoding="utf-8") as f:
                f.write(new)
    for n in sorted(camel):
        print(f"{n} -> {camel[n]}")
    for s in lemmas:
        print(f"{s} (a lemma) -> {s}_lem")


if __name__ == "__main__":
    main()
