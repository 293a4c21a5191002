#!/usr/bin/env python3
"""Brings this repository's own names to the spelling of today's Rattle, after port.py: words in snake case, types in camel case.

usage: python3 tools/port_names.py [DIR]     DIR is a checkout in which port.py has run; this one where it is left out

Definitions, lemmas, fields and variables of specs/ and proofs/, and the clauses and comments of src/ that name them, go from
`readingOf` to `reading_of`; a part of a name that begins with a capital is a fact or a type, and keeps it. A Rust item is in snake
case already, so nothing of src/ changes but what a clause or a comment cites. Two facts that were spelled like functions get their
capital. Names that fall together in a file are told; they are a field and a definition, or a Rust function and the definition that
it is promised by, and stay apart by where they stand.
"""
import glob
import os
import re
import sys

WORD = re.compile(r"(?<![\w'])(?:[A-Za-z_][A-Za-z0-9_'-]*[A-Za-z0-9_']|[A-Za-z_])")
HUMP = re.compile(r"(?:^|-)_?[a-z][a-z0-9_']*[A-Z]")
# facts whose names began with a small letter; the second where it is brought in from reading's Run
FACTS = {"rowAsked": "RowAsked"}
# a lemma that would have its function's name gets `_lem`
LEMMAS = {"in_order": ("gates/proofs/Counting.antt", "ask/proofs/Counted.antt"), "by_tests": ("demands/proofs/Floats.antt",), "by_field": ("mend/proofs/Reports.antt",)}
RUN = re.compile(r"Rattle\.reading\.proofs\.Run\.\{[^}]*\bstays\b")


def snake(word):
    if word in FACTS:
        return FACTS[word]
    parts = []
    for part in word.split("-"):
        if re.match(r"_?[a-z]", part):
            part = re.sub(r"(?<=[a-z0-9_'])([A-Z]+)", lambda m: "_" + m.group(1).lower(), part)
        parts.append(part)
    return "-".join(parts)


def turned(path, text):
    together = set()
    words = {m.group() for m in WORD.finditer(text)}

    def one(m):
        w = m.group()
        if not HUMP.search(w):
            return w
        if snake(w) in words:
            together.add((w, snake(w)))
        return snake(w)

    for lemma, places in LEMMAS.items():
        if path.endswith(places):
            text = re.sub(r"(?<![\w.'-])" + lemma + r"(?![\w'-])(?! = \w+;)", lemma + "_lem", text)
    new = WORD.sub(one, text)
    if path.endswith(os.path.join("reading", "proofs", "Run.antt")) or RUN.search(text):
        code = [l if l.lstrip().startswith("--") else re.sub(r"(?<![\w.'-])stays(?![\w'-])", "Stays", l) for l in new.split("\n")]
        new = "\n".join(code)
    if path.endswith(os.path.join("writer", "proofs", "Same.antt")):
        new = re.sub(r"(?<![\w.'-])in-cut(?![\w'-])", "cut-in", new)
    return new, together


def main(argv):
    root = argv[0] if argv else os.path.join(os.path.dirname(os.path.abspath(__file__)), "..")
    files = sorted(f for p in ("specs/**/*.antt", "proofs/**/*.antt", "src/**/*.rt") for f in glob.glob(os.path.join(root, "crates", "*", p), recursive=True))
    for f in files:
        with open(f, encoding="utf-8") as it:
            text = it.read()
        new, together = turned(f, text)
        for a, b in sorted(together):
            print(f"together: {os.path.relpath(f, root)}: {a} and {b}")
        if new != text:
            with open(f, "w", encoding="utf-8") as it:
                it.write(new)


main(sys.argv[1:])
