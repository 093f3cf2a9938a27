#!/usr/bin/env python3
"""Gives the repository's own definitions and lemmas their spelling in snake case, by the table respelled.tsv beside it.

usage: python3 tools/respell.py            at the top of the repository, once, after the kit's port.py

A row of the table is OLD, a tab, NEW, and, where it is for some files alone, a tab and the beginning of their paths. Whole
words turn, in .antt files and in the clauses, ghost items and `ghost use` lines of .rt files; Rust's own names have neither a
dash nor a capital after a small letter, so no word of code is a row.
Quoted text stays, and so does, in a function's Answers and Invariants, the first name behind goal, c, w, l or g: those
names are made by the check. In a file that brings a word in from a library the word stays, but as a field.
"""

import os
import re
import sys

HERE = os.path.dirname(os.path.realpath(__file__))
WORD = re.compile(r'"(?:[^"\\\n]|\\.)*"|[^\s(){}\[\].;,@"«»]+')
MADE = ("goal", "given", "need", "c", "w", "l", "g")
LIBRARY = re.compile(r"use ((?!Rattle\.(?:%s)\.)[\w.]+)(?:\.\{([^}]*)\}| as (\w+))")


def table():
    with open(os.path.join(HERE, "respelled.tsv"), encoding="utf-8") as f:
        rows = [row.rstrip("\n").split("\t") for row in f if row.strip()]
    return [(old, new, where[0] if where else "") for old, new, *where in rows]


def files(top):
    for folder, dirs, names in os.walk(top):
        dirs[:] = sorted(d for d in dirs if d != "out")
        for name in sorted(names):
            if name.endswith((".antt", ".rt")):
                yield os.path.join(folder, name)


def respelled(text, path, rows, own_crates):
    made = os.path.basename(path) in ("Answers.antt", "Invariants.antt")
    theirs, aliases = set(), set()
    for module, words, alias in re.findall(LIBRARY.pattern % own_crates, text):
        theirs.update(w.strip() for w in words.split(","))
        if alias:
            aliases.add(alias)

    def turn(m):
        word = m.group(0)
        if word not in rows:
            return word
        before = text[: m.start()]
        head = re.search(r'([^\s(){}\[\].;,@"«»]+)\.$', before)
        if head and (head.group(1) in aliases or made and head.group(1) in MADE):
            return word
        field = head or re.search(r"(?:[{;]|^)\s*$", before[-80:]) and re.match(r" = ", text[m.end() :])
        if word in theirs and not field:
            return word
        return rows[word]

    return WORD.sub(turn, text)


def main():
    rows = table()
    crates = sorted(os.listdir("crates"))
    for path in files("crates"):
        with open(path, encoding="utf-8") as f:
            text = f.read()
        here = {old: new for old, new, where in rows if path.startswith(where)}
        new = respelled(text, path, here, "|".join(crates))
        if new != text:
            with open(path, "w", encoding="utf-8") as f:
                f.write(new)
    return 0


if __name__ == "__main__":
    sys.exit(main())
