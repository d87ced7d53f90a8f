#!/usr/bin/env python3
"""Respells this repository's own names: tools/spelling.txt has a line for each, the old name and the new one.

usage: python3 tools/spell.py       at the top of the repository, once, after the kit's own port.py

Definitions and lemmas are in snake case, facts and types in camel case. Names of src/, exported names, strings, inputs and outputs
stay. A lemma that would get its definition's name has _lem behind it.
"""

import os
import re

TOKEN = re.compile(r'[^\s(){}\[\];,."`|]+')
# Names that stood before under the new spelling of another one, each within one file.
APART = {
    "crates/laws/proofs/Invalid.antt": {"by_one": "by_one_lem"},
    "crates/laws/proofs/Stores.antt": {"cells_at": "cells_at_lem"},
    "crates/verdicts/proofs/calls/verdict_of_design/Proof.antt": {"has_room": "has_room_lem"},
}


def table():
    with open("tools/spelling.txt", encoding="utf-8") as f:
        return dict(line.split() for line in f)


def respelled(text, names, walk=False, prose=False):
    """The text with each whole name respelled; in prose and behind a dot of a walked proof a dashed word stands for itself."""

    def one(m):
        word = m.group(0)
        if word not in names or ("-" in word and (prose or (walk and text[: m.start()].endswith(".")))):
            return word
        return names[word]

    return TOKEN.sub(one, text)


def quoted(text, names):
    """Of a comment or a page: the names of definitions, and whatever stands between backticks."""
    parts = text.split("`")
    return "`".join(respelled(p, names, prose=i % 2 == 0) for i, p in enumerate(parts))


def code(line, names, comment, walk):
    """A line of code: outside strings, and its comment as prose."""
    head, mark, tail = line.partition(comment)
    pieces = re.split(r'("(?:[^"\\]|\\.)*")', head)
    head = "".join(p if i % 2 else respelled(p, names, walk) for i, p in enumerate(pieces))
    return head + mark + quoted(tail, names)


def turned(path, names):
    with open(path, encoding="utf-8") as f:
        text = f.read()
    names = names | APART.get(path, {})
    if path.endswith(".md"):
        return text, quoted(text, names)
    if path.endswith(".edit"):
        return text, "".join(line if line.startswith("file:") else respelled(line, names) for line in text.splitlines(keepends=True))
    comment = "--" if path.endswith(".antt") else "//"
    walk = path.endswith("/Proof.antt")
    plain = names if path.endswith(".antt") else {old: new for old, new in names.items() if "-" not in old}
    lines = text.splitlines(keepends=True)
    return text, "".join(code(line, names if line.startswith("ghost use ") else plain, comment, walk) for line in lines)


def main():
    names = table()
    for top in ("crates", "docs", "README.md"):
        found = [(".", [], [top])] if top.endswith(".md") else os.walk(top)
        for folder, dirs, files in found:
            dirs[:] = sorted(d for d in dirs if d != "out")
            for name in sorted(files):
                path = os.path.normpath(os.path.join(folder, name))
                if path.endswith((".rt", ".antt", ".edit", ".md")):
                    old, new = turned(path, names)
                    if old != new:
                        with open(path, "w", encoding="utf-8") as f:
                            f.write(new)


main()
