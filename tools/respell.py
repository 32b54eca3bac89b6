#!/usr/bin/env python3
"""Respells this repository's own definitions and lemmas: words in snake case, facts in camel case.

usage: python3 tools/respell.py [--check] [FOLDER]

Reads tools/respell.tsv, a line for each name: old, a tab, new. Turns whole words in the .rt and .antt files below FOLDER/crates
(FOLDER is the repository by default), but for text in quotes in .rt files. All words turn at once, so a name can take the place of
another that turns too. --check writes nothing.
It was run once, on what /opt/rattle/port/port.py left; a second run would do harm, since some old names are new names of others. It stays to
show which name became which.
"""
import os
import re
import sys

HERE = os.path.dirname(os.path.realpath(__file__))
QUOTED = re.compile(r'b?"(?:\\.|[^"\\])*"')
WORD = re.compile(r"(?<![\w'\-·])[A-Za-z][\w'\-]*")


def table():
    with open(os.path.join(HERE, "respell.tsv"), encoding="utf-8") as f:
        return dict(line.rstrip("\n").split("\t") for line in f if line.strip())


def turned(text, names):
    return WORD.sub(lambda m: names.get(m.group(0), m.group(0)), text)


def turned_code(text, names):
    out, at = [], 0
    for m in QUOTED.finditer(text):
        out += [turned(text[at : m.start()], names), m.group(0)]
        at = m.end()
    return "".join(out) + turned(text[at:], names)


def main(argv):
    write = "--check" not in argv
    folders = [a for a in argv if a != "--check"]
    root = folders[0] if folders else os.path.dirname(HERE)
    names, changed = table(), 0
    for folder, dirs, files in os.walk(os.path.join(root, "crates")):
        dirs[:] = sorted(d for d in dirs if d != "out")
        for file in sorted(files):
            if not file.endswith((".rt", ".antt")):
                continue
            path = os.path.join(folder, file)
            with open(path, encoding="utf-8") as f:
                old = f.read()
            new = turned_code(old, names) if file.endswith(".rt") else turned(old, names)
            if new != old:
                changed += 1
                if write:
                    with open(path, "w", encoding="utf-8") as f:
                        f.write(new)
    print(f"respell: {changed} files changed" if write else f"respell: {changed} files would change")


main(sys.argv[1:])
