#!/usr/bin/env python3
"""Brings the repository's own definitions, lemmas, fields and constructors to snake case, by the table names.txt beside it.

usage: python3 tools/snake_names.py [FOLDER]     run once, at the top of a repository that port.py has turned (FOLDER: another such repository)

Each line of names.txt is an old name and its new one. In .antt files every such word is turned; in .rt files those outside text in quotes.
"""
import os
import re
import sys

HERE = os.path.dirname(os.path.realpath(__file__))
root = sys.argv[1] if len(sys.argv) > 1 else os.path.dirname(HERE)
with open(os.path.join(HERE, "names.txt"), encoding="utf-8") as f:
    NAMES = dict(line.split() for line in f)
WORD = re.compile(r"[^\s()\[\]{};.,@\"`:←∙]+")
QUOTED = re.compile(r'"(?:[^"\\\n]|\\.)*"')


def turned(text):
    return WORD.sub(lambda m: NAMES.get(m.group(), m.group()), text)


def outside_quotes(text):
    parts, at = [], 0
    for m in QUOTED.finditer(text):
        parts += [turned(text[at : m.start()]), m.group()]
        at = m.end()
    return "".join(parts + [turned(text[at:])])


changed = 0
for folder, dirs, files in os.walk(os.path.join(root, "crates")):
    dirs[:] = sorted(d for d in dirs if d not in ("out", "must-fail", "data"))
    for name in sorted(files):
        if name.endswith((".antt", ".rt")):
            path = os.path.join(folder, name)
            with open(path, encoding="utf-8") as f:
                old = f.read()
            new = outside_quotes(old)
            if new != old:
                changed += 1
                with open(path, "w", encoding="utf-8") as f:
                    f.write(new)
print(f"{changed} files turned")
