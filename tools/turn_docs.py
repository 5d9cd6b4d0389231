#!/usr/bin/env python3
"""Brings the names between backticks in README.md and docs/ to snake case, by names.txt and ported.txt beside it. Run once."""
import glob
import os
import re

HERE = os.path.dirname(os.path.realpath(__file__))
TOP = os.path.dirname(HERE)
NAMES = {}
for table in ("ported.txt", "names.txt"):
    with open(os.path.join(HERE, table), encoding="utf-8") as f:
        NAMES |= dict(line.split() for line in f)
WORD = re.compile(r"[^\s()\[\]{};.,@\"`:←∙]+")
for path in [os.path.join(TOP, "README.md"), *glob.glob(os.path.join(TOP, "docs", "**", "*.md"), recursive=True)]:
    if os.path.basename(path) == "PORT.md":
        continue
    with open(path, encoding="utf-8") as f:
        old = f.read()
    new = re.sub(r"`[^`\n]+`", lambda m: WORD.sub(lambda w: NAMES.get(w.group(), w.group()), m.group()), old)
    if new != old:
        with open(path, "w", encoding="utf-8") as f:
            f.write(new)
