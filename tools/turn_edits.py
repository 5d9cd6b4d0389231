#!/usr/bin/env python3
"""Brings the must-fail edits of a repository over to its files as they are spelled now, with the same wrong meaning.

usage: python3 tools/turn_edits.py OLD [FOLDER]     OLD: the repository before it was turned; FOLDER: the one whose edits are written (this one)

For each pair of an edit the line that holds its `old:` text is looked up in OLD, and the line that stands for it in FOLDER: the two files are
compared line by line, each line of OLD respelled by names.txt and by what port.py does to projections. A word that still differs in the two lines
is renamed, and the same renamings are done to the `new:` text. Where the respelled text is no part of the line found, the three texts (old, old
with the edit, now) are joined word by word. What is left is printed, `by hand:`; and `look:` marks a `new:` text that was joined or renamed.
An edit is read from OLD each time, so the script may be run again when FOLDER has changed; the edits in BY_HAND are left as FOLDER has them.
"""
import difflib
import glob
import os
import re
import sys

HERE = os.path.dirname(os.path.realpath(__file__))
# what no line of today stands for: written by hand, and left as it is
BY_HAND = {"crates/ties/must-fail/named_alone.edit"}
with open(os.path.join(HERE, "names.txt"), encoding="utf-8") as f:
    NAMES = dict(line.split() for line in f)
WORD = re.compile(r"[^\s()\[\]{};.,@\"`:←∙]+")
TOKEN = re.compile(r"\s+|[()\[\]{};.,@\"`:←∙]|[^\s()\[\]{};.,@\"`:←∙]+")
PATH = re.compile(r"\(([^\s()\[\]{};.,@\"`:]+(?:\.[^\s()\[\]{};.,@\"`:]+)+)\)")


def read(path):
    with open(path, encoding="utf-8") as it:
        return it.read()


def tight(text):
    """Each projection written tight: `f x .field` is `(f x).field`, since ` .field` takes the field of all that is applied before it."""
    while True:
        found = re.search(r"(?<=[\w')]) \.(?=\w)", text)
        if not found:
            return PATH.sub(r"\1", text)
        # back over the words and brackets that are applied to one another
        begin, words, depth = found.start(), 0, 0
        for m in reversed(list(re.finditer(r"[\w'.]+|[()]|\s+|.", text[: found.start()]))):
            if m.group() in "()":
                depth += 1 if m.group() == ")" else -1
                if depth < 0:
                    break
            elif not depth and not re.fullmatch(r"[\w'.]+|\s+", m.group()):
                break
            if not depth and not m.group().isspace():
                begin, words = m.start(), words + 1
        spine = text[begin : found.start()]
        text = text[:begin] + (spine if words == 1 else f"({spine})") + "." + text[found.end() :]
        text = PATH.sub(r"\1", text)


def respelled(text, in_antt):
    """The spelling of today: names, and for a file of definitions primes, holes and projections."""
    text = WORD.sub(lambda m: NAMES.get(m.group(), m.group()), text)
    if in_antt:
        text = text.replace("′", "'")
        text = tight(text)
    return text


def line_at(text, at):
    return text.count("\n", 0, at)


def plain(line):
    return re.sub(r"[\s()]", "", line)


def alignment(old, new, in_antt):
    """For each line of the old file the number of the line of the new one that stands for it, where one is like enough."""
    a = [respelled(line, in_antt) for line in old.split("\n")]
    b = new.split("\n")
    to = {}
    for kind, i, i2, j, j2 in difflib.SequenceMatcher(None, [plain(x) for x in a], [plain(x) for x in b], autojunk=False).get_opcodes():
        if kind == "equal":
            to.update((i + k, j + k) for k in range(i2 - i))
        elif kind == "replace":
            start = j
            for k in range(i, i2):
                likes = [(difflib.SequenceMatcher(None, TOKEN.findall(a[k]), TOKEN.findall(b[n]), autojunk=False).ratio(), -n) for n in range(start, j2)]
                if likes and max(likes)[0] >= 0.5:
                    to[k] = -max(likes)[1]
                    start = to[k] + 1
    return to


def renamings(a, b):
    """The words of line a that another word stands for in line b."""
    x, y = TOKEN.findall(a), TOKEN.findall(b)
    return {x[i + k]: y[j + k] for kind, i, i2, j, j2 in difflib.SequenceMatcher(None, x, y, autojunk=False).get_opcodes() if kind == "replace" and i2 - i == j2 - j for k in range(i2 - i) if WORD.fullmatch(x[i + k]) and WORD.fullmatch(y[j + k])}


def part_in(line, part, now):
    """The part of the line `now` that stands for this part of `line`, by the words at its ends."""
    begin = line.index(part)
    x, y = TOKEN.findall(line), TOKEN.findall(now)
    at, first, last = 0, None, None
    for k, word in enumerate(x):
        if first is None and at >= begin:
            first = k
        if at < begin + len(part):
            last = k
        at += len(word)
    pairs = {}
    for m in difflib.SequenceMatcher(None, x, y, autojunk=False).get_matching_blocks():
        pairs.update((m.a + k, m.b + k) for k in range(m.size))
    inside = [pairs[k] for k in range(first, last + 1) if k in pairs]
    if not inside:
        return None
    start = 0 if first == 0 else min(inside)
    end = len(y) - 1 if last == len(x) - 1 else max(inside)
    return "".join(y[start : end + 1])


def joined(old, wrong, now):
    """`now` with the change from old to wrong, word by word; None where both change the same words."""
    o, w, n = TOKEN.findall(old), TOKEN.findall(wrong), TOKEN.findall(now)
    place = {}
    for kind, i, i2, j, j2 in difflib.SequenceMatcher(None, o, n, autojunk=False).get_opcodes():
        if kind == "equal" or i2 - i == j2 - j:
            place.update((i + k, j + k) for k in range(i2 - i + 1))
    place[0] = 0
    place[len(o)] = len(n)
    out, at = [], 0
    for kind, i, i2, j, j2 in difflib.SequenceMatcher(None, o, w, autojunk=False).get_opcodes():
        if kind != "equal":
            if i not in place or i2 not in place:
                return None
            out += n[at : place[i]] + w[j:j2]
            at = place[i2]
    return "".join(out + n[at:])


def turn(edit, old_crate, new_crate, files):
    """The lines of the edit as they are to be now, and what is to be said of it."""
    path, old, before, now, out, said = "", None, {}, {}, [], []
    for line in read(edit).split("\n"):
        if line.startswith("file: "):
            path = line[len("file: ") :].strip()
            for texts, folder in ((before, old_crate), (now, new_crate)):
                if path not in texts:
                    texts[path] = read(f"{folder}/{path}")
            key = (new_crate, path)
            if key not in files:
                files[key] = alignment(before[path], now[path], path.endswith(".antt"))
            out.append(line)
        elif line.startswith("old: "):
            old = line[len("old: ") :]
        elif line.startswith("new:"):
            wrong = line[len("new:") :].removeprefix(" ")
            in_antt = path.endswith(".antt")
            k = line_at(before[path], before[path].index(old))
            whole = before[path].split("\n")[k]
            there = now[path].split("\n")[files[(new_crate, path)][k]] if k in files[(new_crate, path)] else None
            a, b = respelled(old, in_antt), respelled(wrong, in_antt)
            if there is None or a not in there:
                if there is None:
                    said.append(f"by hand: no line stands for: {old}")
                    out += ["old: " + old, "new: " + wrong]
                    continue
                words = renamings(respelled(whole, in_antt), there)
                a2, b2 = (WORD.sub(lambda m: words.get(m.group(), m.group()), x) for x in (a, b))
                if a2 in there:
                    said.append(f"look: renamed {words}")
                    a, b = a2, b2
                else:
                    n = part_in(respelled(whole, in_antt), a, there)
                    b3 = n and joined(a, b, n)
                    if not b3:
                        said.append(f"by hand: the line is now: {there}")
                        out += ["old: " + old, "new: " + wrong]
                        continue
                    said.append("look: joined word by word")
                    a, b = n, b3
            if now[path].count(a) != 1:
                said.append(f"by hand: {now[path].count(a)} times: {a}")
            else:
                now[path] = now[path].replace(a, b)
                before[path] = before[path].replace(old, wrong)
            if in_antt:
                strange = {x for x in WORD.findall(b) if x not in WORD.findall(now[path].replace(b, "")) and not x.isdigit()} - set(WORD.findall(a))
                if strange:
                    said.append(f"look: words that the file does not have else: {' '.join(sorted(strange))}")
            out += ["old: " + a, "new: " + b]
        else:
            out.append(line)
    return "\n".join(out), said


def main(argv):
    if not argv:
        print(__doc__)
        return 2
    was, root = argv[0], argv[1] if len(argv) > 1 else os.path.dirname(HERE)
    files, changed, left = {}, 0, 0
    for edit in sorted(glob.glob(f"{was}/crates/*/must-fail/*.edit")):
        name = os.path.relpath(edit, was)
        crate = name.split("/")[1]
        if name in BY_HAND:
            print(f"{name}: kept as it is")
            continue
        text, said = turn(edit, f"{was}/crates/{crate}", f"{root}/crates/{crate}", files)
        for it in said:
            print(f"{name}: {it}")
        left += any(it.startswith("by hand") for it in said)
        if text != read(f"{root}/{name}"):
            changed += 1
            with open(f"{root}/{name}", "w", encoding="utf-8") as it:
                it.write(text)
    print(f"{changed} edits written, {left} by hand, {len(BY_HAND)} kept")
    return 0


if __name__ == "__main__":
    raise SystemExit(main(sys.argv[1:]))
