#!/usr/bin/env python3
"""Counts the places in src/ that docs/DESIGN-PASS.md speaks of. Run at the top of the repository; with a word it lists the places of that point.

    python3 tools/design_places.py [POINT]
"""
import collections
import glob
import re
import sys

FILES = sorted(glob.glob('crates/*/src/*.rt'))


def lines():
    for path in FILES:
        for number, line in enumerate(open(path, encoding='utf-8'), 1):
            yield path, number, line.split('//')[0].rstrip() if not line.lstrip().startswith('//') else ''


def matching(pattern):
    return [f'{p}:{n}: {l.strip()}' for p, n, l in lines() if re.search(pattern, l)]


def functions():
    """Each function: its file, its name, its head up to the body, and its body."""
    for path in FILES:
        text = open(path, encoding='utf-8').read()
        text = re.sub(r'//[^\n]*', '', text)
        for m in re.finditer(r'^( *)(?:pub )?(?:extern "C" )?fn (\w+)', text, re.M):
            start = re.search(r'^' + m[1] + r'\{$|\{$', text[m.end():], re.M)
            if not start:
                continue
            end = re.search(r'^' + m[1] + r'\}$', text[m.end() + start.end():], re.M)
            if not end:
                continue
            head = text[m.start():m.end() + start.start()]
            yield path, m[2], head, text[m.end() + start.end():m.end() + start.end() + end.start()]


def enums():
    # enums of the repository's own, and structs with an answer beside values
    return matching(r'^(pub )?enum ') + matching(r'^ +(pub )?(answer|verdict): ')


def twins():
    # functions whose bodies are equal once names, types and numbers are struck out
    groups = collections.defaultdict(list)
    for path, name, _, body in functions():
        shape = re.sub(r'\bfn\b|\s+', ' ', body)
        shape = re.sub(r"b?'[^']*'|b\"(?:[^\"\\]|\\.)*\"|\b\d+\b", '0', shape)
        shape = re.sub(r'\b(u8|u16|u32|usize)\b', 'n', shape)
        shape = re.sub(r'\b(?!let\b|mut\b|if\b|else\b|while\b|for\b|in\b|return\b|match\b|as\b|self\b)[a-zA-Z_]\w*', 'x', shape)
        if len(shape) > 60:
            groups[shape].append(f'{path}: {name}')
    return [' = '.join(g) for g in groups.values() if len(g) > 1]


def loops():
    return matching(r'\bwhile\b')


def by_hand():
    # a field of a number type compared, a conversion with a name of its own, two values ordered or words copied by hand
    named = [f'{p}: {n}' for p, n, h, _ in functions() if re.fullmatch(r'lower|higher|greater|copy|number|\w+_code|desk_of|bytes_of|wide|two_bytes', n)]
    return named + matching(r'\.0 (==|!=) \w+(\.\w+)*\.0\b')


def together():
    # three or more parameters that three or more functions take together
    sets = collections.Counter()
    for _, _, head, _ in functions():
        inside = head[head.find('('):]
        names = sorted(set(re.findall(r'(\w+): &(?:mut )?\[', inside)))
        for i in range(len(names)):
            for j in range(i + 1, len(names)):
                for k in range(j + 1, len(names)):
                    sets[(names[i], names[j], names[k])] += 1
    return [f'{n} functions: {", ".join(s)}' for s, n in sorted(sets.items(), key=lambda x: -x[1]) if n >= 3]


def facts():
    # a clause that stands alike in three functions or more
    clauses = collections.Counter()
    for _, _, head, _ in functions():
        clauses.update(set(re.sub(r'^\w+ ', '', c.strip()) for c in re.findall(r'requires ((?:\w+ )?\{[^\n]*\})', head)))
    return [f'{n} functions: {c}' for c, n in sorted(clauses.items(), key=lambda x: -x[1]) if n >= 3]


def buffers():
    # arrays in a struct, and functions that take a buffer and how much of it counts
    arrays = matching(r'^ +pub \w+: \[[^;]+; \d+\],')
    counted = [f'{p}: {n}' for p, n, h, _ in functions() if re.search(r': &(mut )?\[', h) and re.search(r'\b(n|count|total): usize', h)]
    return arrays + counted


def switches():
    return matching(r'\bfn\([^)]*\) *->|: fn\b|\bstep: u8\b')


def proofs():
    paths = sorted(glob.glob('crates/*/proofs/**/*.antt', recursive=True))
    return [f'{p}: {sum(1 for _ in open(p, encoding="utf-8"))} lines' for p in paths if p.count('/') > 3]


POINTS = [
    ('1', 'own enums, and structs with an answer beside values', enums),
    ('2', 'groups of functions with bodies of one shape', twins),
    ('3', 'while loops', loops),
    ('4', 'comparison, order, copy and conversion by hand', by_hand),
    ('5a', 'three borrowed arrays that travel together', together),
    ('5b', 'clauses that stand alike in three functions or more', facts),
    ('6', 'arrays in structs, and buffers with a count beside them', buffers),
    ('7', 'a switch on a step, or a table of functions', switches),
    ('8', 'proof files of functions', proofs),
]

if __name__ == '__main__':
    for point, title, find in POINTS:
        if len(sys.argv) > 1 and sys.argv[1] != point:
            continue
        found = find()
        print(f'{point:>2}  {len(found):4}  {title}')
        if len(sys.argv) > 1:
            print('\n'.join('        ' + f for f in found))
