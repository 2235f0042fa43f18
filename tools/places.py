#!/usr/bin/env python3
"""Counts the places in crates/*/src that docs/DESIGN-PASS.md speaks of, by its points.

    python3 tools/places.py [POINT]

prints, for each point or for the one that is named, how many places there are, and each with its file and line.
"""
import difflib
import glob
import re
import sys
from collections import defaultdict


def sources():
    for name in sorted(glob.glob('crates/*/src/*.rt')):
        yield name, open(name).read().split('\n')


def code(line):
    return line.split('//')[0]


def matching(pattern):
    return [(name, i + 1, line.strip()) for name, lines in sources() for i, line in enumerate(lines)
            if re.search(pattern, code(line)) and not line.startswith('ghost use')]


def functions():
    """(file, line, name, head, clauses, body) of each function."""
    for name, lines in sources():
        for i, line in enumerate(lines):
            found = re.match(r'\s*(?:pub )?(?:extern "C" )?fn (\w+)', line)
            if not found:
                continue
            depth, head, body, inside = 0, [], [], False
            for part in lines[i:]:
                if not inside and re.match(r'\s*\{\s*$', part):
                    inside = True
                elif not inside:
                    head.append(part)
                    if part.rstrip().endswith('{') and 'ensures' not in part and 'requires' not in part:
                        inside = True
                else:
                    body.append(part)
                if inside:
                    depth += code(part).count('{') - code(part).count('}')
                    if depth <= 0:
                        break
            clauses = [c.strip() for c in head if re.match(r'\s*(requires|ensures)', c)]
            yield name, i + 1, found.group(1), '\n'.join(h for h in head if h.strip() not in clauses), clauses, body


def hand_counted():
    """Loops whose index, place or count is moved on by hand."""
    out = []
    for name, line, function, _, _, body in functions():
        for i, part in enumerate(body):
            if not re.search(r'\b(while|loop)\b.*\{', code(part)):
                continue
            indent = len(part) - len(part.lstrip())
            inner = []
            for later in body[i + 1:]:
                if later.strip() == '}' and len(later) - len(later.lstrip()) == indent:
                    break
                inner.append(later)
            step = [s for s in inner if re.search(r'^\s*\w+ [+-]= ', s) or re.search(r'^\s*\w+ = (u|v|next|rest|more|behind|after\w*|first\w*|left)\b', s)]
            if step:
                out.append((name, line, f'{function}: {part.strip()}'))
    return out


def twins():
    """Pairs of functions of four lines and more whose bodies are alike but for names, constants and types."""
    shapes = []
    for name, line, function, _, _, body in functions():
        text = ' '.join(code(b).strip() for b in body)
        if len([b for b in body if b.strip()]) >= 4:
            shapes.append((name, line, function, re.findall(r'\w+|[^\w\s]', re.sub(r'\b[A-Z_0-9]{2,}\b|\b\d+\b', 'C', text))))
    out = []
    for i, (name, line, function, a) in enumerate(shapes):
        for other, at, twin, b in shapes[i + 1:]:
            if abs(len(a) - len(b)) * 4 < len(a) and difflib.SequenceMatcher(None, a, b, autojunk=False).ratio() > 0.85:
                out.append((name, line, f'{function} and {twin} ({other}:{at})'))
    return out


def repeated_facts():
    """A `requires` that stands in three functions or more."""
    by_text = defaultdict(list)
    for name, line, function, _, clauses, _ in functions():
        for clause in clauses:
            found = re.match(r'requires\s*\w*\s*\{(.*)\}$', clause)
            if found:
                by_text[found.group(1).strip()].append((name, line, function))
    return [(where[0][0], where[0][1], f'{text}: {len(where)} functions') for text, where in by_text.items() if len(where) > 2]


def together():
    """Two parameters, of which one counts or accompanies the other, that stand side by side in three functions or more."""
    pairs = defaultdict(list)
    for name, line, function, head, _, _ in functions():
        parameters = re.findall(r'(\w+): ([^,()]+(?:\([^)]*\))?)', head.split('->')[0])
        for (a, s), (b, t) in zip(parameters, parameters[1:]):
            pairs[f'{a}: {s.strip()}, {b}: {t.strip()}'].append((name, line, function))
    return [(where[0][0], where[0][1], f'{text}: {len(where)} functions') for text, where in pairs.items() if len(where) > 2]


POINTS = {
    '1 own enums': lambda: matching(r'\benum [A-Z]'),
    '1 numbers for refusals and outcomes': lambda: matching(r'number: (u8|\d+|number)|outcome: (u8|\d)|NOT_YET\b'),
    '1 a part without bytes for none': lambda: matching(r'&\w+\[\.\.0\]'),
    '2 twins': twins,
    '3 loops counted by hand': hand_counted,
    '4 conversions by as': lambda: matching(r' as (u8|u16|u32|u64|usize)\b'),
    '5 facts in three contracts or more': repeated_facts,
    '5 and 6 parameters side by side in three functions or more': together,
    '6 buffers with a length beside them': lambda: matching(r'&mut \[u(8|16)\], \w+: usize|\w+: &\[u16\], \w+: usize|uses: usize|count: usize'),
    '7 flags that choose a step': lambda: matching(r'\b\w+: bool[,)]'),
}


def main():
    wanted = sys.argv[1] if len(sys.argv) > 1 else ''
    for title, find in POINTS.items():
        if not title.startswith(wanted):
            continue
        places = find()
        print(f'{title}: {len(places)}')
        for name, line, what in places:
            print(f'    {name}:{line}: {what}')


main()
