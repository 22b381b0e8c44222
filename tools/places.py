#!/usr/bin/env python3
"""Counts of docs/DESIGN-PASS.md, over crates/*/src: `python3 tools/places.py` prints a line a point, and `places.py POINT` the places."""
import collections
import glob
import re
import sys

FILES = sorted(glob.glob('crates/*/src/**/*.rt', recursive=True))
TEXT = {f: open(f).read() for f in FILES}


def lines(pattern, keep=lambda l: True):
    """Places whose line, comments apart, fits the pattern."""
    out = []
    for f in FILES:
        for n, l in enumerate(TEXT[f].split('\n'), 1):
            if re.search(pattern, l.split('//')[0]) and keep(l):
                out.append(f'{f}:{n}: {l.strip()[:100]}')
    return out


def functions():
    """File, line, name, head and body of each function."""
    for f in FILES:
        for m in re.finditer(r'^( *)(?:pub(?:\([a-z]+\))? )?fn (\w+)(.*?)^\1\{\n(.*?)^\1\}', TEXT[f], re.M | re.S):
            yield f, TEXT[f][:m.start()].count('\n') + 1, m.group(2), m.group(3), m.group(4)


def like_option():
    """Own enums of two or three variants of which one holds nothing, or a refusal, and another a value."""
    out = []
    for f in FILES:
        for m in re.finditer(r'^( *)(?:pub )?enum (\w+) \{\n(.*?)^\1\}', TEXT[f], re.M | re.S):
            variants = re.findall(r'^\s*(\w+)(\(.*\))?,', m.group(3), re.M)
            bare = [v for v, held in variants if not held or v in ('Refused', 'Fault')]
            full = [v for v, held in variants if held and v not in ('Refused', 'Fault')]
            if len(variants) <= 3 and len(bare) <= 2 and bare and (full or 'Refused' in bare):
                out.append(f"{f}:{TEXT[f][:m.start()].count(chr(10)) + 1}: enum {m.group(2)}")
    return out


def twins():
    """Functions of one crate with bodies of five lines and more that differ in names and numbers alone."""
    shapes = collections.defaultdict(list)
    for f, n, name, head, body in functions():
        if body.count('\n') >= 5:
            shape = re.sub(r'\d[\d_]*', '0', re.sub(r'\b[A-Za-z_]\w*\b', lambda m: m.group(0) if m.group(0) in KEYWORDS else 'x', re.sub(r'//.*', '', body)))
            shapes[f.split('/')[1], re.sub(r'\s+', ' ', shape)].append(f'{f}:{n}: {name}')
    return [' = '.join(v) for v in shapes.values() if len(v) > 1]


KEYWORDS = set('if else match while for in loop return let mut as true false break continue self'.split())


def facts():
    """Facts that stand in the requires of three functions and more of one crate, names of parameters apart."""
    seen = collections.defaultdict(set)
    for f, n, name, head, body in functions():
        for clause in re.findall(r'requires[^{]*\{(.*?)\}\n', head, re.S):
            for fact in re.split(r' × ', re.sub(r'\s+', ' ', clause)):
                fact = fact.strip(' ()')
                if re.match(r'[A-Z]', fact):
                    seen[f.split('/')[1], fact].add(name)
    return [f'{c}: {fact}: {len(v)} functions' for (c, fact), v in sorted(seen.items()) if len(v) >= 3]


def together():
    """Three parameters and more, names and types, that stand beside one another in three functions and more of one crate."""
    seen = collections.defaultdict(set)
    for f, n, name, head, body in functions():
        params = [re.sub(r'\s+', ' ', p).strip() for p in re.split(r',\s', re.sub(r'^.*?\(', '', head.split(')\n')[0].split(') ->')[0], count=1, flags=re.S))]
        params = [p for p in params if re.match(r'\w+: ', p)]
        for i in range(len(params) - 2):
            seen[f.split('/')[1], ', '.join(params[i:i + 3])].add(name)
    return [f'{c}: {p}: {len(v)} functions' for (c, p), v in sorted(seen.items()) if len(v) >= 3]


POINTS = {
    '1 enums like Option and Result': like_option,
    '1 flags beside a value': lambda: lines(r'^\s*(pub )?(found|fits|known|any|exact|more): bool,'),
    '1 numbers of refusals': lambda: lines(r'^\s*pub const [A-Z_]+: u64 = \d+;', lambda l: True) if 'crates/model/src/refusals.rt' in TEXT else [],
    '2 twins': twins,
    '3 loops that count an index': lambda: lines(r'^\s*(while|loop)\b'),
    '4 equality by hand': lambda: lines(r'fn (is_)?(same|equal|are_equal)\w*\('),
    '4 a match that says true or false': lambda: lines(r'=> (true|false),$'),
    '5 facts in three contracts': facts,
    '5 parameters that travel together': together,
    '6 buffers with a count beside them': lambda: lines(r'^\s*(pub )?(count|len): usize,'),
    '6 lists side by side': lambda: lines(r'^\s*(pub )?\w+: \[[iu]64; 1[67]\],'),
    '7 a switch on which step to run': lambda: lines(r'\b(fault|figure|test|key|section|change): [A-Z]\w+[,)]'),
}

if __name__ == '__main__':
    for point, places in POINTS.items():
        if len(sys.argv) == 1 or point.startswith(sys.argv[1]):
            found = places()
            print(f'{len(found):4} {point}')
            if len(sys.argv) > 1:
                print('\n'.join('     ' + p for p in found))
