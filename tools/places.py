#!/usr/bin/env python3
"""Lists the places in crates/*/src that docs/DESIGN-PASS.md counts, a heading for each of its points. Run at the top of the repository."""
import glob, re, sys
from collections import defaultdict

FILES = sorted(glob.glob('crates/*/src/**/*.rt', recursive=True))

def lines():
    for name in FILES:
        for number, line in enumerate(open(name, encoding='utf-8'), 1):
            if not line.lstrip().startswith('//'):
                yield name, number, line.rstrip('\n')

def functions():
    """Name, line, parameters and the text after them of each function."""
    for name in FILES:
        text = open(name, encoding='utf-8').read()
        for m in re.finditer(r'^( *)(?:pub(?:\(crate\))? )?fn (\w+)(?:<[^>]*>)?\(', text, re.M):
            depth, at = 1, m.end()
            while depth:
                depth += {'(': 1, ')': -1}.get(text[at], 0)
                at += 1
            end = text.find('\n' + m.group(1) + '}', at)
            yield name, text.count('\n', 0, m.start()) + 1, m.group(2), text[m.end():at - 1], text[at:end]

def matching(pattern):
    return [f'{n}:{k}: {s.strip()}' for n, k, s in lines() if re.search(pattern, s)]

def shapes():
    """Enums with one variant that holds a value and others that hold none, or two that each hold one: Option and Result by another name."""
    for name in FILES:
        text = open(name, encoding='utf-8').read()
        for m in re.finditer(r'^(?:pub(?:\(crate\))? )?enum (\w+) \{\n(.*?)^\}', text, re.M | re.S):
            body = re.sub(r'//.*', '', m.group(2))
            variants = re.findall(r'^    (\w+)', body, re.M)
            bare = [v for v in variants if re.search(r'^    ' + v + r',', body, re.M)]
            if len(variants) - len(bare) == 1 and len(variants) > 1 or \
                    any(v in ('Refused', 'Failed', 'OutOfRange', 'Nothing', 'Empty', 'InputRefused') for v in variants) and len(variants) <= 5:
                yield f'{name}: enum {m.group(1)} {{ {", ".join(variants)} }}'

def normal(body):
    """A body with its own names and numbers blanked, but for what it calls."""
    body = re.sub(r'//.*', '', body[body.index('{', body.rfind('ensures')) if 'ensures' in body else 0:])
    body = re.sub(r'b?"(?:[^"\\]|\\.)*"', 'S', body)
    body = re.sub(r'\b\d\w*\b', 'N', body)
    body = re.sub(r'\b[A-Z][A-Z_0-9]+\b', 'N', body)
    body = re.sub(r'\b[A-Za-z_]\w*(::\w+)*', 'x', body)
    return re.sub(r'\s+', ' ', body)

def twins():
    groups = defaultdict(list)
    for name, number, f, _, body in functions():
        key = normal(body[body.find('\n{'):] if '\n{' in body else body)
        if len(key) > 60:
            groups[key].append(f'{name}:{number}: {f}')
    return [', '.join(g) for g in groups.values() if len(g) > 1]

def clauses():
    seen = defaultdict(set)
    for name, number, f, _, body in functions():
        for c in re.findall(r'requires(?: \w+)? \{ (.*?) \}\n', body):
            for part in re.split(r' × ', c):
                seen[re.sub(r'^\(|\)$', '', part.strip())].add(f'{name.split("/")[1]}::{f}')
    return [f'{c}: {", ".join(sorted(fs))}' for c, fs in sorted(seen.items()) if len(fs) >= 3]

def together():
    seen = defaultdict(set)
    for name, number, f, params, _ in functions():
        types = [re.sub(r"^(mut )?\w+: ", '', p.strip()) for p in params.split(',') if ':' in p]
        names = [p.strip() for p in params.split(',') if ':' in p]
        for i in range(len(names)):
            for j in range(i + 1, len(names)):
                for k in range(j + 1, len(names)):
                    seen[(name.split('/')[1], names[i], names[j], names[k])].add(f)
    return [f'{c}: {a}, {b}, {d}: {len(fs)} functions' for (c, a, b, d), fs in sorted(seen.items()) if len(fs) >= 3]

POINTS = [
    ('1, enums of the shape of Option or Result', lambda: list(shapes())),
    ('1, numbers for kinds and refusals', lambda: matching(r'\b(number|role|form|mask|refusal)\w*: u8|(Refus\w*)\(u8\)|: isize|-> isize')),
    ('2, functions with one body but for names, texts and numbers', twins),
    ('3, loops that count by hand', lambda: matching(r'\b(while|loop)\b')),
    ('4, comparisons of fields one by one', lambda: matching(r'\w\.(\w+) == \w+\.(\1\b)|\w\.p\d == ')),
    ('4, widening casts and numbers put together by hand', lambda: matching(r' as (u16|u32|usize|isize)\b|256 \*|/ 256|% 256')),
    ('4, tests of a value against one number after another', lambda: matching(r'\((\w+(?:\.\w+)?) == \w+\) \| \(\1 == ')),
    ('5, facts that three functions or more require', clauses),
    ('5, three parameters that three functions or more take', together),
    ('6, arrays in structs', lambda: matching(r'^    (pub(\(crate\))? )?\w+: \[\w+; \w+\],')),
    ('7, tables of functions and switches on a step', lambda: matching(r': fn\(|\bdyn\b|step: u8|=> \w+\(rt')),
]

if __name__ == '__main__':
    for title, found in POINTS:
        places = found()
        print(f'{title}: {len(places)}')
        if '--count' not in sys.argv:
            for place in places:
                print('   ', place)
