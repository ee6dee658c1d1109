#!/usr/bin/env python3
"""Lists places in crates/*/src that could take a plainer form of the language, one line each: point, file:line, what.

    python3 tools/places.py [POINT ..]      the points are those of docs/DESIGN-PASS.md, 1 to 8; all without one

It goes by text: what it lists is read by a person, who says which of it is a place."""
import difflib
import glob
import itertools
import os
import re
import sys


def files():
    return sorted(glob.glob('crates/*/src/**/*.rt', recursive=True))


def lines_of(path):
    with open(path, encoding='utf-8') as source:
        return [re.sub(r'//.*', '', line.rstrip('\n')) for line in source]


def functions(path):
    """Name, line, header with clauses, and body of each function of a file, as `rt fmt` lays it out."""
    lines = lines_of(path)
    for start, line in enumerate(lines):
        found = re.match(r'( *).*\bfn (\w+)', line)
        if not found:
            continue
        opens = next((i for i in range(start, len(lines)) if lines[i] == found[1] + '{' or re.search(r'[^{]\{$', lines[i])), None)
        if opens is None or any(lines[i].endswith((';', '{}')) for i in range(start, opens)):
            continue
        closes = next(i for i in range(opens, len(lines)) if lines[i] == found[1] + '}')
        yield found[2], start + 1, '\n'.join(lines[start:opens + 1]), '\n'.join(lines[opens + 1:closes])


def grep(pattern, only=''):
    for path in files():
        if only and not re.search(only, path):
            continue
        for number, line in enumerate(lines_of(path), 1):
            if re.search(pattern, line):
                yield f'{path}:{number}', line.strip()


def shape(code):
    words = re.findall(r'b?"(?:\\.|[^"])*"|b?\'(?:\\.|[^\'])*\'|\w+|[^\w\s]', code)
    keep = {'if', 'else', 'match', 'for', 'in', 'while', 'return', 'let', 'mut', 'self', 'None', 'Some', 'Ok', 'Err'}
    return [w if w in keep or not re.match(r'\w|b?["\']', w) else 'x' for w in words]


def alike(clause):
    """An `ensures` with the names of its values taken out, so that the same fact reads the same."""
    fact = re.sub(r'\b[a-z](\.[01])?\.(?=[a-z])', 'x.', re.sub(r'λ \w\.', 'λ x.', clause.strip()))
    fact = re.sub(r'\b(self\.entry|self\.old|self\.now|behind\.entry)\b', 'self', fact)
    for wrapped in (r'If\w+ x \(λ x\. (.*)\)', r'^If\w+ result \(λ x\. (.*)\)$'):
        fact = re.sub(wrapped, r'\1', fact)
    return fact.replace('result.', 'x.').replace('self.new.place.', 'x.').replace('.place', '')


def point_1():
    for path in files():
        text = '\n'.join(lines_of(path))
        for found in re.finditer(r'enum (\w+)[^{]*\{(.*?)\n\}', text, re.S):
            cases = re.findall(r'^    (\w+)(\s*[({])?', found[2], re.M)
            if len(cases) == 2:
                yield f'{path}:{text.count(chr(10), 0, found.start()) + 1}', f'enum of two cases: {found[1]} {[c[0] for c in cases]}'
    for place in itertools.chain(grep(r'fn (number|cause|place|code|kind)\w*\(.*-> (u8|usize)'), grep(r'\b(number|cause|code|kind): (u8|usize)'),
                                 grep(r'\(u8, u8, usize\)'), grep(r'-> (io::Result<)?\(?bool|^\) -> io::Result<bool>'),
                                 grep(r'const \w+: usize = \d;'), grep(r'\bNone =>|\bErr\(_\) =>|\blet (Some|Ok)\('),
                                 grep(r'\bmark: u8|\[\[u8; 16\]; 16\]')):
        yield place


def point_2():
    all_of = [(path, *f) for path in files() for f in functions(path) if len(shape(f[3])) > 18]
    for a, b in itertools.combinations(all_of, 2):
        sa, sb = shape(a[4]), shape(b[4])
        if min(len(sa), len(sb)) / max(len(sa), len(sb)) < 0.75:
            continue
        alike = difflib.SequenceMatcher(None, sa, sb, autojunk=False)
        if alike.quick_ratio() > 0.85 and alike.ratio() > 0.85:
            yield f'{a[0]}:{a[2]}', f'{a[1]} is like {b[1]} in {b[0]}:{b[2]} ({alike.ratio():.2f})'
    for path in files():
        text = '\n'.join(lines_of(path))
        for found in re.finditer(r'struct (\w+)[^{;]*(\(.*?\);|\{.*?\n\})', text, re.S):
            yield f'{path}:{text.count(chr(10), 0, found.start()) + 1}', f'struct {found[1]}: {" ".join(found[2].split())[:90]}'


def point_3():
    yield from grep(r'\bwhile (?!let)|\bwhile let|\bloop \{|\bfor \w+ in [^{]*\.\.|\+= [12];|\.len\(\) - 1|\bfor \w+ in ')


def point_4():
    yield from grep(r'^impl.* (PartialEq|Eq|PartialOrd|Ord|Clone|Copy|Default|Hash|Debug|fmt::Display|From<|TryFrom<|Iterator)\b.* for |^impl.*From<')
    yield from grep(r'fn (read|text|number|next|hex_\w+|\w+_line|low_byte|digit|two_at|three_at|day_at_start)\b')


def point_5():
    clauses, pairs = {}, {}
    for path in files():
        for name, line, head, _ in functions(path):
            for clause in re.findall(r'requires(?: \w+)? \{(.*)\}', head):
                for fact in re.split(r' × ', clause):
                    fact = re.sub(r'self\.(now|old)\.', '', fact.strip().strip('()'))
                    clauses.setdefault(re.sub(r'\b(from|at|i)\b', 'i', fact), []).append(f'{path}:{line} {name}')
            for clause in re.findall(r'ensures(?: \w+)? \{(.*)\}', head):
                fact = alike(clause)
                if '≡' in fact and not fact.startswith('result'):
                    clauses.setdefault('ensure in ' + path.split('/')[1] + ': ' + fact, []).append(f'{path}:{line} {name}')
            signature = head.split('\n    requires')[0].split('\n    ensures')[0]
            parameters = re.findall(r'(\w+): (&?[^,()]+)', signature[signature.find('(') + 1:])
            for pair in itertools.combinations(sorted({(n, re.sub(r"'a ", '', t).strip()) for n, t in parameters}), 2):
                pairs.setdefault(pair, []).append(f'{path}:{line} {name}')
    for fact, places in clauses.items():
        if len(places) > 2:
            yield f'{len(places)} functions', f'{"" if fact.startswith("ensure in ") else "require "}{fact}: ' + ', '.join(p.split()[1] for p in places)
    for pair, places in pairs.items():
        if len(places) > 2:
            yield f'{len(places)} functions', f'take {pair[0][0]}: {pair[0][1]} and {pair[1][0]}: {pair[1][1]}: ' + ', '.join(p.split()[1] for p in places)


def point_6():
    yield from grep(r'\blen(gth)?: usize|\.zip\(|\[usize; \d+\], \[|\w\[[^\];]*(\b(i|at|from|place|n|byte|second)\b|\.\.|^\d+$)[^\];]*\]|\.binary_search|\[u8; \d+\]')


def point_7():
    yield from grep(r'\bfn\(|dyn |: fn|if (number|mode|kind|mark|step) ==|match \(?(self\.)?(number|mode|kind|mark|step)\b')


def point_8():
    for folder in sorted(glob.glob('crates/*/proofs')):
        counts = {'Answers': [0, 0], 'Invariants': [0, 0], 'lemmas': [0, 0]}
        for path in glob.glob(folder + '/**/*.antt', recursive=True):
            kind = os.path.basename(path)[:-5]
            kind = kind if kind in counts else 'lemmas'
            with open(path, encoding='utf-8') as source:
                counts[kind][0] += 1
                counts[kind][1] += sum(1 for _ in source)
        yield folder, ', '.join(f'{k} {n} files {l} lines' for k, (n, l) in counts.items())


if __name__ == '__main__':
    for point in sys.argv[1:] or '12345678':
        found = sorted(set(globals()['point_' + point]()), key=str)
        for place, what in found:
            print(f'{point}  {place}  {what}')
        print(f'{point}  lines: {len(found)}')
