#!/usr/bin/env python3
"""forms.py [ROOT]: where crates/*/src still has forms of the older language, by the points of docs/DESIGN-PASS.md.

It goes by text: a row is a place to look at. A place that docs/DESIGN-PASS.md keeps is listed like any other."""
import collections
import glob
import itertools
import os
import re
import sys

root = sys.argv[1] if len(sys.argv) > 1 else '.'
sources = {}
for path in sorted(glob.glob(os.path.join(root, 'crates/*/src/*.rt'))):
    with open(path, encoding='utf-8') as file:
        sources[path.split('/crates/')[-1].removeprefix('crates/').split('/')[0]] = file.read()


def lines(pattern):
    for crate, text in sources.items():
        for at, line in enumerate(text.split('\n'), 1):
            if re.search(pattern, line) and not line.lstrip().startswith('//'):
                yield f'{crate}:{at}: {line.strip()}'


def functions():
    """(crate, name, parameters, requires, body) of each function."""
    head = re.compile(r'fn (\w+)(?:<[^(]*>)?\(([^)]*(?:\([^)]*\)[^)]*)*)\)[^{;]*?\n?((?:\s*(?:requires|ensures)[^\n]*\n|\s*×[^\n]*\n)*)\s*\{')
    for crate, text in sources.items():
        for m in head.finditer(text):
            depth, at = 1, m.end()
            while depth:
                depth += {'{': 1, '}': -1}.get(text[at], 0)
                at += 1
            parameters = [re.sub(r'\s+', ' ', p.strip()) for p in m.group(2).split(',') if p.strip()]
            yield crate, m.group(1), parameters, m.group(3), text[m.end():at]


def shape(body):
    tokens = re.findall(r'"[^"]*"|[A-Za-z_]\w*|\d[\w.]*|\S', re.sub(r'//[^\n]*', '', body))
    keep = {'if', 'else', 'match', 'let', 'mut', 'while', 'for', 'in', 'loop', 'return', 'as'}
    return tuple(t if t in keep else '"' if t[0] == '"' else 'N' if t[0].isdigit() else 'I' if t[0].isalpha() or t[0] == '_' else t for t in tokens)


def twins():
    alike = collections.defaultdict(list)
    for crate, name, _, _, body in functions():
        if len(shape(body)) >= 12:
            alike[shape(body)].append(f'{crate}::{name}')
    for names in alike.values():
        if len(names) > 1:
            yield ', '.join(names)


def kin():
    names = collections.defaultdict(list)
    for crate, name, _, _, _ in functions():
        if re.search(r'\d', name):
            names[crate, re.sub(r'\d+', '', name)].append(name)
    for (crate, _), group in names.items():
        if len(group) > 1:
            yield f'{crate}: {", ".join(group)}'


def facts():
    where = collections.defaultdict(list)
    for crate, name, _, clauses, _ in functions():
        for clause in re.findall(r'requires(?: \w+)? \{ (.*) \}', clauses):
            for fact in clause.split(' × '):
                fact = re.sub(r'\b(k|secret)\.now', 'secret.now', fact.strip().strip('()'))
                where[fact].append(f'{crate}::{name}')
    for fact, names in sorted(where.items(), key=lambda w: -len(w[1])):
        if len(names) >= 3:
            yield f'{len(names)} times: {fact}'


def travellers():
    where = collections.defaultdict(set)
    for crate, name, parameters, _, _ in functions():
        if crate not in ('flat', 'pierloft'):
            for group in itertools.combinations(parameters, 3):
                where[group].add(f'{crate}::{name}')
    groups = {}
    for group, names in where.items():
        if len(names) >= 4:
            groups.setdefault(frozenset(names), set()).update(group)
    for names, group in sorted(groups.items(), key=lambda g: -len(g[0])):
        yield f'{len(names)} functions: {", ".join(sorted(group))}'


def count(title, rows):
    rows = list(rows)
    print(f'{title}: {len(rows)}')
    for row in rows:
        print(f'    {row}')


count('1a. variants that hold a number for a refusal, a fault or an outcome', lines(r'^\s*\w+\(u32\),'))
count('1b. fields that are a number or a flag for another', lines(r'^\s*pub (number|outcome|ended|accepted|open): (u32|bool)'))
count('1c. functions that take or answer such a number', (f'{c}::{n}' for c, n, p, _, _ in functions() if any(re.search(r'^(number|outcome|n|a|b): (&mut )?u32|^number: u8', x) for x in p)))
count('1d. functions that answer a number', lines(r'\) -> u32$'))
count('1e. numbers for a kind of value', lines(r'\b(value_type|code|kind): u8'))
count('2a. functions of one shape', twins())
count('2b. functions of one name but for a number in it', kin())
count('3. loops that are no `for`', lines(r'^\s*(while|loop)\b'))
count('4. conversions, comparisons and printing by hand', (f'{c}::{n}' for c, n, _, _, _ in functions() if re.search(r'^(flat_|print_|no_|zeros_|same_)|_of$|^(type_number|is_type|flag|digit|told|codes_apart|item_number)$', n)))
count('5a. facts that three or more functions require', facts())
count('5b. three parameters that four or more functions take', travellers())
count('6. arrays with a place beside them', lines(r'^\s*(pub )?\w+: \[u8; \d+\],|= \[0(u8)?; '))
count('7. function pointers, dyn, boxed closures', lines(r'\bdyn\b|: fn\(|Box<'))
answers = [path for path in glob.glob(os.path.join(root, 'crates/*/proofs/**/Answers.antt'), recursive=True)]
goals = sum(len(re.findall(r'^pub \S+ : goal\.', open(path, encoding='utf-8').read(), re.M)) for path in answers)
written = sum(len(open(path, encoding='utf-8').read().split('\n')) for path in glob.glob(os.path.join(root, 'crates/*/proofs/**/*.antt'), recursive=True))
print(f'8. goals answered: {goals}, in {len(answers)} files; lines under proofs/: {written}')
