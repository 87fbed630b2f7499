#!/usr/bin/env python3
"""Every must-fail edit must be refused because a fact no longer holds.

    tests/edits.py LOG      judges what `rt ci` or `rt must-fail` printed, which the file LOG has ('-': standard input)
    tests/edits.py --self   shows that each poor edit below is caught

An edit is a wrong program, a wrong definition or a wrong promise in a contract: pairs of a text and what to put in its place. rt tries each edit
by itself and prints a line for it, which has the first thing that the prover says against it, and where. That must be said against the very
function whose text is replaced; or, where the text is a constant's or a definition's, against whatever cites it; or, where a promise is added to a
contract, against that promise. Where an edit replaces several, one of them is enough; so such an edit counts for no call.

A refusal shows nothing where only the shape of the code changed, so that the proof file no longer fits. Two things are looked at: the
replacement of code, which a contract is not, keeps its shape, token by token, but for operands, literals and operators of one kind; and what the
prover says is about a fact and not about names, fields or missing parts of a proof. Goals are named after the code: where a name changes with the
text, the edit has pairs for the proof file as well, so that its answers are held against the wrong code.

Every public call that docs/ARCHITECTURE.md lists has an edit, every exported function too, and a crate has two edits or more for each of its
public calls.
"""
import glob
import os
import re
import sys

TOP = os.path.dirname(os.path.dirname(os.path.abspath(__file__)))

# what the prover says where a proof file no longer fits the code, or a name is unknown
SHAPE = re.compile(r'has no `|not in scope|has no field|no such|takes \d+ argument|is not a record|unexpected|cannot appear|wrong number'
                   r'|was not admitted')
# a proof file that follows the names of goals, which are made of the code
FOLLOWS = re.compile(r'^proofs/.+/(Answers|Invariants)\.antt$')
# what rt says of an edit, and where the prover says the first thing against it
LINE = re.compile(r'^rt: must-fail (\w+)/(\S+)\.edit: (.*)$')
REFUSED = 'refused, as it must be'
PLACE = re.compile(r'^(?:note: )?(?:\./)?(\S+?):(\d+):\d+: (.*)$')
FUNCTION = re.compile(r'^(    )?(?:pub(?:\(\w+\))? )?(?:const )?(?:extern "C" )?fn (\w+)')
IMPL = re.compile(r'^impl(?:<.*?>)? (?:.* for )?(\w+)')

KEYWORDS = {'if', 'else', 'let', 'mut', 'return', 'while', 'loop', 'match', 'as', 'pub', 'const', 'fn'}
KINDS = {op: kind for kind, ops in {'comparison': '== != < <= > >=', 'arithmetic': '+ - * / % << >> & | ^', 'logic': '&& ||'}.items()
         for op in ops.split()}
TOKEN = re.compile(r'''b?"[^"]*"|0x[0-9a-fA-F_]+|\d[\d_]*|[A-Za-z_]\w*(?:(?:\.|::)(?!len\(\))\w+)*(?:\.len\(\))?|==|!=|<=|>=|<<|>>|&&|\|\||=>|->|\.\.|\S''')


class Pair:
    """A text of a file that an edit replaces, and what by."""

    def __init__(self, file, old, new):
        self.file, self.old, self.new = file, old, new


def parsed(text):
    """The pairs of an edit file, but for those by which a proof file follows the others."""
    file, old, pairs = '', '', []
    for line in text.splitlines():
        word, _, rest = line.partition(' ')
        if word == 'file:':
            file = rest
        elif word == 'old:':
            old = rest
        elif word == 'new:':
            pairs.append(Pair(file, old, rest))
    return [it for it in pairs if not FOLLOWS.match(it.file)]


def shape(code):
    """The tokens of code, with what may change of an operand or an operator taken out."""
    if re.search(r'[A-Z]\w* \{', code):  # `S { a, b: 0 }` is `S { a: a, b: 0 }`
        code = re.sub(r'([{,]\s*)([a-z_]\w*)(?=\s*[,}])', r'\1\2: \2', code)
    tokens = TOKEN.findall(code)
    out = []
    for token, behind in zip(tokens, tokens[1:] + ['']):
        name = token.split('.')[-1].split('::')[-1]
        if token in KEYWORDS or behind == ':' and re.match(r'[a-z_]', token):
            out.append(token)  # a keyword, or a field's name
        elif re.match(r'[A-Za-z_]', token) and behind == '(':
            out.append('variant' if name[0].isupper() else token)
        elif re.match(r'b?"|\w', token):
            out.append('operand')
        else:
            out.append(KINDS.get(token, token))
    return out


def functions(source):
    """The functions of a file as rt fmt lays it out: each one's name, its first line, which an attribute may be, its last, and the line where its
    body begins."""
    found, of, first, lines = [], '', None, source.splitlines()
    for at, line in enumerate(lines, 1):
        if line and not line.startswith((' ', '}', '#')):
            of = IMPL.match(line)[1] + '::' if IMPL.match(line) else ''
        head = FUNCTION.match(line)
        if head:
            indent = head[1] or ''
            last = next((n for n, it in enumerate(lines[at - 1:], at) if it == indent + '}'), at)
            body = next((n for n, it in enumerate(lines[at - 1:last], at) if it.endswith('{') and (it == indent + '{' or n == at)), last)
            found.append((of + head[2], first or at, last, body))
        first = (first or at) if line.lstrip().startswith('#[') else None
    return found


def function_at(source, line):
    """The function that a line stands in, None where it is in none, and whether it stands in the contract."""
    return next(((name, line < body) for name, first, last, body in functions(source) if first <= line <= last), (None, False))


def place_of(pair, sources):
    """The function that a pair changes, None where it changes a constant or a definition; and whether it changes code, which has a shape to keep."""
    if not pair.file.startswith('src/'):
        return None, False
    source = sources(pair.file)
    line = next((n for n, line in enumerate(source.splitlines(), 1) if pair.old in line), 0)
    name, in_contract = function_at(source, line)
    return name, not in_contract


def changed(pairs, sources):
    """The functions that an edit changes; nothing where it changes a constant or a definition too, so that any function may be refused."""
    names = [place_of(pair, sources)[0] for pair in pairs]
    return set() if None in names else set(names)


def promised(pair):
    """The clauses that a pair adds to one that stands, by their names."""
    named = re.match(r'ensures \w+ ', pair.new)
    kept = pair.old.startswith('ensures {') and named and named[0] + pair.old[len('ensures '):]
    return re.findall(r'\bensures (\w+) \{', pair.new[len(kept):]) if kept and pair.new.startswith(kept) else []


def refused(said, sources):
    """What the prover speaks against first, a function or else a file, and what it says."""
    place = PLACE.match((said or '')[len(REFUSED):].lstrip(': '))
    if not place:
        return None, ''
    path, line, text = place.groups()
    parts = path.split('/')
    if parts[0] == 'proofs' and len(parts) > 2:
        return '::'.join(it for it in parts[1:-1] if not it.startswith('+')), text
    return parts[0] == 'src' and function_at(sources(path), int(line))[0] or path, text


def against_line(said, pairs, sources):
    """What is poor about a refusal."""
    if said is None:
        return 'it was not tried'
    if not said.startswith(REFUSED):
        return said[:160]
    if said.startswith(REFUSED + ' (only '):
        return 'it is refused, but ' + said[len(REFUSED) + 2:160]
    at, text = refused(said, sources)
    if not at:
        return 'no fact is named: ' + said[:160]
    if SHAPE.search(text):
        return 'it is refused for its shape: ' + text[:160]
    names = changed(pairs, sources)
    if names and at not in names:
        return f'{at} is refused, and not {" or ".join(sorted(names))}'
    added = [name for it in pairs for name in promised(it)]
    if len(names) == 1 and added and not any(f'clause-{name}`' in text for name in added):
        return f'the promise {" or ".join(added)} is not what is refused: {text[:160]}'
    return None


def complaints(pairs, sources, said):
    """Why an edit shows nothing: empty where it is good. sources gives a file of the crate by its path."""
    if not pairs:
        return ['it replaces nothing']
    found = [f'the shape of the code changes: {it.old!r} to {it.new!r}' for it in pairs
             if place_of(it, sources)[1] and shape(it.old) != shape(it.new)]
    return [why for why in found + [against_line(said, pairs, sources)] if why]


def public_calls(page):
    """By crate, the calls of the table behind `## Public calls`: constants, which no function is, are left out."""
    table = page.partition('## Public calls')[2].partition('\n## ')[0]
    rows = re.findall(r'^\| (\w+) \| (.*) \|$', table, re.M)
    return {crate: [call for call in re.findall(r'`([\w:]+)`', calls) if not call.split('::')[-1].isupper()]
            for crate, calls in rows if crate not in ('crate', 'pierloft')}


def unheld(edits):
    """What no edit is for. edits: by crate, the function that each edit is for."""
    calls = public_calls(text_of(os.path.join(TOP, 'docs/ARCHITECTURE.md')))
    if not calls:
        yield 'docs/ARCHITECTURE.md: no table of public calls was found'
    calls['pierloft'] = re.findall(r'^pub extern "C" fn (\w+)', text_of(os.path.join(TOP, 'crates/pierloft/src/lib.rt')), re.M)
    for crate, names in calls.items():
        here = [name for name in edits.get(crate, []) if name is not None]
        told = {name.split('::')[-1] for name in here}
        for name in names:
            if name.split('::')[-1] not in told:
                yield f'{crate}: no edit is for {name}'
        if crate != 'pierloft' and len(here) < 2 * len(names):
            yield f'{crate}: {len(here)} edits for {len(names)} public calls'


def text_of(path):
    try:
        with sys.stdin if path == '-' else open(path, encoding='utf-8') as f:
            return f.read()
    except OSError:
        return ''


def is_for(pairs, sources, said):
    """The function that an edit is for: the one that it changes, or the one that is refused where it changes a constant. None for an edit of
    several places at once, which shows something of one of them alone."""
    places = {place_of(pair, sources)[0] or (pair.file, pair.old) for pair in pairs}
    if len(places) != 1:
        return None
    place = places.pop()
    if isinstance(place, str):
        return place
    return refused(said, sources)[0] if place[0].startswith('src/') else ''


def judge(log):
    said = {(it[1], it[2]): it[3] for it in map(LINE.match, text_of(log).splitlines()) if it}
    seen = poor = 0
    edits = {}
    for path in sorted(glob.glob(os.path.join(TOP, 'crates/*/must-fail/*.edit'))):
        crate, label = path.split(os.sep)[-3], os.path.basename(path)[:-len('.edit')]
        pairs, line = parsed(text_of(path)), said.get((crate, label))

        def sources(file, crate=crate):
            return text_of(os.path.join(TOP, 'crates', crate, file))

        edits.setdefault(crate, []).append(is_for(pairs, sources, line))
        seen += 1
        for why in complaints(pairs, sources, line):
            poor += 1
            print(f'{crate}/{label}: {why}')
    lacking = list(unheld(edits))
    print('\n'.join(lacking + [f'{seen} edits, {poor} complaints']))
    return 1 if poor or lacking or not seen else 0


SOURCE = '''const LIMIT: u64 = 9;

impl Reader {
    pub fn new(n: usize) -> Reader
        ensures { result ≡ made n }
    {
        Reader { at: n, ended: a < b }
    }
}

#[unsafe(no_mangle)]
pub fn f(sum: u64, checksum: u64) -> bool
    ensures { result ≡ true }
{
    if ended {
        g(Dialect::shipped(), sum == checksum, a < b)
    }
}
'''


def self_test():
    """Poor edits, each with what rt says of it or could say: every one must be caught. And a good one must not be."""
    fact = REFUSED + ': ./proofs/f/Answers.antt:8:13: error: `returns`: `omega`: the goal does not follow from what it read.'
    note = REFUSED + ': note: src/lib.rt:{}:1: it is not proved that what the function ensures holds when it returns (`returns`)'
    last, first = ', a < b', ', ended: a < b'
    several = [Pair('src/lib.rt', ', ended: a < b', ', ended: a <= b'), Pair('src/lib.rt', ', a < b', ', a <= b')]
    cases = [
        ('a further test', 'sum == checksum', 'sum == checksum || 13 < body', fact, True),
        ('a test turned', 'if ended {', 'if !ended {', fact, True),
        ('another callee', 'Dialect::shipped()', 'Dialect::test()', fact, True),
        ('a field that is not there', last, ', a <= b', fact.replace('`omega`: the goal', 'record `c` has no field `h`'), True),
        ('a part that the proof lacks', last, ', a <= b', fact.replace('`omega`: the goal', "module `goal` has no `returns` that can be named"), True),
        ('a proof file that names what is gone', last, ', a <= b', REFUSED + ' (only because a proof file names what the edit took away): ..', True),
        ('a limit of the prover', last, ', a <= b', REFUSED + ' (only by a limit of the prover, which gave no verdict): ..', True),
        ('another function is refused', last, ', a <= b', fact.replace('/f/', '/h/'), True),
        ('another function is refused, in the source', last, ', a <= b', note.format(6), True),
        ('refused for what it calls', last, ', a <= b', fact.replace('`omega`', '`g` was not admitted (..), so this cannot be checked'), True),
        ('no fact', last, ', a <= b', REFUSED, True),
        ('not refused', last, ', a <= b', 'NOT REFUSED: the crate is still proved with this edit', True),
        ('a bad edit', last, ', a <= b', "BAD EDIT: an 'old:' text is in src/lib.rt 0 times, and not once", True),
        ('not tried', last, ', a <= b', None, True),
        ('a fact', last, ', a <= b', fact, False),
        ('a fact that no proof file answers', last, ', a <= b', note.format(11), False),
        ('a fact in a method', first, ', ended: a <= b', note.format(5), False),
        ('a fact in the proof of a method', first, ', ended: a <= b', fact.replace('/f/', '/Reader/new/'), False),
        ('a contract', 'result ≡ true', 'true', fact, False),
        ('a constant', 'u64 = 9', 'u64 = 8', fact.replace('/f/', '/h/'), False),
    ]
    clause, more = 'ensures { result ≡ true }', 'ensures all { result ≡ true } ensures more { result ≡ false }'
    cases += [('a promise, and another clause is refused', clause, more, note.format(11).replace('returns`', 'returns-clause-all`'), True),
              ('a promise', clause, more, note.format(11).replace('returns`', 'returns-in_err-clause-more`'), False)]
    cases = [(name, [Pair('src/lib.rt', old, new)], said, caught) for name, old, new, said, caught in cases]
    follows = 'file: proofs/f/Answers.antt\nold: returns-then-a\nnew: returns-then-b\n'
    follower = 'file: src/lib.rt\nold: , a < b\nnew: , a <= b\n' + follows
    cases += [('a proof file that follows alone', parsed(follows), fact, True),
              ('a proof file that follows, and another function is refused', parsed(follower), fact.replace('/f/', '/h/'), True),
              ('a proof file that follows', parsed(follower), fact, False)]
    cases += [('nothing', [], fact, True), ('two functions, and a third is refused', several, fact.replace('/f/', '/h/'), True),
              ('two functions, and one is refused', several, fact, False)]
    wrong = [name for name, pairs, said, caught in cases if bool(complaints(pairs, lambda file: SOURCE, said)) != caught]
    print(f'edits --self: {len(cases)} edits, ' + (f'judged wrongly: {wrong}' if wrong else 'each judged as it should be'))
    return 1 if wrong else 0


if __name__ == '__main__':
    if len(sys.argv) != 2:
        sys.exit('usage: tests/edits.py LOG | --self')
    sys.exit(self_test() if sys.argv[1] == '--self' else judge(sys.argv[1]))
