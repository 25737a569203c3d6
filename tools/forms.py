#!/usr/bin/env python3
"""Places of crates/*/src that an older Rattle's forms stand in, point by point (docs/DESIGN-PASS.md).

    python3 tools/forms.py [POINT] [--list]

Run at the top of the repository. Without POINT it prints a line for each point and kind of place; --list prints each place.
It goes by text: what it finds is read by a person, who says which of it is a place.
"""
import glob
import re
import sys
from collections import defaultdict

FUNCTION = re.compile(r'^(?P<indent>\s*)(?:pub )?(?:unsafe )?(?:extern "C" )?fn (?P<name>\w+)', re.M)


class Function:
    def __init__(self, file, line, name, above, head, body):
        self.file, self.line, self.name, self.above, self.head, self.body = file, line, name, above, head, body
        self.where = f'{file}:{line} {name}'


def closing(text, at):
    """Where the brace that opens at `at` closes."""
    depth = 0
    for i in range(at, len(text)):
        if text[i] == '{':
            depth += 1
        elif text[i] == '}':
            depth -= 1
            if depth == 0:
                return i
    return len(text)


def functions():
    for file in sorted(glob.glob('crates/*/src/**/*.rt', recursive=True)):
        text = open(file).read()
        for m in FUNCTION.finditer(text):
            indent = m['indent'].lstrip('\n')
            end = re.compile(r'^' + indent + r'(\{)|^.*[^\s](\s\{)$', re.M)
            opened = None
            at = m.end()
            while opened is None and at < len(text):
                stop = text.find('\n', at)
                stop = len(text) if stop < 0 else stop
                line = text[at:stop]
                if line == indent + '{' or (line.rstrip().endswith('{') and not re.match(r'\s*(requires|ensures)', line)):
                    opened = stop - 1
                elif line.rstrip().endswith(';') and 'ensures' not in line:
                    break
                at = stop + 1
            if opened is None:
                continue
            shut = closing(text, opened)
            before = text[:m.start()].rstrip('\n').split('\n')
            above = []
            while before and before[-1].strip().startswith(('//', '#')):
                above.insert(0, before.pop().strip())
            head = text[m.start():opened]
            yield Function(file, text.count('\n', 0, m.start('name')) + 1, m['name'], above, head, text[opened + 1:shut])


def enums():
    for file in sorted(glob.glob('crates/*/src/**/*.rt', recursive=True)):
        text = open(file).read()
        for m in re.finditer(r'^\s*(?:pub )?enum (\w+)[^{]*\{', text, re.M):
            body = text[m.end():closing(text, m.end() - 1)]
            body = re.sub(r'//.*', '', body)
            cases = re.findall(r'(\w+)(\([^)]*\))?,', re.sub(r'\(([^)]*)\)', lambda k: '(' + k[1].replace(',', ';') + ')', body))
            yield f'{file}:{text.count(chr(10), 0, m.start()) + 2} {m[1]}', m[1], cases


def normal(text):
    """A text with what twins differ in taken out: names, numbers, types."""
    text = re.sub(r'//.*', '', text)
    seen = {}
    keep = {'let', 'mut', 'if', 'else', 'return', 'match', 'for', 'in', 'while', 'fn', 'pub', 'true', 'false', 'as', 'self', 'Self'}

    def one(m):
        word = m[0]
        if word in keep:
            return word
        return seen.setdefault(word, f'n{len(seen)}')
    return re.sub(r'\s+', ' ', re.sub(r'[A-Za-z_]\w*|\d\w*', one, text)).strip()


def point_1(out, every):
    for where, _, cases in enums():
        bare = [c for c, of in cases if not of]
        if len(cases) == 2 and len(bare) == 1:
            out['1 enum of a bare case and one that bears a value'].append(where)
        if len(cases) > 2 and any(c in ('No', 'Bad', 'Over', 'Cut') for c, _ in cases):
            out['1 enum with a case for a refusal'].append(where)
    for f in every:
        result = re.search(r'->\s*([^\n{]+)', f.head)
        result = result[1].strip() if result else ''
        if result in ('u8', 'u32', 'usize') and re.search(r'(0|\d|\w+) (for none|where (there is|none|it passes|there are) ?(none|is)?)|where none is|past the last', ' '.join(f.above)):
            out['1 number that says none'].append(f.where)
    for file in sorted(glob.glob('crates/*/src/**/*.rt', recursive=True)):
        for i, line in enumerate(open(file), 1):
            if re.match(r'pub const [A-Z_]+: u8 = \d+;', line) and file.endswith('/no.rt'):
                out['1 number for a refusal'].append(f'{file}:{i} {line.strip()}')


def point_2(out, every):
    groups = defaultdict(list)
    for f in every:
        body = f.body.strip()
        if len(body.split('\n')) >= 2 and not re.search(r'/disturbed|/cases/', f.file):
            groups[normal(body)].append(f)
    for group in groups.values():
        if len(group) > 1:
            out['2 bodies that are one but for names'] += [f'{f.where}  (of {len(group)}, as {group[0].name})' for f in group]


def point_3(out, every):
    for f in every:
        for m in re.finditer(r'while (\w+)[^{]*\{', f.body):
            block = f.body[m.end():closing(f.body, m.end() - 1)]
            if re.search(r'\b' + m[1] + r' (\+=|-=) 1|\b' + m[1] + r' = ' + m[1] + r' [+-] 1', block):
                out['3 while that counts an index'].append(f.where)
        for m in re.finditer(r'for (\w+) in [^{]*\{', f.body):
            block = f.body[m.end():closing(f.body, m.end() - 1)]
            if re.search(r'\[' + m[1] + r'\]', block):
                out['3 for that indexes by its count'].append(f.where)
            elif re.search(r'return ' + m[1] + r'\b|return Some\(' + m[1], block):
                out['3 for that looks for a place'].append(f.where)


def point_4(out, every):
    for f in every:
        arms = re.findall(r'=> ([^{},]+|\{[^}]*\}),?\n', f.body)
        whole = f.body.strip().startswith('match') and closing(f.body, f.body.find('{')) >= len(f.body.rstrip()) - 1
        if whole and arms and all(a.strip() in ('true', 'false') for a in arms):
            out['4 match that only tests a case'].append(f.where)
        elif whole and arms and all(re.fullmatch(r'-?\d\w*|[A-Z_]+', a.strip()) for a in arms) and '-> u' in f.head:
            out['4 match from cases to numbers'].append(f.where)
        if re.search(r'\bnumber\(\w+\) == number\(', f.body):
            out['4 equality by hand'].append(f.where)
        if re.fullmatch(r'(is_same|same_\w+)', f.name):
            out['4 equality by hand'].append(f.where)
        if re.fullmatch(r'(of|from|to)_\w+|\w+_of', f.name) and whole:
            out['4 conversion by hand'].append(f.where)
        if re.search(r'\b(\w+)\.0 == (\w+)\.0', f.body):
            out['4 equality by hand'].append(f.where)


def parameters(head):
    inside = head[head.find('(') + 1:]
    depth, i = 1, 0
    for i, c in enumerate(inside):
        depth += (c == '(') - (c == ')')
        if depth == 0:
            break
    return [p.strip() for p in re.sub(r'\s+', ' ', inside[:i]).split(', ') if p.strip()]


def point_5(out, every):
    facts, together = defaultdict(list), defaultdict(list)
    for f in every:
        text = re.search(r'requires \{(.*?)\}\s*ensures', f.head, re.S) or re.search(r'requires \{(.*?)\}\s*$', f.head, re.S)
        if text:
            for fact in re.split(r' × ', re.sub(r'\s+', ' ', text[1])):
                facts[fact.strip(' ()')].append(f.where)
        names = [re.sub(r'&mut |&', '&', p) for p in parameters(f.head)]
        for pair in zip(names, names[1:]):
            together[pair].append(f.where)
    for fact, where in sorted(facts.items(), key=lambda x: -len(x[1])):
        if len(where) >= 3:
            out['5 fact in the contracts of three or more functions'].append(f'{len(where)} x  {fact}')
    for pair, where in sorted(together.items(), key=lambda x: -len(x[1])):
        if len(where) >= 10:
            out['5 parameters that stand together in ten or more functions'].append(f'{len(where)} x  {", ".join(pair)}')


def point_6(out, every):
    for file in sorted(glob.glob('crates/*/src/**/*.rt', recursive=True)):
        text = open(file).read()
        for m in re.finditer(r'struct (\w+)[^{;]*\{([^}]*)\}', text):
            if re.search(r': \[\w+; ', m[2]) and re.search(r'\b(len|held|heard|count)\b:', m[2]):
                out['6 buffer with a length beside it'].append(f'{file} {m[1]}')
    for f in every:
        p = parameters(f.head)
        if sum('&mut [' in x or '&[' in x for x in p) >= 2 and re.search(r'\w+\[(i|at)\].*\w+\[(i|at)\]', f.body):
            out['6 parallel arrays'].append(f.where)


def point_7(out, every):
    for f in every:
        arms = re.findall(r'(\w+)::(\w+)(?:\([^)]*\))? => (\w+(?:::\w+)*)\(([^)]*)\),', f.body)
        by = defaultdict(set)
        for kind, _, step, _ in arms:
            by[kind].add(step)
        for kind, steps in by.items():
            if len(steps) >= 2 and kind in ('Mode', 'Question', 'Test', 'Role', 'Start', 'Plan', 'Setting', 'Register', 'Stage'):
                out['7 match from a case to a step'].append(f'{f.where}  ({kind}, {len(steps)} steps)')


def point_8(out, every):
    for file in sorted(glob.glob('crates/*/proofs/**/Answers.antt', recursive=True)):
        out['8 answer file'].append(file)
    groups = defaultdict(list)
    for file in out['8 answer file']:
        groups[normal('\n'.join(l for l in open(file).read().split('\n') if not l.startswith('use ')))].append(file)
    for group in groups.values():
        if len(group) > 1:
            out['8 answer files that are one but for names'] += group
    names = defaultdict(list)
    for f in every:
        if any('tactic(' in a for a in f.above):
            names[(f.file.split('/')[1], f.name)].append(f.where)
    for file in out['8 answer file']:
        parts = file.split('/')
        if (parts[1], parts[-2]) in names:
            out['8 answer file beside an attribute'].append(file)


def main():
    words = [a for a in sys.argv[1:] if not a.startswith('--')]
    every = list(functions())
    out = defaultdict(list)
    for point in (point_1, point_2, point_3, point_4, point_5, point_6, point_7, point_8):
        if not words or point.__name__.endswith(words[0]):
            point(out, every)
    for kind, places in out.items():
        print(f'{len(places):4}  {kind}')
        if '--list' in sys.argv:
            for place in places:
                print(f'        {place}')
    if not words:
        print(f'{len(every):4}  functions read')


main()
