#!/usr/bin/env python3
"""Counts the places in crates/*/src that an older Rattle wrote and that today's forms replace.

    python3 tools/places.py [POINT..]      prints each place and, last, the count of each point

Run at the top of a checkout. It goes by text, so it counts some places that are good as they are; docs/DESIGN-PASS.md says of
each what became of it.
"""
import collections, glob, os, re, sys

SOURCES = {f: open(f).read() for f in sorted(glob.glob('crates/*/src/**/*.rt', recursive=True))}
KEYWORDS = set('fn pub let mut if else match for in while return Some None Ok Err impl struct enum const self Self as true false'.split())


def line_of(text, at):
    return text.count('\n', 0, at) + 1


def by_pattern(*patterns):
    for f, text in SOURCES.items():
        for p in patterns:
            for m in re.finditer(p, text, re.M):
                yield f, line_of(text, m.start()), ' '.join(m.group(0).split())


def block(text, at):
    """From the brace at `at` to the one that closes it."""
    depth = 0
    for i in range(at, len(text)):
        depth += {'{': 1, '}': -1}.get(text[i], 0)
        if depth == 0:
            return text[at:i + 1]
    return text[at:]


def functions():
    for f, text in SOURCES.items():
        for m in re.finditer(r'^( *)(pub(?:\([a-z]+\))? )?(?:const )?(?:extern "C" )?fn (\w+)', text, re.M):
            start = re.compile(r'^' + m.group(1) + r'\{$|^(?! *(?:requires|ensures)\b).* \{$', re.M).search(text, text.rfind('\n', 0, m.start()) + 1)
            end = re.compile(r';$', re.M).search(text, m.end())
            if start and (not end or start.start() < end.start()):
                yield f, line_of(text, m.start()), m.group(3), text[m.start():start.end()], block(text, start.end() - 1)


def own_options():
    """1. Enums of two cases of which one carries a value, flags in results, and numbers for kinds."""
    for f, text in SOURCES.items():
        for m in re.finditer(r'^pub enum (\w+)[^{]*\{|^enum (\w+)[^{]*\{', text, re.M):
            body = block(text, m.end() - 1)[1:-1]
            body = re.sub(r'//.*', '', body)
            flat = re.sub(r'\{[^{}]*\}|\([^()]*\)', '(..)', body)
            cases = [c.strip() for c in flat.split(',') if c.strip()]
            if len(cases) == 2 and any('(..)' in c for c in cases):
                yield f, line_of(text, m.start()), 'enum ' + (m.group(1) or m.group(2)) + ': ' + ', '.join(cases)
    yield from by_pattern(r'Result<bool, \w+>', r'^(?:pub )?const [A-Z_]+: u32 = \d+;', r'\bkind: u32\b', r'^ +0 => (?:Some|Ok)\b.*')


def twins():
    """2. Functions of one crate, or of two, that differ in names and numbers alone."""
    groups = collections.defaultdict(list)
    for f, line, name, head, body in functions():
        tokens = re.findall(r"[A-Za-z_]\w*|\d[\w.]*|b?\"[^\"]*\"|b'.'|[^\s\w]", body)
        if len(tokens) < 14:
            continue
        shape = ' '.join(t if t in KEYWORDS or not re.match(r"[\w\"]|b['\"]", t) else 'x' for t in tokens)
        groups[shape].append((f, line, name))
    for members in groups.values():
        if len(members) > 1:
            for f, line, name in members:
                yield f, line, name + ' is like ' + ', '.join(n for g, l, n in members if (g, l) != (f, line))


def index_loops():
    """3. Loops over a range, and loops that move an index."""
    yield from by_pattern(r'for \w+ in [\w().]+\.\..*\{', r'while [^{]*<[^{]*\{')


def by_hand():
    """4. Equality, order, conversion and printing by hand."""
    yield from by_pattern(r'^ +\*?(?:self|a)\b[\w.]* == \*?(?:other|b)\b[\w.]*$', r'\.value\(\) (?:<|<=|>|>=|==) ', r'\w+(?:\(\))? as (?:u8|u16|u32|u64|usize|i32|i64|i128)\b',
                          r'fn (?:of_number|number|words|words_of|kind_name|hash_name|layer_name|kind_named|hash_named)\b[^;{]*$', r'^ +(\w+): \1,$', r'Layer::\w+ => "\w+"')


def travelling():
    """5. Facts that stand in the contracts of three functions or more, and pairs of parameters that three functions or more take."""
    facts, pairs = collections.defaultdict(list), collections.defaultdict(list)
    for f, line, name, head, body in functions():
        crate = f.split('/')[1]
        for m in re.finditer(r'requires (?:\w+ )?\{(.*)\}$', head, re.M):
            for fact in re.split(r' × ', m.group(1)):
                fact = re.sub(r'\b(?:self\.old|self\.now|\w+\.old|\w+\.now)', lambda k: k.group(0).replace('.old', '').replace('.now', ''), fact.strip(' ()'))
                facts[crate, fact].append((f, line, name))
        took = re.findall(r'(\w+): ([^,()]+(?:\([^()]*\))?)', re.sub(r'(?s)(?:requires|ensures).*', '', head))
        took = [(n, ' '.join(t.split()).strip(' ,)')) for n, t in took if n not in ('out', 'alloc', 'heap', 'rt')]
        for i in range(len(took) - 1):
            pairs[crate, took[i], took[i + 1]].append((f, line, name))
    for (crate, fact), where in facts.items():
        if len(where) >= 3:
            yield where[0][0], where[0][1], f'{fact}: ' + ', '.join(n for _, _, n in where)
    for (crate, a, b), where in pairs.items():
        if len(where) >= 3:
            yield where[0][0], where[0][1], f'({a[0]}: {a[1]}, {b[0]}: {b[1]}): ' + ', '.join(n for _, _, n in where)


def buffers():
    """6. Arrays with a length beside them."""
    for f, text in SOURCES.items():
        for m in re.finditer(r'struct \w+[^{;]*\{', text):
            body = block(text, m.end() - 1)
            if re.search(r': (?:&\'a mut )?\[', body) and re.search(r'\b(?:len|count|size|at): (?:usize|u16)', body):
                yield f, line_of(text, m.start()), ' '.join(m.group(0).split())
    yield from by_pattern(r'let mut \w+ = \[[^\]]*; [\w]+\];')


def switches():
    """7. Texts compared one after the other, and steps that only differ in what is called."""
    yield from by_pattern(r'(?:if|else if) same\(\w+, b"[^"]*"\)', r'let written = .*')


POINTS = [own_options, twins, index_loops, by_hand, travelling, buffers, switches]

if __name__ == '__main__':
    asked = [int(a) for a in sys.argv[1:]] or range(1, 8)
    counts = {}
    for n in asked:
        found = list(POINTS[n - 1]())
        for f, line, what in found:
            print(f'{n}  {f}:{line}  {what[:150]}')
        counts[n] = len(found)
    lines = {k: sum(len(open(f).read().splitlines()) for f in glob.glob(p, recursive=True)) for k, p in [('answers and invariants', 'crates/*/proofs/**/[AI]n*s.antt'), ('lemmas', 'crates/*/proofs/*.antt')]}
    print('counts:', ', '.join(f'point {n} {c}' for n, c in counts.items()))
    print('point 8, lines of proof:', ', '.join(f'{k} {v}' for k, v in lines.items()))
