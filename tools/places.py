#!/usr/bin/env python3
"""Counts the places of docs/DESIGN-PASS.md in crates/*/src/*.rt: tools/places.py [-v] [POINT..]

Each line is a point and what was counted; -v lists the places. It goes by text: it finds candidates, and a person reads them.
"""
import difflib
import glob
import itertools
import os
import re
import sys

TOP = os.path.dirname(os.path.dirname(os.path.abspath(__file__)))
# another tree's may be counted: tools/places.py FOLDER ..
os.chdir(sys.argv.pop(1) if len(sys.argv) > 1 and os.path.isdir(sys.argv[1]) else TOP)
VERBOSE = '-v' in sys.argv
WANTED = [a for a in sys.argv[1:] if a.isdigit()]
STATIC = re.compile(r'_c/src/')  # static libraries: the exports once more, for the linker


class Function:
    def __init__(self, file, line, text):
        self.file, self.line, self.text = file, line, text
        self.name = re.search(r'fn (\w+)', text).group(1)
        head = text[: text.index('\n{\n')] if '\n{\n' in text else text.split('{\n')[0]
        self.head = head
        self.body = text[len(head):]
        self.clauses = [re.sub(r'\s+', ' ', c.strip()) for c in re.findall(r'(?m)^\s*requires(?: \w+)? (\{.*\})$', head)]
        self.result = (re.search(r'\) -> ([^\n{]+?)\s*(?:\n|\{|$)', head) or [None, ''])[1]
        params = re.search(r'fn \w+(?:<[^(]*>)?\((.*?)\)\s*(?:->|\n|$|\{)', head, re.S)
        self.params = [re.sub(r'\s+', ' ', p.strip()) for p in (params.group(1) if params else '').split(',') if ':' in p]


def functions(file):
    text = open(file, encoding='utf-8').read()
    for m in re.finditer(r'(?m)^( *)(?:pub(?:\([a-z]+\))? )?(?:extern "C" )?(?:final )?fn \w+', text):
        end = re.compile(r'(?m)^' + m.group(1) + r'\}').search(text, m.end())
        short = re.compile(r'\{\}|;').search(text, m.end())
        stop = end.end() if end else len(text)
        yield Function(file, text.count('\n', 0, m.start()) + 1, text[m.start():stop])


FILES = sorted(f for f in glob.glob('crates/*/src/**/*.rt', recursive=True) if not STATIC.search(f))
ALL = [f for file in FILES for f in functions(file)]


def lines(pattern, skip=None):
    for file in FILES:
        for n, line in enumerate(open(file, encoding='utf-8'), 1):
            if re.search(pattern, line) and not line.lstrip().startswith('//') and not (skip and re.search(skip, line)):
                yield '%s:%d: %s' % (file, n, line.strip())


def at(f):
    return '%s:%d: %s' % (f.file, f.line, f.name)


def tokens(f):
    body = re.sub(r'//.*', '', f.body)
    return re.findall(r'\w+|[^\w\s]', body)


def twins():
    """Functions of eight tokens and more whose bodies are alike but for a few of them."""
    cut = [(f, tokens(f)) for f in ALL if len(tokens(f)) >= 24]
    for (f, a), (g, b) in itertools.combinations(cut, 2):
        if min(len(a), len(b)) * 100 < 75 * max(len(a), len(b)):
            continue
        m = difflib.SequenceMatcher(None, a, b, autojunk=False)
        if m.real_quick_ratio() < 0.86 or m.quick_ratio() < 0.86:
            continue
        if m.ratio() >= 0.86:
            yield f, g


def groups(pairs):
    parent = {}

    def root(x):
        while parent.setdefault(x, x) != x:
            x = parent[x]
        return x

    for f, g in pairs:
        parent[root(g)] = root(f)
    out = {}
    for x in list(parent):
        out.setdefault(root(x), []).append(x)
    return [sorted(map(at, g)) for g in out.values()]


def repeated_clauses():
    by = {}
    for f in ALL:
        for c in set(f.clauses):
            by.setdefault(c, []).append(f)
    return ['%d functions: %s (%s ..)' % (len(fs), c, at(fs[0])) for c, fs in sorted(by.items(), key=lambda i: -len(i[1])) if len(fs) >= 3]


def travelling():
    """Three parameters or more that stand together, of the same names and types, in three functions or more."""
    by = {}
    for f in ALL:
        if f.name.startswith('ollskuvan_'):
            continue
        ps = f.params
        for i in range(len(ps) - 2):
            by.setdefault(tuple(ps[i:i + 3]), []).append(f)
    return ['%d functions: %s (%s ..)' % (len(fs), ', '.join(k), at(fs[0])) for k, fs in sorted(by.items(), key=lambda i: -len(i[1])) if len(fs) >= 3]


def copied():
    """Struct literals that copy two fields or more of one value, by hand."""
    for file in FILES:
        text = open(file, encoding='utf-8').read()
        for m in re.finditer(r'\b([A-Z]\w+) \{\n((?:\s+\w+(?:: [^\n]*)?,\n)+)\s*\}', text):
            fields = re.findall(r'(\w+): (\w+)\.(\w+),', m.group(2))
            if sum(a == c for a, _, c in fields) >= 2:
                yield '%s:%d: %s' % (file, text.count('\n', 0, m.start()) + 1, m.group(1))


POINTS = [
    ('1', 'fields that are a flag or a refusal beside a value',
     lambda: list(lines(r'^\s*pub (go|whole|has|bad|told|same|done|last|why|stop|answer|width|eights|list|name|number|earlier|keeps|shifts): (bool|u16|u32),'))),
    ('1', 'functions that answer a refusal as a number (u16, or u32 within)',
     lambda: [at(f) for f in ALL if f.result in ('u16',) or (f.result == 'u32' and not f.name.startswith('ollskuvan_') and re.search(r'return 5\d;|refus', f.text))]),
    ('1', 'returns of a bare refusal number', lambda: list(lines(r'return \d+;$|refuse\w*\(.*\d\d?\)|halt\(\d+\)|refused\(\d+\)|told\(\d\d?, 0\)'))),
    ('1', 'arms and tests of a record type by its number', lambda: list(lines(r'^\s+\d+( \| \d+)* => |kind == \d+'))),
    ('2', 'groups of functions with like bodies', lambda: ['; '.join(g) for g in groups(twins())]),
    ('3', 'loops that are no `for`', lambda: list(lines(r'^\s*(\'\w+: )?(while .*|loop) \{$'))),
    ('4', 'struct literals that copy fields by hand', lambda: list(copied())),
    ('4', 'numbers and conversions by functions of their own', lambda: [at(f) for f in ALL if re.match(r'(number_\d+|width_of|largest|event_of|attributes_of|decimal|image_attributes|attributes|header_of|number|eight|smaller|choose|digit)$', f.name)]),
    ('5', 'requirements that stand in three functions or more', repeated_clauses),
    ('5', 'three parameters that travel together in three functions or more', travelling),
    ('6', 'a lent buffer with a place beside it', lambda: [at(f) for f in ALL if not f.name.startswith('ollskuvan_') and re.search(r'&mut \[u(8|64)\], (at|place|start): usize|, at: usize', ', '.join(f.params)) and re.search(r'&mut \[', ', '.join(f.params))]),
    ('6', 'rows as bare arrays of words', lambda: list(lines(r'\[u64; (7|8|56|32)\]', r'ollskuvan_'))),
    ('7', 'tables of functions and switches on a step', lambda: list(lines(r'fn\(|dyn '))),
]

for point, what, find in POINTS:
    if WANTED and point not in WANTED:
        continue
    found = find()
    print('%s  %4d  %s' % (point, len(found), what))
    if VERBOSE:
        for x in found:
            print('         ' + x)
