#!/usr/bin/env python3
"""chains.py [--check]: writes the lists of crate layouts (specs/Lists.antt) and crates pass_sample and pass_types
(src/lib.rt and the proofs) from the rows of crates/table/src/rows.rt. A row becomes one call of the method of its shape, with its guard and the number of its first word; a few
calls make a function. --check writes nothing and fails where a file is not what would be written. Run from the repository's root."""
import os
import re
import sys

if sys.argv[1:] not in ([], ['--check']):
    sys.exit(print(__doc__, file=sys.stderr) or 2)

FEW = 6  # calls in a function, at most
ALONE = 'sample'  # the type whose chains have a crate of their own: they take as long to prove as all the others
BODY, TRAIL = 3, 48  # the first word of the fields, and of the trailer

# ---- the rows
src = open('crates/table/src/rows.rt').read()
consts = {}
for m in re.finditer(r'^(?:pub )?const (\w+): \w+ = ([^;\[]+);', src, re.M):
    consts[m.group(1)] = eval(m.group(2), {}, consts)
body = src[src.index('pub const ROWS'):]
body = body[body.index('= [') + 3:body.index('];')]
rows, names = [], {}
for line in body.splitlines():
    m = re.match(r'\s*([A-Z0-9_ +*]+),\s*//\s*(.*)', line)
    if m:
        rows.append((eval(m.group(1), {}, consts), m.group(2)))
    m = re.match(r'\s*// (\d+) (\w+)$', line)
    if m:
        names[int(m.group(1))] = m.group(2)
part = src[src.index('pub const STARTS'):]
starts = [int(x) for x in re.findall(r'\d+', part[part.index('= ['):part.index('];')])]
names.setdefault(14, 'SWITCH')  # the one type without a field
TYPES, FIELD_ROWS = consts['TYPES'], consts['FIELD_ROWS']
assert len(rows) == consts['ALL_ROWS'] and len(starts) == TYPES + 1 and starts[-1] == FIELD_ROWS

# ---- guards: a tree over bits of x (the sample type), f (the read format), b (the branch sample type) and misc
X, F = (lambda n: ('bit', 'x', n)), (lambda n: ('bit', 'f', n))
OR, AND, NOT = (lambda p, q: ('or', p, q)), (lambda p, q: ('and', p, q)), (lambda p: ('not', p))
OTHER = {'IF_ALWAYS': 'true', 'IF_READ_LOST': AND(NOT(F(3)), F(4)), 'IF_BUILD_ID': ('bit', 'misc', 14), 'IF_NO_BUILD_ID': NOT(('bit', 'misc', 14)),
         'IF_WEIGHT': OR(X(14), X(24)), 'IF_SAMPLE_ALONE': AND(X(4), NOT(F(3))), 'IF_SAMPLE_GROUP': AND(X(4), F(3)),
         'IF_SAMPLE_ENABLED': AND(X(4), F(0)), 'IF_SAMPLE_RUNNING': AND(X(4), F(1)), 'IF_SAMPLE_ID': AND(X(4), AND(NOT(F(3)), F(2))),
         'IF_READ_ALONE': NOT(F(3)), 'IF_READ_GROUP': F(3), 'IF_READ_ENABLED': F(0), 'IF_READ_RUNNING': F(1), 'IF_READ_ID': AND(NOT(F(3)), F(2)),
         'IF_INDEX': AND(X(11), ('bit', 'b', 17)), 'IF_SAMPLE_LOST': AND(X(4), AND(NOT(F(3)), F(4)))}
BY_NUMBER = {consts[k]: v for k, v in OTHER.items()}


def guard(g):
    return X(g % 64) if g < 32 or g >= 64 else BY_NUMBER[g - 32]


# ---- shapes: the method, what it is given beyond the rest, the shape as the definitions spell it, its words
SHAPES = {'U64': ('number', 'Width::W8', '(Number W8)', 1), 'U32': ('number', 'Width::W4', '(Number W4)', 1), 'U16': ('number', 'Width::W2', '(Number W2)', 1),
          'COUNT_64': ('count', 'Width::W8', '(Count W8)', 1), 'COUNT_16': ('count', 'Width::W2', '(Count W2)', 1),
          'SIZE_32': ('size', 'Width::W4', '(Size W4)', 1), 'SIZE_64': ('size', 'Width::W8', '(Size W8)', 1),
          'BYTES': ('times', '1', '(Times 1)', 1), 'WORDS': ('times', '8', '(Times 8)', 1), 'PAIRS': ('times', '16', '(Times 16)', 1),
          'BRANCHES': ('times', '24', '(Times 24)', 1), 'VALUES': ('values', 'f', '(Times (group_bytes f))', 1),
          'EARLIER_BYTES': ('earlier', '', '(Earlier 1)', 1), 'REGISTERS': ('registers', '', 'Registers', 2), 'FILLED': ('filled', '', 'Filled', 1),
          'USER_ABI': ('abi', 'user', '(Abi user)', 1), 'INTERRUPT_ABI': ('abi', 'interrupt', '(Abi interrupt)', 1),
          'BUILD_SIZE': ('limit', '', '(Limit 20)', 1), 'BUILD_BYTES': ('listed', '', '(Listed 20)', 1), 'TAG': ('bytes', '', '(Bytes 8)', 2),
          'PADDING': ('pad', '', 'Pad', 0), 'NAME': ('name', '', 'Name', 2), 'IGNORED_3': ('ignored', '3', '(Ignored 3)', 0),
          'IGNORED_4': ('ignored', '4', '(Ignored 4)', 0)}
BY_SHAPE = {consts[k]: v for k, v in SHAPES.items()}
ASKS = {'ignored': ', omega arith', 'times': ', omega arith, omega arith'}  # what a method asks beyond `Ready`
PARAMS = ['misc', 'x', 'f', 'b', 'user', 'interrupt']  # what a chain may take, each a u64
FIELD = {'x': 'sample', 'f': 'format', 'b': 'branch', 'user': 'user', 'interrupt': 'interrupt'}


def bits(g):
    return [] if g == 'true' else [g] if g[0] == 'bit' else sum((bits(p) for p in g[1:]), [])


def code(g, top=True):
    if g == 'true':
        return 'true'
    if g[0] == 'bit':
        return f'wire::has_bit({g[1]}, {g[2]})'
    if g[0] == 'not':
        return '!' + code(g[1], False)
    t = f' {"&" if g[0] == "and" else "|"} '.join(code(p, False) for p in g[1:])
    return t if top else f'({t})'


def spec(g, top=False):
    if g == 'true':
        return 'true'
    t = f'bit {g[1]} {g[2]}' if g[0] == 'bit' else f'not {spec(g[1])}' if g[0] == 'not' else f' {"&&" if g[0] == "and" else "||"} '.join(spec(p) for p in g[1:])
    return t if top else f'({t})'


class Row:
    def __init__(self, k, word):
        number, self.comment = rows[k]
        self.on = guard(number // 32)
        self.fn, self.more, self.shape, self.words = BY_SHAPE[number % 32]
        self.word = word
        used = {b[1] for b in bits(self.on)} | ({self.more} & set(PARAMS))
        self.params = [p for p in PARAMS if p in used]


class Events:
    """what the proof knows at a place: one entry for each call before it, by its step's name"""
    def __init__(self):
        self.all, self.seen = [], {}

    def add(self, name):
        self.seen[name] = self.seen.get(name, 0) + 1
        self.all.append(name + self.again(name))
        return len(self.all) - 1

    def again(self, name):
        n = self.seen.get(name, 0)
        return f'-{n}' if n > 1 else ''

    def at(self, i):
        return f'c.{self.all[i]}'


def proof_of(g, places, ev):
    """that the guard which the code found is the guard"""
    if g == 'true':
        return 'refl'
    if g[0] == 'bit':
        return f'{ev.at(places.pop(0))}.ensures'
    if g[0] == 'not':
        return f'(ap not {proof_of(g[1], places, ev)})'
    p = proof_of(g[1], places, ev)
    return f'(ap₂ {"◌&&◌" if g[0] == "and" else "◌||◌"} {p} {proof_of(g[2], places, ev)})'


MADE = '-- Written by tools/chains.py from the rows of crate table'
files = {}  # by path below crates/
lists_out = []
code_out = {'pass_sample': [], 'pass_types': []}


def alone(fn):
    return fn.split('_')[0] == ALONE


def crate_of(fn):
    return 'pass_sample' if alone(fn) else 'pass_types'


def word(at):
    """the number of a word as a contract spells it"""
    return {BODY: 'body_words', TRAIL: 'trail_words'}.get(at, str(at))


def kind(t):
    """a type's variant of meaning's Kind"""
    return 'Kind::' + ''.join(part.capitalize() for part in names[t].split('_'))


def uses(imports, text):
    """the lines of `use`, each with those of its names that the text has"""
    words = set(re.split(r'[\s(){},]+', text))

    def has(name):
        return name in words or name.strip('◌') in words
    out = []
    for line in imports:
        m = re.match(r'((?:ghost )?use \S+)\.\{(.*)\}(;?)$', line)
        if m:
            kept = [name for name in m.group(2).split(', ') if has(name.split(' as ')[-1])]
            out += [f'{m.group(1)}.{{{", ".join(kept)}}}{m.group(3)}'] if kept else []
        elif any(w.startswith(line.split()[-1] + '.') for w in words):
            out.append(line)
    return ''.join(line + '\n' for line in out)


def args(ps):
    return ''.join(f', {p}' for p in ps)


IMPORTS = ['use mathlib.Core.Path.{refl, ap, ap₂}', 'use mathlib.Core.Bool.{not, ◌&&◌, ◌||◌}', 'use mathlib.Core.List.{◌++◌}',
           'use native.Mathlib.Omega.{arith}', 'use Rattle.meaning.specs.Values.{tell, width}', 'use Rattle.layouts.specs.Lists as lists',
           'use Rattle.pass.specs.Laws.{start, done, head, next, head₁, next₁}']
LAWS = 'g.P.Pass.laws'


def guarded(rs):
    return ', its guard found bit by bit,' if any(bits(r.on) for r in rs) else ''


def proof_file(fn, why, text):
    crate = crate_of(fn)
    files[f'{crate}/proofs/{fn}/Answers.antt'] = f"""-- `{crate}::{fn}` meets its contract: {why}. Assumes nothing.
{MADE}.
{uses(IMPORTS, text)}use Rattle.{crate}.proofs.{fn}.Goals as goal
{text}"""


def answer(goal, unfolded, term):
    return f'\npub {goal} : goal.{goal}\n{unfolded}{goal} g c = {term}\n'


def listed(name, ps):
    return name if not ps else f'({name} {" ".join(ps)})'


def signature(fn, title, ps, at, list_text):
    given = ''.join(f', {p}: u64' for p in ps)
    public = 'pub ' if fn == ALONE else ''
    return [f'// {title}', f'{public}fn {fn}<P: Pass>(p: &mut P{given})', f'    requires {{ P.Ready {list_text} p.old {word(at)} }}',
            f'    ensures {{ P.Done {list_text} p.old {word(at)} p.new }}', '{']


def going(steps, ev):
    t = '(start c.requires)'
    for law, eq, where in steps:
        t = f'({law} {LAWS} {eq(ev)} {t} {ev.at(where)}.ensures)'
    return t


def chain(fn, title, rs):
    """one function: a call for each row"""
    ps = [p for p in PARAMS if any(p in r.params for r in rs)]
    lname = fn.replace('_', '-')
    lists_out.append(f'abbrev pub {lname} : {"ℕ → " * len(ps)}List Item\n{" ".join([lname] + ps)} =\n    '
                     + '\n    ∷ '.join(f'item {spec(r.on)} {r.shape}' for r in rs) + '\n    ∷ []\n')
    out = signature(fn, title, ps, rs[0].word, listed(lname, ps))
    ev = Events()
    text, steps = '', []
    for n, r in enumerate(rs):
        places, on = [], code(r.on)
        for b in bits(r.on):
            places.append(ev.add('has_bit'))
        if len(bits(r.on)) > 1:
            out.append(f'    let on{n} = {on};')
            on = f'on{n}'
        out.append(f'    p.{r.fn}({on}, {r.word}{", " + r.more if r.more else ""}); // {r.comment}')
        equation = (lambda r, places: lambda e: proof_of(r.on, list(places), e))(r, places)
        before = going(steps, ev)
        term = f'head₁ {LAWS} {equation(ev)} {before}'
        steps.append(('next₁', equation, ev.add(r.fn)))
        text += answer(f'{r.fn}-requires{ev.again(r.fn)}', 'unfolding tell\n', f'({term}{ASKS[r.fn]})' if r.fn in ASKS else term)
    text += answer('returns', 'unfolding tell\n', f'done {LAWS} {going(steps, ev)}')
    proof_file(fn, f'each call passes the next item of the list{guarded(rs)} and leaves what the item after it asks', text)
    code_out[crate_of(fn)] += out + ['}', '']
    return ps


def joined(fn, title, pieces):
    """one function that calls the chains of a type, one after the other"""
    params = [p for p in PARAMS if any(p in ps for _, ps, _ in pieces)]
    lname = fn.replace('_', '-')
    texts = [listed(piece.replace('_', '-'), ps) for piece, ps, _ in pieces]
    lists_out.append(f'abbrev pub {lname} : {"ℕ → " * len(params)}List Item\n{" ".join([lname] + params)} = '
                     + ' ++ ('.join(texts) + ')' * (len(texts) - 1) + '\n')
    out = signature(fn, title, params, pieces[0][2], listed(lname, params))
    ev = Events()
    text, steps = '', []
    for n, (piece, ps, at) in enumerate(pieces):
        rest = pieces[n + 1:]
        out.append(f'    {piece}(p{args(ps)});')

        def lists(e, piece=piece, ps=ps, rest=rest):
            def one(d, qs):
                return listed('lists.' + d.replace('_', '-'), [f'c.args.{q}' for q in qs])
            after = ' ++ ('.join(one(d, qs) for d, qs, _ in rest) + ')' * (len(rest) - 1)
            return f'{one(piece, ps)} ' + (f'({after})' if len(rest) > 1 else after)
        text += answer(f'{piece}-requires', 'unfolding tell width\n', f'head {LAWS} {lists(ev)} {going(steps, ev)}' if rest else f'{going(steps, ev)}.ready')
        if rest:
            steps.append(('next', lists, ev.add(piece)))
        else:
            text += answer('returns', 'unfolding tell width\n', f'{going(steps, ev)}.last _ c.{piece}.ensures')
    proof_file(fn, 'the list is its parts one after the other, and each call passes the next part and leaves what the part after it asks', text)
    code_out[crate_of(fn)] += out + ['}', '']
    return params


# ---- the chains of each type; types with equal rows share one
made = {}
kinds = {}


def rows_from(fr, to, word):
    rs = []
    for k in range(fr, to):
        rs.append(Row(k, word))
        word += rs[-1].words
    return rs


def pieces_of(base, title, rs):
    parts = -(-len(rs) // FEW)
    if parts == 1:
        return [(base, chain(base, title, rs), rs[0].word)]
    each = -(-len(rs) // parts)
    return [(f'{base}_{n + 1}', chain(f'{base}_{n + 1}', title + f', part {n + 1}', rs[n * each:(n + 1) * each]), rs[n * each].word) for n in range(parts)]


for t in range(TYPES):
    if starts[t] == starts[t + 1]:
        continue
    key = tuple(n for n, _ in rows[starts[t]:starts[t + 1]])
    if key not in made:
        base, title = names[t].lower(), f'{t} {names[t]}'
        pieces = pieces_of(base, title, rows_from(starts[t], starts[t + 1], BODY))
        made[key] = (base, joined(base, title, pieces) if len(pieces) > 1 else pieces[0][1])
    kinds[t] = made[key]
trail = joined('trailer', 'the trailer', pieces_of('trailer', 'the trailer', rows_from(FIELD_ROWS, len(rows), TRAIL)))

# ---- by type
used = [p for p in PARAMS if p in FIELD and any(p in ps for _, ps in kinds.values())]
code_out['pass_types'] += ['// The fields of a type; a type that has none, or that document 01 does not have, changes nothing.',
                           'pub fn fields<P: Pass>(p: &mut P, kind: u64, misc: u64, a: Attributes)',
                           f'    requires {{ P.Ready (schema kind misc a) p.old {word(BODY)} }}',
                           f'    ensures {{ P.Done (schema kind misc a) p.old {word(BODY)} p.new }}', '{']
code_out['pass_types'] += [f'    let {p} = a.{FIELD[p]};' for p in used] + ['    match Kind::try_from(kind) {']
for fn, ps in dict.fromkeys((fn, tuple(ps)) for fn, ps in kinds.values()):
    of = ' | '.join(kind(t) for t in range(1, TYPES) if t in kinds and kinds[t][0] == fn)
    code_out['pass_types'].append(f'        Ok({of}) => {"pass_sample::" if alone(fn) else ""}{fn}(p{args(ps)}),')
for t in range(1, TYPES):
    if t not in kinds:
        code_out['pass_types'].append(f'        Ok({kind(t)}) => {{}}')
code_out['pass_types'] += ['        Err(_) => {}', '    }', '}', '']
code_out['pass_types'] += ['// The trailer of a record of this type.',
                           'pub fn trail<P: Pass>(p: &mut P, kind: u64, a: Attributes)',
                           f'    requires {{ P.Ready (trailer_of kind a) p.old {word(TRAIL)} }}',
                           f'    ensures {{ P.Done (trailer_of kind a) p.old {word(TRAIL)} p.new }}', '{',
                           '    trailer(p, layouts::trailer_bits(kind, a));', '}']
shapes = ['Number', 'Ignored', 'Count', 'Size', 'Times', 'Earlier', 'Registers', 'Filled', 'Abi', 'Limit', 'Listed', 'Bytes', 'Pad', 'Name']
lists_text = "\n".join(lists_out)
files['layouts/specs/Lists.antt'] = f"""-- The items of each type's fields, and of the trailer, in pieces of a few; what is equal for two types stands once. Assumes nothing: these are definitions.
{MADE}; that they are the layouts is found by computation where they are used.
use Rattle.std.specs.Prelude.{{true, not, ◌&&◌, ◌||◌, List, [], ◌∷◌, ◌++◌, ℕ}}
use Rattle.meaning.specs.declared.Item.{{Item}}
use Rattle.meaning.specs.declared.Shape.TheVariants.{{{", ".join(shapes)}}}
use Rattle.meaning.specs.declared.Width.TheVariants.{{W2, W4, W8}}
use Rattle.meaning.specs.Bytes.{{bit}}
use Rattle.meaning.specs.Schema.{{item, group_bytes}}

{lists_text}"""
all_lists = re.findall(r'abbrev pub (\S+) :', lists_text)


def lists_of(crate):
    """the lists that the contracts of its functions name"""
    return ', '.join(l for l in all_lists if crate_of(l.replace('-', '_')) == crate)


files['pass_sample/src/lib.rt'] = f"""// A pass over SAMPLE's fields: a call for each item, in the order of the schema.
// Written by tools/chains.py from the rows of crate table.
#![tactic(auto)]

ghost use Rattle.meaning.specs.Values.{{body_words}};
ghost use Rattle.layouts.specs.Lists.{{{lists_of("pass_sample")}}};

use meaning::Width;
use pass::Pass;

""" + '\n'.join(code_out['pass_sample'])
files['pass_types/src/lib.rt'] = f"""// A pass over each type's fields and over the trailer: a call for each item, in the order of the schema.
// Written by tools/chains.py from the rows of crate table.
#![tactic(auto)]

ghost use Rattle.meaning.specs.Schema.{{schema, trailer as trailer_of}};
ghost use Rattle.meaning.specs.Values.{{body_words, trail_words}};
ghost use Rattle.layouts.specs.Lists.{{{lists_of("pass_types")}}};

use meaning::{{Attributes, Kind, Width}};
use pass::Pass;

""" + '\n'.join(code_out['pass_types']) + '\n'

bad = 0
for name, text in sorted(files.items()):
    path = 'crates/' + name
    old = open(path).read() if os.path.exists(path) else ''
    if old == text:
        continue
    if '--check' in sys.argv:
        print(f'{path}: not what tools/chains.py writes')
        bad = 1
    else:
        os.makedirs(os.path.dirname(path), exist_ok=True)
        open(path, 'w').write(text)
sys.exit(bad)
