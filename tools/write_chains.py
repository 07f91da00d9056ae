#!/usr/bin/env python3
"""write_chains.py [--check]: writes the arms of `own_end` in crates/fit_chains/src/lib.rt, where a type's own words end, from the rows of
crates/table/src/rows.rt. What tests words and puts bytes item by item are passes of crates fit_chains and put_chains over the chains that chains.py
writes. --check writes nothing and fails where the arms are not what would be written. Run from the repository's root."""
import re
import sys

if sys.argv[1:] not in ([], ['--check']):
    sys.exit(print(__doc__, file=sys.stderr) or 2)

c = {}
exec(open('tools/chains.py').read().split('\nbad = 0')[0], c)  # all of it but the writing
rows_from, starts, TYPES, BODY, kind = c['rows_from'], c['starts'], c['TYPES'], c['BODY'], c['kind']


def own_end(t):
    """the words before the end of a type's own: the flag of a name follows its fields"""
    rs = rows_from(starts[t], starts[t + 1], BODY)
    return BODY + sum(r.words for r in rs) + (1 if rs and rs[-1].fn == 'name' else 0)


path = 'crates/fit_chains/src/lib.rt'
old = open(path).read()
arms = ''.join(f'        Ok({kind(t)}) => {own_end(t)},\n' for t in range(1, TYPES)) + f'        Err(_) => {BODY},\n'
text = re.sub(r'(pub fn own_end\(.*?    match Kind::try_from\(kind\) \{\n).*?(    \}\n\})', lambda m: m.group(1) + arms + m.group(2), old, flags=re.S)
if text != old and '--check' in sys.argv:
    sys.exit(f'{path}: the arms of own_end are not what tools/write_chains.py writes')
if text != old:
    open(path, 'w').write(text)
