#!/usr/bin/env python3
"""uncited.py [CRATE..]: public laws that nothing cites, of the specs of the crates named; if none is, of every crate with specs/ but meaning, tables,
promises and uniqueness, whose statements are the definitions and the ends of the chain. A law is cited in its own file if its name stands in another
paragraph than its own; in another file if a `use` line there takes it out of its file, by its name or under an alias, and it stands below. One that
has `kept:` in its comment says what it is kept for. Exits with 1 if one is left, with 2 at a crate that is none."""
import glob
import os
import re
import sys

os.chdir(os.path.join(os.path.dirname(os.path.abspath(__file__)), '..'))
ENDS = {'meaning', 'tables', 'promises', 'uniqueness'}
WORD = re.compile(r"[^\s(){}\[\],;:`\"]+")
# `use Rattle.laws.specs.Rings.{Going, distance-lt}`, `ghost use Rattle.ring.specs.Part.{..};`, `use .. as lists`
USE = re.compile(r'^\s*(?:ghost )?(?:pub )?use Rattle\.(\w+)\.(?:specs|proofs)\.(\w+)(?:\.\{([^}]*)\}| as (\w+))', re.M)
LAW = re.compile(r'^\s*(?:abbrev |unfoldable )?pub ([^\s:]+) :', re.M)


def code(text):
    """without comments"""
    return re.sub(r'(^|\s)(--|//).*$', '', text, flags=re.M)


def words(text):
    """its words, each part of `a.b` too; an operator's sign stands for `_sign_`"""
    found = set(WORD.findall(text))
    for word in list(found):
        found.update(word.split('.'))
    return found


def stands(name, found):
    return name in found or ('_' in name and all(part in found for part in name.split('_') if part))


def cited_elsewhere():
    """the laws that other files take out of theirs, and name below: {(crate, file): {name}}"""
    taken = {}
    for path in glob.glob('crates/**/*.antt', recursive=True) + glob.glob('crates/**/*.rt', recursive=True):
        text = code(open(path, encoding='utf-8').read())
        found = words(re.sub(r'^\s*(?:ghost )?(?:pub )?use [^\n]*$', '', text, flags=re.M))
        for crate, file, names, alias in USE.findall(text):
            into = taken.setdefault((crate, file), set())
            for name in re.split(r',\s*', names.strip()) if names else []:
                own, _, other = name.partition(' as ')
                if stands((other or own).strip(), found):
                    into.add(own.strip())
            if alias:
                into.update(w[len(alias) + 1:] for w in found if w.startswith(alias + '.'))
    return taken


crates = sys.argv[1:] or sorted({p.split('/')[1] for p in glob.glob('crates/*/specs')} - ENDS)
for crate in crates:
    if not os.path.isdir(f'crates/{crate}/specs'):
        print(f'uncited.py: no crate {crate} with specs/', file=sys.stderr)
        sys.exit(2)
taken, left, looked = cited_elsewhere(), [], 0
for crate in crates:
    # (laws that an edit of a definition breaks stand in proofs/)
    for path in glob.glob(f'crates/{crate}/specs/**/*.antt', recursive=True) + glob.glob(f'crates/{crate}/proofs/*.antt'):
        parts = re.split(r'\n\s*\n', open(path, encoding='utf-8').read())
        found = [words(code(part)) for part in parts]
        elsewhere = taken.get((crate, os.path.basename(path)[:-len('.antt')]), set())
        for i, part in enumerate(parts):
            if re.search(r'^\s*pub (record|data) ', part, re.M):
                continue
            for name in LAW.findall(part):
                looked += 1
                here = any(stands(name, found[k]) for k in range(len(parts)) if k != i)
                if not here and name not in elsewhere and 'kept:' not in part:
                    left.append(f'{path}: {name}')
print('\n'.join(sorted(left) + [f'{len(left)} of {looked} public laws of {len(crates)} crates are cited by nothing']))
sys.exit(1 if left else 0)
