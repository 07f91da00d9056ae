#!/usr/bin/env python3
"""compile.py CRATE TOOLCHAIN INTO: proves a crate over the libraries below it, as they stand in their folders out/, and compiles it for every
x86-64 by the compiler in the folder TOOLCHAIN: a static library to the archive INTO, a program to the object INTO. As `rt lib` and `rt run` do, but for
the compiler, in whose place tools/library.sh puts one that keeps what it is given.
    compile.py stands CRATE: status 0 if each library below the crate stands there and is that of its sources: `rt` built it for these sources, or
`rt ci` left it in a tree where nothing else was proved, and no source is younger."""
import importlib.machinery
import importlib.util
import os
import shutil
import sys

if len(sys.argv) not in (3, 4) or len(sys.argv) == 3 and sys.argv[1] != 'stands':
    sys.exit(print(__doc__, file=sys.stderr) or 2)
sys.dont_write_bytecode = True
top = os.path.dirname(os.path.dirname(os.path.abspath(__file__)))


def of_toolchain():
    """what rt itself is made of"""
    rt = shutil.which('rt') or sys.exit("compile.py: rt is missing: put the Rattle toolchain's rt on the PATH")
    loader = importlib.machinery.SourceFileLoader('rt', os.path.realpath(rt))
    made = importlib.util.module_from_spec(importlib.util.spec_from_loader('rt', loader))
    loader.exec_module(made)
    return made.rtlib


def crate_of(name):
    folder = f'{top}/crates/{name}'
    if not os.path.isdir(f'{folder}/src'):
        sys.exit(print(f'compile.py: no crate {name}', file=sys.stderr) or 2)
    os.chdir(folder)
    return rtlib.Crate(folder, top, {})


def youngest(folder):
    """the time of the youngest file of a crate's src/, specs/ and proofs/, and of these folders"""
    walked = [(at, names) for part in rtlib.PARTS for at, _, names in os.walk(f'{folder}/{part}')]
    return max(os.stat(f'{at}/{name}').st_mtime for at, names in walked for name in ['.', *names])


def left_by_ci(crate):
    """rt ci builds each library from nothing, and leaves no mark of what it was built from"""
    is_there = os.path.isfile(f'{crate.rlib}/format') and not os.path.exists(f'{crate.folder}/out/rlib/stamp') and not crate.has_kept()
    return is_there and max(youngest(crate.folder), os.stat(f'{top}/crates.txt').st_mtime) < os.stat(crate.rlib).st_mtime


rtlib = of_toolchain()
if sys.argv[1] == 'stands':
    below = crate_of(sys.argv[2]).below()
    sys.exit(not (all(map(left_by_ci, below)) or all(it.is_built() for it in below)))
name, toolchain, into = sys.argv[1], os.path.abspath(sys.argv[2]), os.path.abspath(sys.argv[3])
rtlib.guarded()
crate = crate_of(name)
crate.held = rtlib.lock([*crate.below(), crate])
os.makedirs('out', exist_ok=True)
sys.exit(crate.call(rtlib.RATTLE, 'build', *crate.words(['--cpu', 'x86-64']), '--toolchain', toolchain, '--backend', 'llvm', *rtlib.KEPT, '-o', into) != 0)
