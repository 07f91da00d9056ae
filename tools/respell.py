#!/usr/bin/env python3
"""Brings the names of definitions and lemmas to snake case: a name such as recordAt becomes record_at.

usage: python3 tools/respell.py [--list] [FOLDER]    below FOLDER (here): crates/, tools/slips/ and the pages

A name is taken where crates/ declares it in specs/ or proofs/ (a signature, a record's field, a local of a proof). Types, modules, facts and the
names of src/ keep theirs: no name of src/ has this form. Two old names that would become one stop the script."""

import glob
import os
import re
import sys

WORD = re.compile(r"[A-Za-z0-9_'\u2032\u2080-\u2089][A-Za-z0-9_'\u2032\u2080-\u2089-]*")
HUMP = re.compile(r"(?<![A-Za-z0-9_'-])[a-z][a-z0-9_]*[A-Z][A-Za-z0-9_'\u2032\u2080-\u2089]*|(?<=-)[a-z][a-z0-9_]*[A-Z][A-Za-z0-9_'\u2032\u2080-\u2089]*")
# parts that are no snake case of the usual rule
ALONE = {"getD": "get_or", "lR": "l_right"}
# words that are not ours
OTHERS = {"bool_Makes", "mut_slice_Tells", "scaled_Fits", "shr_slice_Lawful", "shr_slice_Tells", "uint_Lawful", "uint_Makes", "uint_Tells", "walk_Meets"}
# lemmas and fields that have the new name of a definition: they get the ending _lem, as a lemma does that would have its function's name
LEMMAS = "all_alike all_placed goes_in holes_in kept_in number_ok one_set one_width zero_in".split()
LEMMA = re.compile(r"(?<![A-Za-z0-9_'-])(" + "|".join(LEMMAS) + r")(?![A-Za-z0-9_'-])")


def snake(part):
    if part in ALONE:
        return ALONE[part]
    return re.sub(r"(?<=[a-z0-9_'])([A-Z])", r"_\1", part).lower()


# definitions whose words were joined by dashes; a step of a proof that has such a name stands after a dot
DASHED = """after-22 after-23 after-24 after-25 before-it bit-unknown buffer-then drain-end drain-records event-count-at event-drained event-end event-next
event-over event-record event-record-at event-scratch event-tail-at event-told event-walked event-words first-bench form-unknown from-21 from-22 from-23
from-24 from-25 kind-word looked-at misc-word older-left older-right part-shown record-in record-told ring-1 ring-2 ring-3 ring-4 ring-5 second-alone
size-frame step-with to-joined to-moved to-next to-show told-by type-unknown walk-records walked-events words-then""".split()
DASH = re.compile(r"(?<![A-Za-z0-9_'.-])(" + "|".join(DASHED) + r")(?![A-Za-z0-9_'-])")


# the same in one file alone: elsewhere the name is a function's of src/
LOCAL = {"crates/twins/specs/Whole.antt": re.compile(r"(?<![A-Za-z0-9_'.-])(body_same)(?![A-Za-z0-9_'-])")}


def lemmas(file, text):
    text = LEMMA.sub(r"\1_lem", text)
    if file.endswith(".antt"):
        text = DASH.sub(lambda m: m.group(0).replace("-", "_"), text)
    for end, word in LOCAL.items():
        if file.endswith(end):
            text = word.sub(r"\1_lem", text)
    return text


def turned(text, names):
    def of(m):
        word = m.group(0)
        return snake(word) if word in names else word

    return HUMP.sub(of, text)


RATTLE = ("crates/**/*.antt", "crates/**/*.rt", "crates/*/must-fail/*.edit", "tools/slips/*.edit")
PAGES = ("*.md", "docs/**/*.md", "tests/**/*.md", "tools/*.sh", "tools/*.py")


def files(top, patterns):
    for pattern in patterns:
        for f in sorted(glob.glob(os.path.join(top, pattern), recursive=True)):
            if "/out/" not in f:
                yield f


def main():
    words = sys.argv[1:]
    top = next((w for w in words if not w.startswith("-")), ".")
    texts = {f: open(f, encoding="utf-8").read() for f in files(top, RATTLE)}
    olds, there = set(), set()
    for f, t in texts.items():
        if f.endswith(".antt"):
            there.update(p for w in WORD.findall(t) for p in w.split("-"))
        olds.update(HUMP.findall(t))
    olds -= OTHERS
    new = {old: snake(old) for old in olds}
    if "--list" in words:
        for old in sorted(olds):
            print(old, new[old], "there" if new[old] in there else "")
        return
    names = sorted(new.values())
    twice = {n for n in names if names.count(n) > 1}
    if twice:
        sys.exit("fall together: " + " ".join(sorted(twice)))
    pages = {f: open(f, encoding="utf-8").read() for f in files(top, PAGES) if not f.endswith("respell.py")}
    changed = 0
    for f, t in (texts | pages).items():
        n = turned(lemmas(f, t) if f.endswith((".antt", ".edit")) else t, new)
        if n != t:
            changed += 1
            with open(f, "w", encoding="utf-8") as out:
                out.write(n)
    print(f"{len(new)} names, {changed} files")


main()
