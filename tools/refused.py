#!/usr/bin/env python3
"""Tries each must-fail edit again, and asks that each wrong reader is refused where it is wrong.

  tools/refused.py [CRATE..]   tries the edits (of these crates), but for those whose log of the same sources is there; says what is missing, ends with 1
  tools/refused.py labels      prints crate/label of every wrong reader, and tries nothing

It stands on the libraries in crates/*/out: run `rt ci` before. Each edit is tried on a copy of its crate, in the way of `rt must-fail`; where it changes
functions alone, only they and what they call are proved. What the prover says is kept in target/must-fail/CRATE/EDIT/.log; its first line is a sum of all
that was read, so it serves as long as nothing of that changes. target/must-fail may be copied to another checkout on the same machine.

An edit may hold several wrong readers of one crate, each with a line '# LABEL: why' before it (several_1.edit and so on): the crate is then proved once
for all of them. An edit of one is named after it. `rt` asks that the crate is not proved. Here each wrong reader must be refused by itself:

- where no other of its edit changes the same function, or the same file of specs/ or proofs/: at a goal of that function's proof; of a file at something
  that stands in it;
- else at the goal or theorem that its line 'at: FACT' names, which no other of the edit names ('at: FUNCTION/FACT' where what is changed stands outside
  the functions). Tried alone, each was refused at its fact and at no other's.

An error that only follows from another one, or only says that the proof does not fit the changed code, counts for nothing; nor does a check that gave
no verdict, or one of a crate that is not proved as it stands. Goals are named after the words of conditions: where a condition is changed, the proof is
tried once more in the names that the changed code has, and the head of the log tells them; `at:` has the names of the code as it stands.
"""
import concurrent.futures
import contextlib
import glob
import hashlib
import importlib.machinery
import importlib.util
import os
import re
import shutil
import signal
import subprocess
import sys
import tempfile

sys.dont_write_bytecode = True
TOP = os.path.dirname(os.path.dirname(os.path.abspath(__file__)))
os.chdir(TOP)
# The first line of a log, before the sum: other words, if logs are ever made in another way.
MADE_OF = 'made of '


# What the edits say

def in_a_name(kind):
    """A type as it stands in the name of an impl: `[u64; 7]` is ArrayU647."""
    array = re.fullmatch(r'\[(\w+); (\w+)\]', kind.strip())
    words = ['Array', *array.groups()] if array else re.findall(r'\w+', re.sub(r"<.*|'\w+", '', kind))
    return ''.join(word[:1].upper() + word[1:] for word in words)


def name_of_impl(head):
    """The name that the prover gives an impl: the type's, and that of a trait with the types that it is given."""
    trait, _, kind = head.rpartition(' for ')
    if not trait:
        return re.match(r'\w+', kind).group()
    given = re.fullmatch(r'\w+<(.*)>', trait)
    types = [in_a_name(it) for it in given.group(1).split(', ') if not it.startswith("'")] if given else []
    return in_a_name(kind) + in_a_name(trait) + ''.join(types)


def function_at(text, place):
    """The function of a source file that a place lies in, if it lies in one, with the type or the impl that it belongs to."""
    found = None  # (the last that holds it: a method of a trait that has no body ends with the next one's, as it is looked for here)
    for start in re.finditer(r'(?m)^( *)(?:pub )?(?:extern "C" )?fn (\w+)', text):
        end = re.compile(r'(?m)^' + start.group(1) + r'\}').search(text, start.end())
        if start.start() <= place < (end.end() if end else len(text)):
            heads = re.findall(r'(?m)^impl(?:<[^>]*>)? (.+) \{$', text[: start.start()]) if start.group(1) else []
            found = '::'.join([*map(name_of_impl, heads[-1:]), start.group(2)])
    return found


def place_of(crate, file, old):
    """The function that a replacement changes, or the file of specs/ or proofs/; None for what stands outside all functions."""
    if not file.startswith('src/'):
        return file
    with open('crates/%s/%s' % (crate, file), encoding='utf-8') as source:
        text = source.read()
    module = re.sub(r'^(lib|main)$', '', file[len('src/'): -len('.rt')])
    function = function_at(text, text.index(old)) if old in text else None
    return function and '::'.join(filter(None, [module, function]))


def wrong_readers(path):
    """The wrong readers of an edit by label: the fact that is named, and each place that is changed."""
    label, file, found = os.path.basename(path)[: -len('.edit')], '', {}
    several = re.match(r'several_\d+$', label)
    with open(path, encoding='utf-8') as edit:
        lines = edit.read().split('\n')
    for line in lines:
        named = re.match(r'# (\w+): ', line)
        if several and named:
            label = named.group(1)
        if line.startswith('at: '):
            found.setdefault(label, ['', []])[0] = line[len('at: '):]
        elif line.startswith('file: '):
            file = line[len('file: '):]
        elif line.startswith('old: '):
            found.setdefault(label, ['', []])[1].append(place_of(path.split('/')[1], file, line[len('old: '):]))
    return found


def is_file(place):
    return place.startswith(('specs/', 'proofs/'))


def functions_of(readers):
    """The functions that an edit changes or names, where only their proofs can be refused; else None: all is to be proved."""
    found = []
    for fact, places in readers.values():
        named = fact.rpartition('/')[0]
        if any(place and is_file(place) for place in places) or None in places and not named:
            return None
        found += [place for place in places if place] + [named] * bool(named)
    return sorted(set(found))


# What the prover says of them

def of_toolchain():
    """What rt itself is made of."""
    rt = shutil.which('rt') or sys.exit("refused: rt is missing: put the Rattle toolchain's rt on the PATH")
    loader = importlib.machinery.SourceFileLoader('rt', os.path.realpath(rt))
    made = importlib.util.module_from_spec(importlib.util.spec_from_loader('rt', loader))
    loader.exec_module(made)
    return made


def name_of(edit):
    """The crate and the name of an edit."""
    return edit.split('/')[1] + '/' + os.path.basename(edit)[: -len('.edit')]


def log_of(edit):
    return 'target/must-fail/%s/.log' % name_of(edit)


class Tries:
    """The checks of the edits, by what rt itself is made of."""

    def __init__(self, edits):
        self.rt, self.names, self.times, self.rooms, known = of_toolchain(), {}, {}, {}, {}
        # (from the main thread: it ends the checks when this ends)
        self.rt.rtlib.guarded()
        self.crates = {name: self.rt.rtlib.Crate('%s/crates/%s' % (TOP, name), TOP, known) for name in {edit.split('/')[1] for edit in edits}}

    def crate_of(self, edit):
        return self.crates[edit.split('/')[1]]

    def sum_of(self, edit):
        """The sum of all that the log of an edit stands on: the toolchain, the sources of the crate and of those below, the edit, what is asked for."""
        with open(edit, 'rb') as text:
            read = self.rt.stamp_of(self.crate_of(edit), {}), text.read(), functions_of(wrong_readers(edit))
        return MADE_OF + hashlib.sha256(repr(read).encode()).hexdigest()

    def is_kept(self, edit):
        try:
            with open(log_of(edit), encoding='utf-8') as log:
                return log.readline().rstrip('\n') == self.sum_of(edit)
        except OSError:
            return False

    def youngest(self, crate):
        """The time of the youngest file that a check of the crate reads, less the libraries below it."""
        if crate.name not in self.times:
            walked = [(at, names) for part in self.rt.rtlib.PARTS for at, _, names in os.walk('%s/%s' % (crate.folder, part))]
            self.times[crate.name] = max(os.stat('%s/%s' % (at, name)).st_mtime for at, names in walked for name in ['.', *names])
        return self.times[crate.name]

    def stands(self, crate):
        """Whether the library in the crate's out/ is that of its sources and of those below, and so was proved: `rt` built it for these, or `rt ci` left it
        and none is younger."""
        if os.path.exists(crate.folder + '/out/rlib/stamp'):
            return crate.is_built()
        youngest = max(os.stat(TOP + '/crates.txt').st_mtime, *map(self.youngest, [crate, *crate.below()]))
        return os.path.isfile(crate.rlib + '/format') and youngest < os.stat(crate.rlib).st_mtime

    def ran(self, crate, texts, words):
        """A check of a copy of the crate with these texts, over what the ones before it kept; once more if it was killed, most likely for memory."""
        given = crate, texts, ['--jobs', '1', *words], self.rooms.get(crate.name)
        ran = self.rt.checked(*given)
        return self.rt.checked(*given) if ran.returncode == -signal.SIGKILL else ran

    def checked(self, crate, texts, functions):
        """What a check of these functions says, or of all."""
        return self.ran(crate, texts, [word for name in functions or [] for word in ('--only', '%s::%s' % (crate.name, name))])

    def unproved(self, name):
        """Why nothing can be said of a crate's edits, if so: where it is not proved without them, what is refused with them says nothing."""
        crate = self.crates[name]
        lacking = [it.name for it in crate.below() if not self.stands(it)]
        if lacking:
            return '%s: the library %s in crates/%s/out is not there, or not of these sources: run `rt ci`' % (name, lacking[0], lacking[0])
        if self.stands(crate):
            return None
        ran = self.checked(crate, {}, None)
        return '%s: it is not proved as it stands: %s' % (name, last_line(ran)) if ran.returncode or not last_line(ran).startswith('logic=proved') else None

    def names_of(self, crate, texts, functions):
        """The names that rattle makes from each of these functions, in the order of its code: of its goals, and of what is known at them."""
        found = {}
        with tempfile.TemporaryDirectory(prefix='refused-') as room:
            words = [word for name in functions for word in ('--start', '%s::%s' % (crate.name, name))]
            self.ran(crate, texts, ['--generated', room, *words])
            for name in functions:
                top, text = '%s/Rattle-%s-proofs/%s/' % (room, crate.name, name.replace('::', '/')), ''
                for file in ('AnswersOffered.antt', 'InvariantsOffered.antt', 'Lts.antt'):
                    text += self.rt.rtlib.text_of(top + file) or ''
                names = re.findall(r'(?m)^ *(?:pub )?([^\s:=()]+) :(?= |$)', text)
                # (a goal may be answered as one or by its clauses; rattle's own names are a letter and a number)
                found[name] = [it.partition('-clause-')[0] for it in names if not re.fullmatch(r'[a-z]\d+', it)]
        return found

    def respelled(self, crate, texts, functions):
        """The texts and the proofs of these functions in the names that the changed code has. Goals are named after the words of conditions, so a proof no
        longer fits a changed condition, whatever it says."""
        unknown = [name for name in functions if (crate.name, name) not in self.names]
        self.names.update(((crate.name, name), names) for name, names in (self.names_of(crate, {}, unknown) if unknown else {}).items())
        now, texts, told = self.names_of(crate, texts, functions), dict(texts), ''
        for name in functions:
            pairs = renamed(self.names[crate.name, name], now[name])
            to = dict(pairs)
            if not pairs or len(to) < len(pairs):
                continue
            told += ''.join('respelled %s: %s %s\n' % (name, *pair) for pair in sorted(pairs))
            words = re.compile(r'(?<![\w-])(%s)(?=-clause-|(?![\w-]))' % '|'.join(map(re.escape, to)))
            for path in glob.glob('%s/proofs/%s/*.antt' % (crate.folder, name.replace('::', '/'))):
                inside = os.path.relpath(path, crate.folder)
                text = texts.get(inside) or self.rt.rtlib.text_of(path)
                texts[inside] = words.sub(lambda found: to[found.group()], text)
        return texts, told

    def tried(self, crate, texts, readers):
        """What the check of a copy of the crate with these texts says, and what was respelled."""
        functions = functions_of(readers)
        ran = self.checked(crate, texts, functions)
        unfit = unfit_in(ran.stdout) if any(file.startswith('src/') for file in texts) else []
        texts, told = self.respelled(crate, texts, unfit) if unfit else (texts, '')
        return told, self.checked(crate, texts, functions) if told else ran

    def write_log(self, edit):
        """Tries an edit and keeps the log. What is wrong if there was no verdict, else None."""
        before, crate, readers = self.sum_of(edit), self.crate_of(edit), wrong_readers(edit)
        texts, why = self.rt.read_edit(edit, crate.folder)
        if why:
            return '%s: %s' % (name_of(edit), why)
        told, ran = self.tried(crate, texts, readers)
        ended = last_line(ran).startswith('logic=not-proved' if functions_of(readers) is None else 'only=')
        if ran.returncode != 1 or not ended or self.rt.rtlib.STALE.search(ran.stdout):
            return '%s: no verdict: its check ended with status %d: %s' % (name_of(edit), ran.returncode, last_line(ran))
        if self.sum_of(edit) != before:
            return '%s: files were changed while it was tried: once more' % name_of(edit)
        os.makedirs(os.path.dirname(log_of(edit)), exist_ok=True)
        with open(log_of(edit) + '.new', 'w', encoding='utf-8') as log:
            log.write(before + '\n' + told + ran.stdout)
        os.replace(log_of(edit) + '.new', log_of(edit))
        return None

    def write_logs(self, name, edits):
        """Tries the edits of a crate, and returns what is wrong where there was no verdict."""
        with tempfile.TemporaryDirectory(prefix='refused-') as room:
            why, self.rooms[name] = self.unproved(name), room
            return [why] if why else [why for why in map(self.write_log, edits) if why]


def renamed(was, now):
    """The pairs of an old and a new name. Those made from conditions go in order where there are as many as before, and so do the others."""
    pairs = set()
    for of_conditions in True, False:
        one, other = ([it for it in names if bool(re.match(r'((if|in)|.*-(then|else|in))-', it)) == of_conditions] for names in (was, now))
        pairs.update((old, new) for old, new in zip(one, other) if old != new and len(one) == len(other))
    return pairs


def last_line(ran):
    return ran.stdout.rstrip('\n').split('\n')[-1][:200]


def make_logs(edits):
    """Writes the log of each edit that has none of the same sources, and returns what went wrong. Each check takes a core and some 1.5 GB."""
    tries, lacking = Tries(edits), {}
    for edit in edits:
        if not tries.is_kept(edit):
            # (nothing is judged by the log of other sources)
            with contextlib.suppress(FileNotFoundError):
                os.remove(log_of(edit))
            lacking.setdefault(edit.split('/')[1], []).append(edit)
    if lacking:
        print('refused: trying %d edits of %d crates' % (sum(map(len, lacking.values())), len(lacking)), flush=True)
    longest_first = sorted(lacking, key=lambda name: -len(lacking[name]) * (400 + tries.crates[name].count(rb'\n')))
    with concurrent.futures.ThreadPoolExecutor(min(4, len(os.sched_getaffinity(0)))) as pool:
        return [why for bad in pool.map(lambda name: tries.write_logs(name, lacking[name]), longest_first) for why in bad]


# What the logs say

ERROR = re.compile(r'(?m)^(?:\./)?((?:specs|proofs)/\S+\.antt):\d+:\d+: error: `([^`]+)`: (.*)')
OPEN = re.compile(r'(?m)^fn \w+::(\S+): (?:no proof|not proved)\b.*; `search` did not prove (.*)')
# A goal of a function with a proof file that nothing was found for, by its place in src/ (an edit is a line for a line).
LEFT = re.compile(r'(?m)^note: (src/\S+):(\d+):\d+: it is not proved that .*? \(`([^`]+)`\)')
# A proof that no longer fits the function's shape, or names what is gone.
UNFIT = r'has no field|that can be named from here|is not in scope'


def at_a_fact(why):
    """Not what just follows from another error, nor a limit of the prover, nor a proof that no longer fits."""
    return not re.search(r'was not admitted|was rejected|ran out of|outgrew the memory limit|stopped at the step limit|' + UNFIT, why)


def unfit_in(log):
    """The functions whose proof no longer fits."""
    files = {file for file, _, why in ERROR.findall(log) if re.search(UNFIT, why)}
    return sorted({found.group(1).replace('/', '::') for found in map(re.compile(r'proofs/(.+)/(?:Answers|Invariants)\.antt').fullmatch, files) if found})


def function_on(crate, file, line):
    """The function that a line of a source file lies in."""
    with open('crates/%s/%s' % (crate, file), encoding='utf-8') as source:
        lines = source.read().split('\n')
    text = '\n'.join(lines)
    inside = sum(len(it) + 1 for it in lines[: line - 1]) + len(lines[line - 1])
    # (the line may be the one that the function begins with)
    module = re.sub(r'^(lib|main)$', '', file[len('src/'): -len('.rt')])
    function = function_at(text, inside)
    return function and '::'.join(filter(None, [module, function]))


def refusals(log, crate):
    """Each goal or theorem that is refused, with its file; an open goal of a function with no file counts as one of its Answers.antt. A goal has the name
    that it has without the edit."""
    found = {(file, fact) for file, fact, why in ERROR.findall(log) if at_a_fact(why)}
    for function, goals in OPEN.findall(log):
        found.update(('proofs/%s/Answers.antt' % function.replace('::', '/'), goal) for goal in re.findall(r'`([^`]+)`', goals))
    unfit = unfit_in(log)
    for file, line, goal in LEFT.findall(log):
        function = function_on(crate, file, int(line))
        # (where the proof does not fit the changed code, a goal may be new and true, and only without an answer)
        if function and function not in unfit:
            found.add(('proofs/%s/Answers.antt' % function.replace('::', '/'), goal))
    was = {('proofs/' + function.replace('::', '/'), new): old for function, old, new in re.findall(r'(?m)^respelled (\S+): (\S+) (\S+)', log)}
    split = [(file, *fact.partition('-clause-')) for file, fact in found]
    return {(file, was.get((os.path.dirname(file), goal), goal) + of + clause) for file, goal, of, clause in split}


def stands_in(file, place):
    """Whether a file is that of a place, or the one of proofs/ that proves what the one of specs/ states, or one of the proof of the function."""
    if is_file(place):
        return file in (place, place.replace('specs/', 'proofs/', 1))
    return os.path.dirname(file) == 'proofs/' + place.replace('::', '/')


def refused_at(found, places, fact):
    """The fact that an edit names is refused: in the proof of the function that is named; or of one that is changed, or at a theorem, if a file of specs/ or
    proofs/ is changed."""
    named, _, fact = fact.rpartition('/')
    files = {file for file, other in found if other == fact}
    if named:
        return any(('/' + os.path.dirname(file)).endswith('/' + named.replace('::', '/')) for file in files)
    if any(is_file(place) for place in places if place) and any(re.fullmatch(r'specs/.*|proofs/\w+\.antt', file) for file in files):
        return True
    return any(stands_in(file, place) for file in files for place in places if place)


def shared(readers):
    """Labels of an edit that change one place without facts of their own."""
    # (a file of proofs/ proves what the one of the same name in specs/ states)
    kinds = {label: {place and place.replace('specs/', 'proofs/', 1) for place in places} for label, (_, places) in readers.items()}
    for place in sorted({place or '' for places in kinds.values() for place in places}):
        facts = {label: readers[label][0] for label, places in kinds.items() if place in places or None in places}
        if len(facts) > 1 and (not all(facts.values()) or len(set(facts.values())) < len(facts)):
            yield ', '.join(sorted(facts))


def faults(edit):
    """What is wrong with an edit, as its log tells it."""
    crate, readers = edit.split('/')[1], wrong_readers(edit)
    with open(log_of(edit), encoding='utf-8') as log:
        found = refusals(log.read(), crate)
    for labels in shared(readers):
        yield '%s: %s change one place, and not each names a fact of its own' % (name_of(edit), labels)
    for label, (fact, places) in readers.items():
        if fact and not refused_at(found, places, fact):
            yield '%s/%s: `%s` is not refused' % (crate, label, fact)
        of_code = {place for place in places if place and not is_file(place)}
        if len(readers) == 1 and not of_code and not found:
            yield '%s/%s: nothing is refused at a fact' % (crate, label)
        # (an edit of one need not be refused in the very file of specs/ that it changes)
        for place in [] if fact else sorted(of_code if len(readers) == 1 else {place or 'no function' for place in places}):
            if not any(stands_in(file, place) for file, _ in found):
                yield '%s/%s: nothing in `%s` is refused' % (crate, label, place)


def main():
    edits = sorted(glob.glob('crates/*/must-fail/*.edit'))
    if not edits:
        sys.exit('refused: there is no must-fail edit')
    labels = sorted({'%s/%s' % (edit.split('/')[1], label) for edit in edits for label in wrong_readers(edit)})
    if sys.argv[1:] == ['labels']:
        print('\n'.join(labels))
        return
    asked = [edit for edit in edits if edit.split('/')[1] in sys.argv[1:] or not sys.argv[1:]]
    lacking = set(sys.argv[1:]) - {edit.split('/')[1] for edit in asked}
    if lacking:
        sys.exit('refused: no argument, or names of crates with must-fail edits, or: labels. No such crate: %s' % ' '.join(sorted(lacking)))
    bad = make_logs(asked)
    bad += [fault for edit in asked if os.path.exists(log_of(edit)) for fault in faults(edit)]
    if bad:
        sys.exit('\n'.join('refused: ' + fault for fault in bad))
    seen = sum(len(wrong_readers(edit)) for edit in asked)
    print('refused: %d wrong readers in %d edits, each refused where it is wrong' % (seen, len(asked)))


main()
