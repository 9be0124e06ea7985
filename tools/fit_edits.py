#!/usr/bin/env python3
"""Fits wrong answers to the names that a proof file has of the code: the goals and facts of a branch are named by its test, so an edit of a test takes names away, and is then refused for a
missing name and not for what it says. This adds to the wrong answer the lines of proofs/F/Answers.antt with the names of the changed code.

    fit_edits.py CRATE...     every edit of these crates of which the prover says that the name of a goal or of a fact is gone; says what it cannot fit
"""
import os
import re
import subprocess
import sys
import tempfile

import tried_edits
from crate_text import Crate
from edits import Pair, changed, edits, label_of, read_edit, write_edit

GONE = re.compile(r'^(?:\S*?/)?proofs/(\S+)/Answers\.antt:\d+:\d+: error: .*`goal\.(\S+?)`: module \S+ has no ', re.M)
WAYS = {'returns', 'then', 'else', 'not', 'in', 'before', 'after'}
LOST = re.compile(r'^(?:\S*?/)?proofs/(\S+)/Answers\.antt:\d+:\d+: error: .*has no field `(\S+?)` \(nearest: ([^)]*)\)', re.M)
GOAL = re.compile(r'^(?:pub )?(\S+) : goal\.\1$', re.M)


def segment(old, new):
    """The name of a test in two goals that are alike but for it: where they differ, with the word before it; None where they differ otherwise."""
    a, b, before = old.split('-'), new.split('-'), ''
    if len(a) != len(b) or any(x != y for x, y in zip(a, b) if {x, y} & WAYS):
        return None
    while a and a[0] == b[0]:
        before, a, b = a[0], a[1:], b[1:]
    while a and a[-1] == b[-1]:
        a, b = a[:-1], b[:-1]
    front = [before] if before and before not in WAYS else []
    return ('-'.join(front + a), '-'.join(front + b)) if a else None


def applied(name, path, room):
    """A copy of the crate and those below it, with the edit."""
    tried_edits.copied(name, '.', room)
    for wrong in read_edit(path):
        for pair in wrong.pairs:
            rewrite(f'{room}/crates/{name}/{pair.file}', lambda text: text.replace(pair.old, pair.new))
    return f'{room}/crates/{name}'


def rewrite(path, change):
    text = change(open(path, encoding='utf-8').read())
    os.remove(path)
    with open(path, 'w', encoding='utf-8') as out:
        out.write(text)


def new_goals(name, path, function):
    """The goals of a function of the edited crate that Rattle does not prove by itself, in the order of the code."""
    with tempfile.TemporaryDirectory() as room:
        crate = applied(name, path, f'{room}/it')
        os.remove(f'{crate}/proofs/{function}/Answers.antt')
        words = ['rt', 'check', '--jobs', '1', '--start', '::'.join([name, *function.split('/')]), '--allow-holes']
        subprocess.run(words, cwd=crate, stdout=subprocess.DEVNULL, stderr=subprocess.DEVNULL)
        made = f'{crate}/proofs/{function}/Answers.antt'
        return GOAL.findall(open(made, encoding='utf-8').read()) if os.path.exists(made) else []


def fitted(name, path, function, gone, lost):
    """The pairs for the answers of a function; None where its goals are not the same but for their names."""
    file = f'proofs/{function}/Answers.antt'
    text = open(f'crates/{name}/{file}', encoding='utf-8').read()
    mine = GOAL.findall(text)
    old, new = [g for g in mine if g in gone], [g for g in new_goals(name, path, function) if g not in mine] if gone else []
    found = [{segment(a, b) for a in old} - {None} for b in new]
    found += [{segment(a, b) for b in near if b not in text} - {None} for a, near in lost.items()]
    both = {one for each in found for one in each}
    if not both or any(len(each) != 1 for each in found) or len(dict(both)) != len(both):
        print(f'{name}/{label_of(path)}: {function}: {old + list(lost)} and {new}: by hand')
        return None
    pairs = []
    for line in text.split('\n'):
        other = line
        for a, b in both:
            other = re.sub(rf'(?<![\w]){re.escape(a)}(?![\w])', b, other)
        if other != line:
            if text.count(line) != 1:
                print(f'{name}/{label_of(path)}: {function}: the line {line!r} stands more than once: by hand')
                return None
            pairs.append(Pair(file, line, other))
    return pairs


def main(names):
    for name in names:
        crate = Crate(name)
        for path, log in tried_edits.logs(name, edits(name)):
            gone, lost = {}, {}
            for function, goal in GONE.findall(log):
                gone.setdefault(function, set()).add(goal)
            for function, field, near in LOST.findall(log):
                lost.setdefault(function, {})[field] = [one.strip(' .') for one in near.split(',')]
            wrongs = read_edit(path)
            for function in sorted({*gone, *lost}):
                module, _, own = function.rpartition('/')
                part = next((f for f in crate.functions if f.name == own and f.file in ([f'src/{module}.rt'] if module else ['src/lib.rt', 'src/main.rt'])), None)
                at = [i for i, wrong in enumerate(wrongs) if part in changed(crate, wrong)]
                pairs = fitted(name, path, function, gone.get(function, ()), lost.get(function, {})) if len(at) == 1 else print(f'{name}/{label_of(path)}: {function}: {len(at)} wrong answers change it: by hand')
                if pairs:
                    wrongs[at[0]] = wrongs[at[0]]._replace(pairs=wrongs[at[0]].pairs + pairs)
                    print(f'{name}/{label_of(path)}: {wrongs[at[0]].name}: {len(pairs)} lines of {pairs[0].file}')
            if wrongs != read_edit(path):
                write_edit(name, label_of(path), wrongs)


if __name__ == '__main__':
    main(sys.argv[1:] or sys.exit(__doc__))
