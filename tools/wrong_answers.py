#!/usr/bin/env python3
"""Wrong answers that the proofs must refuse: crates/NAME/must-fail/*.edit.

An edit may hold several wrong answers, each headed by a comment with its name, so that one check of the crate tries them all. Each changes parts of its
own (crate_text: a function, a definition), and has a witness: a function or law that rests on what it changes and on nothing that another wrong answer of
the edit changes. So where the prover refuses the witness by itself, it refuses this wrong answer. `rt ci` asks only that the edit as a whole be refused, and
keeps of what the prover said no more than a line; this program has `rt check` say all of it.

    wrong_answers.py check           after `rt ci`: each wrong answer has a witness that was refused by itself, at a false fact (prover_log)
    wrong_answers.py try CRATE...    the same for these crates alone, each edit tried anew, over the libraries that stand in crates/*/out
    wrong_answers.py pack CRATE...   put wrong answers together in as few edits as have witnesses for all
    wrong_answers.py list            crate, edit, name and changed part of every wrong answer
    wrong_answers.py lacking         public functions with fewer than two wrong answers in their own text or in the definitions that their promises name
"""
import collections
import os
import re
import sys

import tried_edits
from crate_text import Crate, Part, contract, listed_crates
from edits import changed, edits, keeps_shape, label_of, read_edit, together_in_text, write_edit
from prover_log import Refusal, refusals

# The five slips that the specification lists: each is an edit of its own.
SLIPS = {
    'overflow_drops_the_oldest_sample', 'the_offset_0_read_removes_the_sample', 'intrst_changes_the_page', 'the_channel_moves_at_the_end',
    'ovf_clears_by_reading_status_or_offset_0'}

# ---- after the gate

def witness(crate, wrong, wrongs, refused):
    """A refusal that is this wrong answer's alone; None where there is none."""
    mine = changed(crate, wrong)
    others = set().union(*(changed(crate, w) for w in wrongs if w is not wrong))
    found = [r for r in refused if (mine & seen_by(crate, r.part)) and not others & seen_by(crate, r.part)]
    return next(iter(found), None)


def seen_by(crate, part):
    return crate.rests(part) | {part}


def check(names, anew=False):
    record, found, bad, tried = tried_edits.read(), {}, [], 0
    for name in names:
        crate = Crate(name)
        sums = {path: tried_edits.stands_on(crate, path) for path in edits(name)}
        found.update({path: record[path][1] for path, said in sums.items() if not anew and record.get(path, ('',))[0] == said})
        left = [path for path in sums if path not in found]
        tried += len(left)
        for path, log in tried_edits.logs(name, left) if left else ():
            found[path] = [(r.part.file, r.part.name, r.said) for r in refusals(crate, log) if r.false]
            record[path] = sums[path], found[path]
            if anew:
                tried_edits.write(record)
        bad += [line for path in sums for line in not_refused(crate, path, found[path])]
    for line in bad:
        print('tools/wrong_answers.py: not refused at a false fact:', line)
    if bad:
        sys.exit(1)
    wrongs = sum(len(read_edit(path)) for path in found)
    print(f'tools/wrong_answers.py: {wrongs} wrong answers, each refused by itself at a false fact; {tried} of the {len(found)} edits were tried now, what the others stand on is as {tried_edits.RECORD} has it')


def not_refused(crate, path, found):
    """What is wrong with the wrong answers of an edit of which the prover refused these parts, (file, name, what it said), at false facts."""
    wrongs = read_edit(path)
    refused = [Refusal(Part(file, name), True, said) for file, name, said in found]
    for wrong in wrongs:
        said = '' if witness(crate, wrong, wrongs, refused) else 'nothing was refused by itself'
        said = said or ('' if keeps_shape(crate, wrong) else 'it changes the shape of the code, so its proof does not fit')
        if said:
            yield f'{crate.name}/{label_of(path)}: {wrong.name}: {said}'


# ---- putting wrong answers together

def witnesses(crate, parts):
    """What can be refused for a change of these parts at first hand: it rests on no law that can be, nor, where the prover makes its proof by itself, calls a
    function that can be."""
    laws = {p for p in crate.logic if crate.is_law(p) and parts & seen_by(crate, p)}
    functions = {f for f in crate.functions if parts & seen_by(crate, f)}
    return [p for p in laws if not laws & crate.rests(p) - {p}] + [
        f for f in functions if not laws & crate.rests(f) and (f in crate.proof_files or not crate.called(f) & functions)]


def kept_from(crate, part):
    """What no other wrong answer may change, for this part to be the witness of one."""
    by_itself = part in crate.functions and part not in crate.proof_files
    return seen_by(crate, part) | (crate.reached(part) if by_itself else set())


def together(crate, group):
    """Whether each wrong answer of a group has a witness, and the replacements of all can be made in one text."""
    parts = [changed(crate, w) for w in group]
    for i, mine in enumerate(parts):
        others = set().union(*(p for k, p in enumerate(parts) if k != i))
        if mine & others or not any(not others & kept_from(crate, x) for x in witnesses(crate, mine)):
            return False
    return together_in_text(crate, group)


def pack(name):
    crate, groups, alone = Crate(name), [], []
    wrongs = [w for path in edits(name) for w in read_edit(path)]
    for wrong in sorted(wrongs, key=lambda w: -len(seen_in(crate, w))):
        if wrong.name in SLIPS:
            alone.append([wrong])
            continue
        for group in groups:
            if together(crate, group + [wrong]):
                group.append(wrong)
                break
        else:
            groups.append([wrong])
    before = len(edits(name))
    for path in edits(name):
        os.remove(path)
    many = [g for g in groups if len(g) > 1]
    for number, group in enumerate(many, 1):
        write_edit(name, f'wrong_answers_{number}', group)
    for group in alone + [g for g in groups if len(g) == 1]:
        write_edit(name, group[0].name, group)
    print(f'{name}: {len(wrongs)} wrong answers, {before} edits, now {len(groups) + len(alone)}')


def seen_in(crate, wrong):
    """How much of the crate a wrong answer can be seen in."""
    parts = changed(crate, wrong)
    return [p for p in [*crate.logic, *crate.functions] if parts & seen_by(crate, p)]


# ---- what there is

def listed():
    for name in listed_crates():
        crate = Crate(name)
        for path in edits(name):
            for wrong in read_edit(path):
                print(name, label_of(path), wrong.name, ' '.join(sorted(f'{p.file}:{p.name}' for p in changed(crate, wrong))))


def lacking():
    for name in listed_crates():
        if os.path.exists(f'crates/{name}/src/main.rt'):
            continue
        crate, count = Crate(name), collections.Counter()
        for wrong in [w for path in edits(name) for w in read_edit(path)]:
            parts = changed(crate, wrong)
            for function, value in crate.functions.items():
                promises = crate.named(function.file, ' '.join(re.findall(r'ensures[\s\S]*', contract(value[2]))))
                count[function] += function in parts or bool(parts & promises)
        for function, value in crate.functions.items():
            if value[3] and count[function] < 2:
                print(crate.full_name(function), count[function])


if __name__ == '__main__':
    command, names = sys.argv[1:2], sys.argv[2:]
    if command == ['check'] and not names:
        check(listed_crates())
    elif command == ['list'] and not names:
        listed()
    elif command == ['lacking'] and not names:
        lacking()
    elif command == ['pack'] and names:
        for one in names:
            pack(one)
    elif command == ['try'] and names:
        check(names, anew=True)
    else:
        sys.exit(__doc__)
