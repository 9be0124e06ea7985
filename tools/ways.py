#!/usr/bin/env python3
"""Writes the proofs of the functions that make a step, and of those that make many ticks, one way out after the other: crates/CRATE/proofs/FUNCTION/Proof.antt for
each file tools/ways/CRATE.FUNCTION.txt; a function of a module is MODULE.FUNCTION there, and MODULE/FUNCTION in the path. Run it in the repository's root after a change to such a function or to the laws that its proof cites; antt judges what it
writes.

    tools/ways.py                      all of them
    tools/ways.py CRATE [FUNCTION ..]  those of a crate, or some of them

A line of the file answers one of the facts that the function's proof needs, by the need's own name:

    NEED: TERM

A function with a loop has two lines more, the loop's invariant and the number that falls, over the loop's values:

    Inv-loop VALUES: TERM
    μ-loop VALUES: TERM

In the term, @thing is the way to what is known of `thing` at that point of the code (`@find .ensures`: what the call of `find` promises), @entry that to
what is known where the function begins (`@entry .args .board`), LENT is the record and both memories there, and OPENED says that both checks before the event's own
were passed. Where a law's first words are left to the prover (`_`), a proof that is refused takes it much longer. Lines `use ..` and `unfolding ..` go into the proof; a line that begins with `#` is a comment. Needs that
no line names are answered by `search needs`.
"""
import os
import re
import subprocess
import sys
import tempfile

import columns

LENT = '(@entry .args .board) (@entry .args .memory .now) (@entry .args .eeprom .now)'
OPENED = '(ways.opened (@if1 .left) (@is-working .ensures) (@if2 .left))'


def generated(crate):
    """The folder of what the prover generates for a crate's proofs. Outside the repository: a file of Rattle that no crate has fails the check."""
    folder = tempfile.mkdtemp(prefix='generated-')
    subprocess.run(['rt', 'dev', crate, '--generated', folder], stdout=subprocess.DEVNULL, stderr=subprocess.DEVNULL)
    return os.path.join(folder, f'Rattle·{crate}·proofs', 'proofs')


def stub(crate, function):
    """A proof that says nothing, so that the prover generates the function's needs without trying to prove them."""
    return [f'use Rattle·{crate}·proofs.proofs.{function}.Statement.{{statement}}', '', f'pub {kebab(function)}-spec : {{M : Type 1}} → statement M', f'{kebab(function)}-spec = ?']


def kebab(function):
    """The function's own name, as proofs write it."""
    return function.split('.')[-1].replace('_', '-')


def folder_of(function):
    return function.replace('.', '/')


def known(lts, need):
    """The way to each thing that is known where a need stands."""
    steps = {m[1]: m.groups()[1:] for m in re.finditer(r'pub record (\S+) : Type 0 where\n +pub before : (\S+)\n +pub (\S+) : (\S+) before\n', lts)}
    at = re.search(r'Need-' + re.escape(need) + r' =\s+\(c : (\S+)\)', lts)[1]
    way, ways = 'c', {}
    while at in steps:
        before, thing, _ = steps[at]
        ways.setdefault(thing, f'{way} .{thing}')
        way, at = way + ' .before', before
    return {**ways, 'entry': way}


def answered(term, ways):
    return re.sub(r'@([a-z0-9-]+)', lambda m: ways[m[1]], term.replace('LENT', LENT).replace('OPENED', OPENED))


def proof(crate, function, folder):
    """The lines of the proof."""
    lines = [line for line in open(f'tools/ways/{crate}.{function}.txt', encoding='utf-8').read().split('\n') if line and not line.startswith('#')]
    uses = [line for line in lines if line.startswith('use ')]
    unfolding = [line for line in lines if line.startswith('unfolding ')]
    loop = [line for line in lines if line.startswith(('Inv-', 'μ-'))]
    terms = dict(line.split(': ', 1) for line in lines if not line.startswith(('use ', 'unfolding ', 'Inv-', 'μ-')))
    lts = open(f'{folder}/{folder_of(function)}/Lts.antt', encoding='utf-8').read()
    tie = open(f'{folder}/{folder_of(function)}/Tie.antt', encoding='utf-8').read()
    declared, answers, over = [], [], ''
    for line in loop:
        values, term = line.split(': ', 1)
        name = values.split()[0]
        declared += ['', f'abbrev {name} : tie.{name.replace("Inv-", "InvT-").replace("μ-", "MeasureT-")}', f'{values} = {term}']
        answers.append(f'    {name}')
        over += f' {name}'
    for need in re.findall(r'^abbrev pub Need-(\S+) : .*Type 0', tie, re.M):
        given = 'c κs' if '-requires' in need else 'c'
        if need not in terms:
            answers.append(f'    (λ {given}. search needs)')
            continue
        answers.append(f'    {need}')
        term = answered(terms.pop(need), known(lts, need))
        declared += ['', f'{need} : tie.Need-{need}{over}'] + (unfolding if need.startswith('returns') else []) + [f'{need} {given} = {term}']
    if terms:
        sys.exit(f'tools/ways.py: {crate}::{function} has no need {", ".join(terms)}')
    own = f'Rattle·{crate}·proofs.proofs'
    return [
        f'-- `{crate}::{function.replace(".", "::")}` meets its contract, by a law for each way out. Assumes nothing. Written by tools/ways.py.',
        *(['use borrow.Author.Needs.{needs}'] if any('search needs' in line for line in answers) else []), *uses, *(['use Rattle·board_step.specs.Ways as ways'] if any('ways.' in line for line in declared) else []),
        f'use {own}.{function}.Statement.{{statement}}', f'use {own}.{function}.Tie as tie', *declared, '',
        f'pub {kebab(function)}-spec : {{M : Type 1}} → statement M', f'{kebab(function)}-spec =', '    let met =', '    tie.spec', *answers, '    in tie.close met']


def write(crate, function, lines):
    path = f'crates/{crate}/proofs/{folder_of(function)}/Proof.antt'
    os.makedirs(os.path.dirname(path), exist_ok=True)
    with open(path, 'w', encoding='utf-8') as out:
        out.write('\n'.join(lines) + '\n')
    return path


def main(words):
    files = sorted(name[:-len('.txt')].split('.', 1) for name in os.listdir('tools/ways'))
    wanted = [(c, f) for c, f in files if not words or c == words[0] and f in (words[1:] or [f])]
    for crate in sorted({c for c, _ in wanted}):
        functions = [f for c, f in wanted if c == crate]
        for function in functions:
            write(crate, function, stub(crate, function))
        folder = generated(crate)
        columns.settle([write(crate, function, proof(crate, function, folder)) for function in functions])


if __name__ == '__main__':
    main(sys.argv[1:])
