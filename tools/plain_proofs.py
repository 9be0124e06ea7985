#!/usr/bin/env python3
"""Proof files for functions that the prover proves by itself.

    plain_proofs.py CRATE...     writes one for each function of these crates that has none; antt judges what it writes

A function is proved without such a file too. But where a wrong answer is tried on it, the prover runs a second time to print the file that it misses, and says of
the promise no more than that no proof is found. In a file the promise is met by computing (`refl`), where that is enough, and a wrong answer is refused at the
two terms that differ; otherwise, like the facts on the way, by `search`.
"""
import glob
import os
import re
import subprocess
import sys

import columns

COMPUTED, SEARCHED = 'use mathlib.Core.Path.{refl}\n', 'use borrow.Author.Needs.{needs}\n'


def proof_file(crate, function, made):
    """The file, from the proof that the prover made: a line for each of its needs."""
    binders = dict(re.findall(r'^(\S+) (c(?: κs)?) = search needs$', made, re.M))
    needs = [f'(λ {binders[n]}. {"refl" if n.startswith("returns") else "search needs"})' for n in re.findall(r'^(\S+) : tie\.Need-\S+$', made, re.M)]
    spec = re.search(r'^pub (\S+-spec) :', made, re.M)[1]
    module = f'Rattle·{crate}·proofs.proofs.{function.replace("/", ".")}'
    return ''.join([
        f'-- `{crate}::{function.replace("/", "::")}` meets its contract. Assumes nothing.\n', SEARCHED if 'search' in ''.join(needs) else '', COMPUTED,
        f'use {module}.Statement.{{statement}}\nuse {module}.Tie as tie\n\npub {spec} : {{M : Type 1}} → statement M\n{spec} =\n    let met =\n    tie.spec',
        f' {needs[0]}\n' if len(needs) == 1 else '\n' + ''.join(f'    {n}\n' for n in needs), '    in tie.close met\n'])


def by_search(path):
    text = open(path).read().replace('. refl)', '. search needs)').replace(COMPUTED, '')
    head, rest = text.split('\n', 1)
    open(path, 'w').write(text if SEARCHED in text else f'{head}\n{SEARCHED}{rest}')


def write(crate):
    subprocess.run(['rt', 'goals', crate], check=True, stdout=subprocess.DEVNULL)
    room, written = f'target/goals/{crate}/Rattle·{crate}·proofs/proofs', []
    for made in glob.glob(f'{room}/**/Proof.antt', recursive=True):
        function = os.path.dirname(os.path.relpath(made, room))
        path = f'crates/{crate}/proofs/{function}/Proof.antt'
        if not os.path.exists(path):
            os.makedirs(os.path.dirname(path), exist_ok=True)
            open(path, 'w').write(proof_file(crate, function, open(made).read()))
            written.append(path)
    said = subprocess.run(['rt', 'dev', crate], capture_output=True, text=True).stdout
    for path in written:
        if re.search(rf'{re.escape(path)}:\d+:\d+: error', said):
            by_search(path)
    columns.settle(written)
    print(f'{crate}: {len(written)} proof files')


if __name__ == '__main__':
    for name in sys.argv[1:] or [sys.exit(__doc__)]:
        write(name)
