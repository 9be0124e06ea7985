#!/usr/bin/env python3
"""The table of sizes of docs/VALIDATION.md: for each crate, in the order of crates.txt, lines of code, of specs/ and of proofs/; wrong answers; edits.

    python3 tools/gate_figures.py
"""
import glob
import os
import re

from edits import edits, read_edit


def lines_in(crate, folder):
    return sum(open(path).read().count('\n') for path in glob.glob(f'crates/{crate}/{folder}/**/*', recursive=True) if os.path.isfile(path))


def main():
    sums = [0] * 5
    print('| Crate | code | specs | proofs | wrong answers | edits |\n|---|---|---|---|---|---|')
    for name in re.findall(r'^(\w+)(?: +staticlib)? *:', open('crates.txt').read(), re.M):
        row = [*(lines_in(name, part) for part in ('src', 'specs', 'proofs')), sum(len(read_edit(path)) for path in edits(name)), len(edits(name))]
        sums = [a + b for a, b in zip(sums, row)]
        print(f'| {name} | ' + ' | '.join(map(str, row)) + ' |')
    print('| together | ' + ' | '.join(map(str, sums)) + ' |')


if __name__ == '__main__':
    main()
