#!/usr/bin/env python3
"""What the repository rests on when it says that a function is proved, and what keeps its text: Rattle proves each function of a small crate, and none of them where it is wrong;
tools/columns.py and tools/needed.py name what is wrong in that crate, and nothing where nothing is. All of it is made in a folder outside the repository.
"""
import difflib
import os
import re
import subprocess
import sys
import tempfile

from tools_crate import ANSWERED, BASE, SLIPS, TOY

HERE = os.path.dirname(os.path.dirname(os.path.abspath(__file__)))


def wanted(what, expected, got):
    """Stops where two texts, or lists, differ, with the first lines that do."""
    if expected != got:
        lines = [one.splitlines() if isinstance(one, str) else [str(one)] for one in (expected, got)]
        sys.exit(f'tests/tools.py: {what}:\n' + '\n'.join(list(difflib.unified_diff(*lines, 'wanted', 'got', n=0, lineterm=''))[:12]))


def write(room, files):
    for path, text in files.items():
        os.makedirs(os.path.dirname(os.path.join(room, path)), exist_ok=True)
        with open(os.path.join(room, path), 'w', encoding='utf-8') as out:
            out.write(text)


def run(room, *words):
    return subprocess.run(words, cwd=room, stdout=subprocess.PIPE, stderr=subprocess.STDOUT, text=True).stdout


def tool(room, name, *words):
    return run(room, sys.executable, os.path.join(HERE, 'tools', name), *words)


def judged(room):
    """What the prover says of each function of the small crate."""
    return dict(re.findall(r'^fn toy::(\w+): (proved|no proof|not proved|\S+)', run(f'{room}/crates/toy', 'rt', 'check'), re.M))


def small_crate(room):
    write(room, {**BASE, **TOY})
    wanted('the small crate', {name: 'proved' for name in SLIPS}, judged(room))
    text = TOY['crates/toy/src/lib.rt']
    for right, wrong in SLIPS.values():
        text = text.replace(right, wrong)
    write(room, {'crates/toy/src/lib.rt': text})
    verdicts = judged(room)
    wanted('functions with a slip that the prover judges', sorted(SLIPS), sorted(verdicts))
    wanted('functions with a slip that are proved', [], [name for name, verdict in verdicts.items() if verdict == 'proved'])


def texts(room):
    """The tools that look at the text alone, over the small crate as it is and with one thing wrong at a time."""
    write(room, {**BASE, **TOY})
    wanted('tools/columns.py', '', tool(room, 'columns.py', '--check'))
    wanted('tools/needed.py', '', tool(room, 'needed.py'))
    wanted('tools/needed.py toy', 'toy: base\n', tool(room, 'needed.py', 'toy'))
    specs, code, lists = 'crates/toy/specs/Toy.antt', 'crates/toy/src/lib.rt', 'crates.txt'
    wide = TOY[specs].replace('price n = pick', 'price n =' + ' ' * 150 + 'pick')
    write(room, {specs: wide})
    wanted('a long line', f'tools/columns.py: {specs}: more than 160 columns: line {wide[:wide.index("price n =")].count(chr(10)) + 1}\n', tool(room, 'columns.py', '--check'))
    write(room, {specs: TOY[specs], code: TOY[code] + '\n' * 250})
    wanted('a long file', f'tools/columns.py: {code}: {TOY[code].count(chr(10)) + 250} lines, more than 250\n', tool(room, 'columns.py', '--check'))
    write(room, {code: TOY[code], lists: TOY[lists].replace('base:\n', 'base:\nidle staticlib: base\n'), 'crates/idle/src/lib.rt': '#![tactic(auto)]\n\npub fn none() {}\n'})
    wanted('a library that is not needed', 'tools/needed.py: idle lists base and does not need it\n', tool(room, 'needed.py'))


def broken(room):
    """A line that is too long is broken, and the crate is proved still."""
    law = 'pub nearer : (a b c : ℕ) → least (least a b) c ≡ least (least a b) c → ' + ' → '.join(f'least a {n} ≡ least a {n}' for n in range(6)) + ' → least a b ≡ least a b'
    specs = TOY['crates/toy/specs/Toy.antt'].replace('ltb}', 'ltb, ◌≡◌, refl}', 1) + f'\n{law}\nnearer a b c _ _ _ _ _ _ _ = refl\n'
    write(room, {**BASE, **TOY, 'crates/toy/specs/Toy.antt': specs})
    tool(room, 'columns.py')
    wanted('lines that tools/columns.py leaves', '', tool(room, 'columns.py', '--check'))
    got = open(f'{room}/crates/toy/specs/Toy.antt').read()
    wanted('the words of a file that tools/columns.py broke', specs.split(), got.split())
    wanted('the small crate with a broken line', {name: 'proved' for name in SLIPS}, judged(room))


def main():
    with tempfile.TemporaryDirectory() as room:
        for part in texts, small_crate, broken:
            part(os.path.join(room, part.__name__))
    print(f'tests/tools.py: {len(SLIPS)} small functions are proved, {len(ANSWERED)} of them by answers, and none where they are wrong; columns.py and needed.py name what is wrong')


if __name__ == '__main__':
    main()
