#!/usr/bin/env python3
"""tools/wrong_answers.py over a small crate and what a prover might say of an edit with two wrong answers: it passes where both were refused by themselves at a
false fact, and else names the one that was not. What it found is kept, and holds as long as all stays that the edit's check stands on.
"""
import os
import subprocess
import sys
import tempfile

JUDGE = os.path.join(os.path.dirname(os.path.dirname(os.path.abspath(__file__))), 'tools', 'wrong_answers.py')

FILES = {
    'crates.txt': 'toy: # no libraries\n',
    'crates/toy/src/lib.rt': '''#![tactic(auto)]

ghost use Rattle.toy.specs.Toy.{doubled, raised};

pub fn double(n: u8) -> u16
    ensures { result ≡ doubled n }
{
    n as u16 + n as u16
}

#[tactic(auto, unfolding(crate::specs::Toy::raised))]
pub fn raise(n: u8) -> u16
    ensures { result ≡ raised n }
{
    double(n) + 1
}
''',
    'crates/toy/specs/Toy.antt': '''abbrev pub doubled : ℕ → ℕ
doubled n = n + n

abbrev pub raised : ℕ → ℕ
raised n = doubled n + 1

pub raised_odd : (n : ℕ) → odd (raised n) ≡ true
raised_odd n = odd_next (doubled n)
''',
    'crates/toy/proofs/double/Answers.antt': 'use Rattle.toy.proofs.double.Goals as goal\n\npub returns : goal.returns\nreturns c = refl\n',
    'crates/toy/proofs/raise/Answers.antt': 'use Rattle.toy.proofs.raise.Goals as goal\n\npub returns : goal.returns\nreturns c = refl\n',
}
CODE = '''# two_is_one: a double is once the number
file: src/lib.rt
old: n as u16 + n as u16
new: n as u16 + 0 as u16
# the_next_is_two_on: a number is raised by 2
file: src/lib.rt
old: double(n) + 1
new: double(n) + 2
'''
DEFINITIONS = CODE.replace('file: src/lib.rt\nold: n as u16 + n as u16\nnew: n as u16 + 0 as u16', 'file: specs/Toy.antt\nold: doubled n = n + n\nnew: doubled n = n')
RESHAPED = CODE.replace('new: double(n) + 2', 'new: double(n)')

SAID = {
    'unequal': './proofs/%s/Answers.antt:4:1: error: `%s`: computed as far as they go, the two types differ only where one has `1` (expected) and the other has `2` (found)\n',
    'second hand': './proofs/%s/Answers.antt:4:1: error: `%s`: `goal` was not admitted (it has holes or undetermined implicits, or was rejected), so this cannot be checked\n',
    'unfit': './proofs/%s/Answers.antt:4:1: error: `%s`: `goal.add-requires`: module `Goals` has no `add-requires` that can be named from here\n',
    'no instance': './proofs/%s/Answers.antt:4:1: error: `%s`: `simp`: no equation of the list has an instance in the goal\n',
    'nothing to rewrite': './proofs/%s/Answers.antt:4:1: error: `%s`: `rw`: no occurrence of the path\'s left endpoint in the goal: ... the two types differ\n',
    'by itself': 'fn toy::%s: no proof: expected answers in ./proofs/%s/Answers.antt; `search` did not prove `returns`\n',
    'calls': 'fn toy::%s: not proved; it calls `toy::%s`, which is not proved\n',
    'proved': 'fn toy::%s: proved\n',
}

# the edit, what is said of double and of raise, and which wrong answers are then named
CASES = [
    (CODE, 'unequal', 'unequal', []),
    (CODE, 'by itself', 'unequal', []),
    (CODE, 'by itself', 'by itself', []),
    (CODE, 'unequal', 'second hand', ['the_next_is_two_on']),
    (CODE, 'unequal', 'calls', ['the_next_is_two_on']),
    (CODE, 'unequal', 'proved', ['the_next_is_two_on']),
    (CODE, 'unfit', 'unequal', ['two_is_one']),
    (CODE, 'no instance', 'unequal', ['two_is_one']),
    (CODE, 'nothing to rewrite', 'proved', ['two_is_one', 'the_next_is_two_on']),
    (RESHAPED, 'unequal', 'unequal', ['the_next_is_two_on']),
    # raise's promise names `raised`, which names `doubled`: its refusal may be the other wrong answer's
    (DEFINITIONS, 'unequal', 'unequal', ['the_next_is_two_on']),
]

# In the place of `rt`: the crate as it stands is proved, and of one that is changed the prover says what the file `said` has. It notes each check.
RT = '''#!/bin/sh
[ "$1" = check ] || { echo a kit; exit; }
echo checked >>%(room)s/checks
mkdir -p out/incremental
cat src/lib.rt specs/Toy.antt | cmp -s - %(room)s/right || { cat %(room)s/said; exit 1; }
'''


def said_of(function, what):
    text = SAID[what]
    return text % ((function,) * text.count('%s'))


def write(room, files):
    for path, text in files.items():
        os.makedirs(os.path.dirname(os.path.join(room, path)), exist_ok=True)
        with open(os.path.join(room, path), 'w', encoding='utf-8') as out:
            out.write(text)


def checks(room):
    """How many checks were made since the last call."""
    path = os.path.join(room, 'checks')
    if not os.path.exists(path):
        return 0
    number = open(path).read().count('checked')
    os.remove(path)
    return number


def judged(room, command, *names):
    """Which wrong answers are named."""
    how = {**os.environ, 'PATH': f'{room}/bin:{os.environ["PATH"]}'}
    done = subprocess.run([sys.executable, JUDGE, command, *names], cwd=room, env=how, stdout=subprocess.PIPE, stderr=subprocess.STDOUT, text=True)
    named = [name for name in ('two_is_one', 'the_next_is_two_on') if name in done.stdout]
    return named if done.returncode == (1 if named else 0) else [f'status {done.returncode}: {done.stdout[-400:]}']


def wanted(what, expected, got):
    if got != expected:
        sys.exit(f'tests/judge.py: {what}: {got}, wanted {expected}')


def main():
    with tempfile.TemporaryDirectory() as room:
        right = ''.join(FILES[f'crates/toy/{file}'] for file in ('src/lib.rt', 'specs/Toy.antt'))
        write(room, {**FILES, 'bin/rt': RT % {'room': room}, 'right': right, 'tools/none': ''})
        os.chmod(f'{room}/bin/rt', 0o755)
        for edit, double, raised, named in CASES:
            write(room, {'crates/toy/must-fail/two.edit': edit, 'said': said_of('double', double) + said_of('raise', raised)})
            what = f'double {double}, raise {raised}'
            wanted(what, named, judged(room, 'try', 'toy'))
            wanted(what + ', checks', 2, checks(room))
            wanted(what + ', as it was kept', named, judged(room, 'check'))
            wanted(what + ', checks of what was kept', 0, checks(room))
        # Where what the edit's check stands on is changed, it is tried again.
        for path in 'crates/toy/must-fail/two.edit', 'crates/toy/proofs/double/Answers.antt':
            text = open(f'{room}/{path}', encoding='utf-8').read()
            write(room, {path: '# more\n' + text if path.endswith('.edit') else '-- more\n' + text})
            judged(room, 'check')
            wanted(f'checks after a change of {path}', 2, checks(room))
            write(room, {path: text})
    print(f'tests/judge.py: {len(CASES)} logs judged as they should be, and as they were kept')


if __name__ == '__main__':
    main()
