#!/usr/bin/env python3
"""Writes the missing proofs of a crate's by-value functions, and has antt judge them. Run it in the repository's root.

    answers.py CRATE...     a proof file for each function of these crates that has none and that the prover does not prove by itself

For functions whose code has the shape of the definition that they promise. What the prover does not find by itself, the promise at a way out or what a call
requires, is answered by `simp` of what the way there tells:

    a call       what it promises of its result, where that is an equation; of a promise of several parts, that part
    an `if`      its test, as the equation of a Bool that the definition chooses by
    a `match`    on an enum: the variant; on a number: the number, or that it is none of those listed
    the entry    what the function requires, where that is an equation

What is told of a call's result is told of what the call promises. Where the promise begins with a definition that is `unfoldable`, the proof unfolds it. All other
needs are answered by `search needs`. A function with a loop, or over a lent record, is left alone. The last lines say which files hold and which lines of
the others do not; after a change to a function, remove its folder in proofs/ and run this again.
"""
import collections
import functools
import glob
import os
import re
import subprocess
import sys
import tempfile

from crate_text import Crate, Part, contract
from prover_log import SECOND_HAND

STEP = re.compile(r'pub record (\S+) : Type 0 where\n +pub before : (\S+)\n +pub (\S+) : (\S+) before\n')
OWN = re.compile(r'pub record (\S+·own) : Type 0 where\n((?: {10,}\S.*\n)+)')
CODE = re.compile(r'^abbrev b\d+ : Syntax\.Body\nb\d+ =(.*?)\n\n', re.M | re.S)
PROMISE = re.compile(r'ensures \{ λ (\w+)\. ⌜(.*?)⌝ \}', re.S)
# The law that makes an equation of a Bool of a comparison that holds where a branch is `taken`, or `left`.
ORDERS = {'taken<': 'lt-ltb', 'taken≤': 'le-leb', 'left<': 'lt-leb', 'left≤': 'le-ltb'}
WIDTH = 150


# ---- what the sources say

crate_of = functools.lru_cache(None)(Crate)


def contract_of(path):
    """The contract of the function at a path, `converter::channels::start`; empty where no crate of the repository has it."""
    crate, *module, name = path
    if not os.path.isdir(f'crates/{crate}/src'):
        return ''
    found = [crate_of(crate).functions.get(Part(f'src/{file}.rt', name)) for file in module or ('lib', 'main')]
    return ''.join(contract(value[2]) for value in found if value)


def parts(path):
    """Of each part of a function's promise, whether it is an equation of the result."""
    said = PROMISE.findall(contract_of(path))
    return [bool(re.match(rf'\s*\(*{said[0][0]} ≡', part)) for part in said[0][1].split(' × ')] if len(said) == 1 else []


def promised(path):
    """What a call's promise is called, where it is an equation of the result, or that part of it that is; None where none is."""
    equations = parts(path)
    return None if True not in equations else '.ensures' if len(equations) == 1 else f'.ensures .{equations.index(True)}'


def asks_equation(path):
    """Whether what a function requires is an equation."""
    asked = re.findall(r'requires \{ ⌜(.*?)⌝ \}', contract_of(path), re.S)
    return len(asked) == 1 and '≡' in asked[0] and '×' not in asked[0]


def unfolded(path):
    """The definition that a promise begins with, with its module, where it is unfoldable."""
    crate, *module, _ = path
    said = PROMISE.search(contract_of(path))
    name = re.match(r'\s*\(*\w+ ≡ \(?([^\s()]+)', said[2]) if said else None
    for file in module or ('lib', 'main'):
        text = open(f'crates/{crate}/src/{file}.rt').read() if name and os.path.exists(f'crates/{crate}/src/{file}.rt') else ''
        for used, names in re.findall(r'^ghost use (Rattle·\S+)\.\{([^}]*)\};', text, re.M):
            home = re.match(r'Rattle·(\w+)(?:·specs\.specs|\.specs)\.(.*)', used)
            specs = f'crates/{home[1]}/specs/{home[2].replace(".", "/")}.antt' if home else ''
            if name[1] in names.split(', ') and os.path.exists(specs) and re.search(rf'^ *unfoldable pub {re.escape(name[1])} :', open(specs).read(), re.M):
                return used, name[1]
    return None


# ---- what the prover generates

class Ways:
    """What is known on the ways through a function, from the module Lts that the prover generates of it."""

    def __init__(self, lts, path):
        self.asks = asks_equation(path)
        self.steps = {m[1]: m.groups()[1:] for m in STEP.finditer(lts)}
        self.owns = {m[1]: ' '.join(m[2].split()) for m in OWN.finditer(lts)}
        self.needs = dict(re.findall(r'Need-(\S+) =\s+\(c : (\S+)\)', lts))
        called = set(re.findall(r'(\S+·own) =\s+Called\.Called', lts))
        self.unread = [thing for _, thing, own in self.steps.values() if own in called]
        self.calls, self.made_of, self.laws = {}, collections.defaultdict(set), set()
        for code in CODE.findall(lts):
            self.read(code.split())

    def read(self, words):
        """A statement of the code: a call, by the name that it has on a way (the function's, with a number where that is taken), or of which locals a local is made."""
        places = re.findall(r'Syntax\.place (\d+)', ' '.join(words))
        if words[0] == 'Syntax.call':
            path = words[1].strip('"').split('::')
            name = next((thing for thing in self.unread if re.fullmatch(path[-1].replace('_', '-') + r'\d*', thing)), None)
            if name:
                self.unread.remove(name)
                self.calls[name] = path, places[-1]
            self.made_of[places[-1]] |= set(places[:-1])
        elif words[0] == 'Syntax.assign':
            self.made_of[places[0]] |= set(places[1:])

    def origins(self, local):
        """The locals that a local's value is made of, with itself."""
        seen, todo = {local}, [local]
        while todo:
            for one in self.made_of[todo.pop()] - seen:
                seen.add(one)
                todo.append(one)
        return seen

    def way(self, need):
        """The steps to a need, the nearest first: (the path to what is known there, its name, its own record)."""
        at, path, found = self.needs[need], 'c', []
        while at in self.steps:
            before, thing, own = self.steps[at]
            found.append((f'{path} .{thing}', thing, own))
            at, path = before, path + ' .before'
        return found

    def facts(self, need):
        """What the way to a need tells, as equations."""
        way, found = self.way(need), []
        for i, (here, thing, own) in enumerate(way):
            told = self.owns.get(own, '')
            asked = self.owns.get(way[i + 1][2], '') if i + 1 < len(way) else ''
            if thing in self.calls:
                said = promised(self.calls[thing][0])
                found += [f'{here} {said}'] if said else []
            elif re.fullmatch(r'if\d+', thing) and 'came' not in told:
                found += [self.of_calls(self.tested(here, told), told, way[i + 1:])]
            elif re.fullmatch(r'match\d*', thing) and 'tagOf' not in told:
                found += [self.of_calls(fact, told, way[i + 1:]) for fact in self.numbered(here, told)]
            elif 'given' in told and 'tagOf' in asked:
                found += [self.of_calls(f'{here} .given .1', asked, way[i + 1:])]
        return found + ([f'c{" .before" * len(way)} .pre'] if self.asks else [])

    def tested(self, here, told):
        """A test as an equation of a Bool."""
        side = told.split()[1]
        if re.search(r"Bool'*\d*\.(true|false)$", told):
            return f'{here} .{side}'
        order = re.search(r'Nat\._([<≤])_', told)
        return self.by(ORDERS[side + order[1]] if order else 'ne-eqb' if '⊥' in told else 'eq-eqb', f'{here} .{side}')

    def numbered(self, here, told):
        """What a match on a number tells: the number, where an arm has one only; in the last arm, that it is none of the others."""
        side = told.split()[1]
        if side != 'rest':
            return [f'{here} .{side}'] if told.count('∷') == 1 else []
        return [self.by('ne-eqb', f'{here} .rest{" .0" * i} .1') for i in range(told.count('⊥'))]

    def by(self, law, fact):
        self.laws.add(law)
        return f'{law} _ _ ({fact})'

    def of_calls(self, fact, told, before):
        """A fact of locals, as one of what the calls promise that their values come from."""
        locals_ = set().union(*(self.origins(local) for local in re.findall(r'Row\.get (\d+)', told)))
        calls = [(here, promised(self.calls[thing][0])) for here, thing, _ in before if thing in self.calls and self.calls[thing][1] in locals_]
        said = ', '.join(f'{here} {said}' for here, said in calls if said)
        return f'simp ({said}) at ({fact})' if said else fact


# ---- the proof

def answer(need, given, ways, equations):
    """The answer to a need that the prover does not meet by itself, over several lines where it is long. Of a promise of several parts, the first equation is told of."""
    facts, line = ways.facts(need), ''
    for told in ', '.join(facts), '\n' + ''.join(f'  {fact},\n' for fact in facts):
        each = ['search needs'] * (len(equations) if need.startswith('returns') else 1)
        each[equations.index(True) if len(each) > 1 else 0] = f'simp ({told})' if facts else 'refl'
        line = f'(λ {given}. ' + (each[0] if len(each) == 1 else f'({", ".join(each)})') + ')'
        if len(line) <= WIDTH:
            break
    return line.splitlines()


def proof(path, made, ways):
    """The lines of a proof: the needs are those of the proof that the prover made by itself, which says which of them it does not meet."""
    unmet, answers = set(re.findall(r'^-- antt refused `(returns(?:-\d+)?|\S+-requires(?:-\d+)?)`', made, re.M)), []
    for need, given in re.findall(r'^(\S+) (c(?: κs)?) = ', made, re.M):
        answers += answer(need, given, ways, parts(path)) if need in unmet else [f'(λ {given}. search needs)']
    spec, opened, text = re.search(r'^pub (\S+-spec) :', made, re.M)[1], unfolded(path), ' '.join(answers)
    own = f'Rattle·{path[0]}·proofs.proofs.{".".join(path[1:])}'
    return [
        f'-- `{"::".join(path)}` meets its contract. Assumes nothing.',
        *(['use borrow.Author.Needs.{needs}'] if 'search needs' in text else []), *(['use mathlib.Core.Path.{refl}'] if ' refl)' in text else []),
        *(['use borrow.Author.Tests.{' + ', '.join(sorted(ways.laws)) + '}'] if ways.laws else []),
        f'use {own}.Statement.{{statement}}', f'use {own}.Tie as tie', *([f'use {opened[0]}.{{{opened[1]}}}'] if opened else []), '',
        f'pub {spec} : {{M : Type 1}} → statement M', *([f'unfolding {opened[1]}'] if opened else []), f'{spec} =', '    let met =',
        *([f'    tie.spec {answers[0]}'] if len(answers) == 1 else ['    tie.spec', *('    ' + line for line in answers)]), '    in tie.close met']


def dev(crate, *words):
    return subprocess.run(['rt', 'dev', crate, *words], env={**os.environ, 'RT_CUT': '0'}, stdout=subprocess.PIPE, stderr=subprocess.STDOUT, text=True).stdout


def written(crate):
    """Writes the files, and gives their paths. What the prover generates stands outside the repository, where no check finds it."""
    files = {}
    with tempfile.TemporaryDirectory() as folder:
        said = dev(crate, '--generated', folder)
        room = os.path.join(folder, f'Rattle·{crate}·proofs', 'proofs')
        for made in sorted(glob.glob(f'{room}/**/Proof.antt', recursive=True)) or sys.exit(f'tools/answers.py: nothing is generated for {crate}:\n{said[-2000:]}'):
            function, text = os.path.dirname(os.path.relpath(made, room)), open(made).read()
            file, path = f'crates/{crate}/proofs/{function}/Proof.antt', [crate, *function.split('/')]
            if os.path.exists(file) or '-- antt refused' not in text:
                continue
            if 'tie.Inv' in text or 'tie.Need-returns' not in text or True not in parts(path):
                print(f'{file}: not written: a loop, a lent record, or a promise that is no equation of the result')
                continue
            files[file] = path
            os.makedirs(os.path.dirname(file), exist_ok=True)
            with open(file, 'w') as out:
                out.write('\n'.join(proof(path, text, Ways(open(os.path.join(os.path.dirname(made), 'Lts.antt')).read(), path))) + '\n')
    return files


def verdict(file, path, said):
    """What the prover says of a file."""
    if re.search(rf'^fn {"::".join(path)}: proved$', said, re.M):
        return 'proved'
    bad = {int(line) for line, why in re.findall(rf'{re.escape(file)}:(\d+):\d+: error: (.*)', said) if SECOND_HAND not in why}
    return f'refused at line {", ".join(map(str, sorted(bad)))}' if bad else 'waits for what it rests on'


def main(names):
    for crate in names:
        files = written(crate)
        said = dev(crate) if files else ''
        for file, path in files.items():
            print(f'{file}: {verdict(file, path, said)}')


if __name__ == '__main__':
    main(sys.argv[1:] or sys.exit(__doc__))
