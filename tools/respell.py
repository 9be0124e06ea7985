#!/usr/bin/env python3
"""Brings the repository's own names to today's spelling, once, after the kit's port.py: definitions in snake case (`weightOf` is `weight_of`), lemmas in snake case with a dash only before
the name of a definition (`parts-zero` is `parts_zero`, `length-words` stays), the proof of a function f by the name f_spec. Names of src/ stay. Run it at the top; with --check it only says which
names would fall together, and which would be hidden by a parameter or a variable.
"""
import collections
import os
import re
import sys

HEAD = re.compile(r'^(\s*)(?:(?:abbrev|unfoldable|pub|data|record|infix[lr]?\s+\d+)\s+)*([^\s:(){}.]+)(?:\s*(?:\{[^}]*\}|\([^)]*\)|ℓ))*\s*:(?!=)(\s|$)')
TOKEN = re.compile(r'[^\s(){}\[\],;.@"`|]+')
FN = re.compile(r'\bfn (\w+)(?:<[^>]*>)?\(([^{;]*?)\)((?:\s*->[^{\n]*)?)\n((?:\s+(?:requires|ensures)[^\n]*\n)*)')
# By hand, where the rule would make one name of two, or a name that something else has where it is cited.
BY_HAND = {
    'out2Falls': 'out2_falls',
    'din3Falls': 'din3_falls',
    'no_byte': 'no_byte_came',
    'at_most_one': 'at_most_one_lem',
    'bad-range': 'bad_range_lem',
    'bytes_read': 'bytes_read_lem',
    'counter-of': 'counter_of_lem',
    'digit-taken': 'digit_taken_lem',
    'effect-of': 'effect_of_lem',
    'fifo-of': 'fifo_of_lem',
    'first_taken': 'first_taken_lem',
    'fresh-of': 'fresh_of_lem',
    'in-progress': 'in_progress_lem',
    'kind-in': 'kind_in_lem',
    'letter-taken': 'letter_taken_lem',
    'line-done': 'line_done_lem',
    'line-said': 'line_said_lem',
    'no-load': 'no_load_lem',
    'oldest-of': 'oldest_of_lem',
    'pulse-counts': 'pulse_counts_lem',
    'pulse-loads': 'pulse_loads_lem',
    'quiet_by': 'quiet_by_lem',
    'refusal-in': 'refusal_in_lem',
    'state-of': 'state_of_lem',
    'ticks-in': 'ticks_in_lem',
    'turn-of': 'turn_of_lem',
    'value_in': 'value_in_lem',
    'whole-scans': 'whole_scans_lem',
    'wrong-lengths': 'wrong_lengths_lem',
}


def files(endings):
    for folder, dirs, names in os.walk('crates'):
        dirs[:] = sorted(d for d in dirs if d != 'out')
        for name in sorted(names):
            if name.endswith(endings):
                yield os.path.join(folder, name)


def of_function(path):
    return '/proofs/' in path and '/' in path.split('/proofs/')[1]


def declared():
    found = {}
    for path in files('.antt'):
        if of_function(path):
            continue
        for line in open(path, encoding='utf-8'):
            if line.lstrip().startswith('--'):
                continue
            m = HEAD.match(line)
            if m and m.group(2)[0].isalpha():
                found.setdefault(m.group(2), set()).add(path)
    return found


def snake(part):
    if not part or not part[0].islower():
        return part
    part = re.sub(r'(?<=[a-z0-9])(?=[A-Z])', '_', part)
    return re.sub(r'(?<=[A-Z])(?=[A-Z][a-z])', '_', part).lower()


def spelled(name, words):
    if name in BY_HAND:
        return BY_HAND[name]
    parts = [snake(p) for p in name.split('-')]
    out = parts[0]
    for p in parts[1:]:
        out += ('-' if p in words and out in words else '_') + p
    return out


def table():
    names = declared()
    words = {snake(n) for n in names if '-' not in n}
    return names, {n: t for n in [*names, *BY_HAND] if (t := spelled(n, words)) != n}


def check(names, new):
    made = collections.defaultdict(set)
    for n in names:
        made[new.get(n, n)].add(n)
    for t, olds in sorted(made.items()):
        if len(olds) > 1:
            print('fall together:', t, {o: sorted(names[o])[:2] for o in sorted(olds)})
    for path in files(('.antt',)):
        tokens = set(TOKEN.findall(open(path, encoding='utf-8').read()))
        for n in sorted(tokens & set(new)):
            if new[n] in tokens:
                print('in one file:', path, n, new[n])
    for path in files(('.rt',)):
        text = open(path, encoding='utf-8').read()
        for m in FN.finditer(text):
            params = set(re.findall(r'(?:mut )?(\w+):', m.group(2)))
            for n in sorted(set(TOKEN.findall(m.group(4))) & set(new)):
                if new[n] in params:
                    print('hidden by a parameter:', path, m.group(1), n, new[n])


def main():
    names, new = table()
    check(names, new)
    if '--check' in sys.argv:
        return
    for path in files(('.antt', '.rt')):
        with open(path, encoding='utf-8') as f:
            text = f.read()
        after = TOKEN.sub(lambda m: new.get(m.group(), m.group()), text)
        if of_function(path):
            function = path.split('/')[-2]
            after = re.sub(r"(?<![\w'-])" + re.escape(function.replace('_', '-')) + r"-spec(?![\w'-])", function + '_spec', after)
        if after != text:
            with open(path, 'w', encoding='utf-8') as f:
                f.write(after)


main()
