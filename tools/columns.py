#!/usr/bin/env python3
"""Keeps the lines of crates/ within 160 columns.

    columns.py            breaks the longer lines
    columns.py --check    names the files with longer lines, and those of src/ and specs/ with more than 250 lines; fails where there is one

A line is broken at a space where the fewest brackets are open, behind an `=` or before an operator where there is one, as far to the right as
fits; `rt fmt` lays out what was broken. A record or tuple gets a line for each part, a `use` line becomes several, and so does a comment. What a wrong answer
(crates/CRATE/must-fail) or a trial (trials.txt, trials_specs.txt) names stays on one line. In .rt files comments, `use` lines and clauses of contracts are
broken, and no code.
"""
import functools
import glob
import os
import re
import subprocess
import sys

WIDTH, LENGTH = 160, 250
# Where a break reads best, by the words that stand before and behind it, the best first.
BEHIND, BEFORE = '= in $'.split(), ['→ then else'.split(), '≡ ≤ < × ↔'.split(), '∙ ∷ ++ + - * && || ∘'.split()]
OPERATORS = sum(BEFORE, ['$', '↦'])
CLAUSES = 'requires', 'ensures', 'invariant', 'decreases', 'keeps'


def broken(text, kept=(), code=True):
    """The text with its lines within the width; what is kept stays on one line. Without code, comments, `use` lines and contracts alone are broken."""
    lines, todo = [], text.split('\n')[::-1]
    while todo:
        line = todo.pop()
        parts = parts_of(line, lines, kept, code) if len(line) > WIDTH else None
        if parts:
            todo += parts[::-1]
            join_comments(todo)
        else:
            lines.append(line)
    return '\n'.join(lines)


def parts_of(line, before, kept, code):
    """The line in two parts or more, the first of them within the width; None where it cannot be broken."""
    indent, word = len(line) - len(line.lstrip()), line.split()[0]
    if word in ('--', '//', '///'):
        return folded(line, indent, word)
    if re.match(r'\s*(?:(?:ghost|pub|unfoldable) )*use ', line):
        return used(line)
    if not code and word not in CLAUSES and not in_clause(before, indent):
        return None
    shut = held(line, kept)
    at = place(line, indent, shut, code)
    row = at and row_around(line, at)
    if not at or row and any({cut, cut + 1} <= shut for cut in [row[0], *row[1]]):
        return None
    if row:
        return parts_of_row(line, indent, *row)
    return [line[:at], ' ' * beneath(before, indent) + line[at + 1:]]


def folded(line, indent, mark):
    at = line.rfind(' ', indent + len(mark) + 1, WIDTH + 1)
    return None if at < 0 else [line[:at], ' ' * indent + mark + ' ' + line[at + 1:]]


def join_comments(todo):
    """Lets the comment that follows a broken one go on with its rest."""
    for mark in '-- ', '// ':
        if len(todo) > 2 and all(line.lstrip().startswith(mark) for line in todo[-3:]) and not todo[-3].lstrip()[3:].startswith(('-', ' ')):
            todo[-3:-1] = [todo[-2] + todo[-3].lstrip()[2:]]


def used(line):
    head, names, tail = re.fullmatch(r'(.*?\{)(.*)(\}.*)', line).groups()
    at = names.rfind(', ', 0, WIDTH - len(head) - len(tail) + 1)
    return None if at < 0 else [head + names[:at] + tail, head + names[at + 2:] + tail]


def in_clause(before, indent):
    """Whether a line of a .rt file goes on with the clause of a contract."""
    head = next((l for l in reversed(before) if len(l) - len(l.lstrip()) < indent), '')
    return head.split()[:1] and head.split()[0] in CLAUSES


def beneath(before, indent):
    """Where the text of an item goes on: four columns behind the item, and there already if the line itself goes on with one."""
    for line in reversed(before):
        left = len(line) - len(line.lstrip())
        if line.strip() and left < indent:
            return indent if indent - left == 4 and line.strip() != 'where' else indent + 4
    return indent + 4


def held(line, kept):
    """The columns that lie within something kept."""
    return {at for text in kept for found in re.finditer(re.escape(text), line) for at in range(found.start(), found.end())}


def place(line, indent, shut, code):
    """The space to break a line at: one before a field, `.name`, only where there is no other."""
    found, depth, quoted, inside = [], 0, False, code or '⌜' not in line
    for at, sign in enumerate(line[:WIDTH + 1]):
        quoted ^= sign == '"'
        inside |= sign == '⌜'
        depth += (sign in '({') - (sign in ')}')
        if sign == ' ' and at > indent + 4 and inside and not quoted and at not in shut:
            last, after = line[:at].split()[-1], line[at + 1:].split()[0]
            if after not in ('where', '=', '⌝') and last not in OPERATORS + ['λ', '⌜', 'pub', 'abbrev', 'record']:
                found.append((not after.startswith('.'), -depth, how_well(last, after), at))
    return max(found)[3] if found else None


def how_well(last, after):
    """How well a break between two words reads."""
    if last in BEHIND or last[-1] in ',;':
        return 3
    return max((3 - k for k, words in enumerate(BEFORE) if after in words), default=0)


def row_around(line, at):
    """The outermost record or tuple that begins before a column and ends behind it: where it opens, where its parts end, where it closes."""
    opened, rows = [], []
    for k, sign in enumerate(line):
        if sign in '({':
            opened.append((k, []))
        elif sign in ',;' and opened:
            opened[-1][1].append(k)
        elif sign in ')}' and opened:
            first, ends = opened.pop()
            if first < at < k and (sign == ')' and ends or line[:first].endswith('record ')):
                rows.append((first, ends, k))
    return min(rows, default=None)


def parts_of_row(line, indent, first, ends, last):
    """A record or tuple with a line for each part."""
    cuts = [first] + ends + [last]
    parts = [line[a + 1:b].strip() for a, b in zip(cuts, cuts[1:])]
    mark = ',' if line[first] == '(' else ';'
    return [line[:first + 1]] + [' ' * (indent + 2) + part + mark for part in parts if part] + [' ' * indent + line[last:]]


@functools.lru_cache(None)
def named_by_trials():
    """What the trials name, by file."""
    found, file, old = {}, None, False
    for path in glob.glob('tools/trials*.txt'):
        for line in open(path, encoding='utf-8'):
            line = line.rstrip('\n')
            if line.startswith('  in '):
                file = 'crates/' + line[5:].split(' fn ')[0]
            old = line.startswith('  - ') or old and line.startswith('    ')
            if old:
                found.setdefault(file, set()).add(line[4:].strip())
    return found


@functools.lru_cache(None)
def named_by_edits(crate):
    """What the wrong answers of a crate name, by file."""
    found, file = {}, None
    for path in glob.glob(f'crates/{crate}/must-fail/*.edit'):
        for line in open(path, encoding='utf-8'):
            line = line.rstrip('\n')
            if line.startswith('file: '):
                file = f'crates/{crate}/{line[6:]}'
            elif line.startswith('old: '):
                found.setdefault(file, set()).add(line[5:])
    return found


def files():
    return sorted(path for kind in ('antt', 'rt') for part in ('src', 'specs', 'proofs') for path in glob.glob(f'crates/*/{part}/**/*.{kind}', recursive=True))


def settle(paths):
    """Breaks the longer lines of these files of crates/, and has `rt fmt` lay out what was broken."""
    changed = set()
    for path in paths:
        text = open(path, encoding='utf-8').read()
        kept = named_by_edits(path.split('/')[1]).get(path, set()) | named_by_trials().get(path, set())
        new = broken(text, sorted(kept), path.endswith('.antt'))
        if new != text:
            changed.add('/'.join(path.split('/')[:2]))
            with open(path, 'w', encoding='utf-8') as out:
                out.write(new)
    for crate in sorted(changed):
        subprocess.run(['rt', 'fmt'], cwd=crate, check=True)


def check():
    said = []
    for path in files():
        lines = open(path, encoding='utf-8').read().split('\n')
        wide = [number for number, line in enumerate(lines, 1) if len(line) > WIDTH]
        if wide:
            said.append(f'{path}: more than {WIDTH} columns: line {", ".join(map(str, wide))}')
        if len(lines) - 1 > LENGTH and re.match(r'crates/\w+/(src|specs)/', path):
            said.append(f'{path}: {len(lines) - 1} lines, more than {LENGTH}')
    for line in said:
        print('tools/columns.py:', line)
    sys.exit(bool(said))


if __name__ == '__main__':
    if sys.argv[1:] == ['--check']:
        check()
    elif not sys.argv[1:]:
        settle(files())
    else:
        sys.exit(__doc__)
