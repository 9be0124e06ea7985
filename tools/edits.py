"""The edits of crates/NAME/must-fail: their wrong answers, the parts of the crate that each changes, and whether it keeps the shape of the code."""
import collections
import glob
import os
import re

from crate_text import promise_of

Pair = collections.namedtuple('Pair', 'file old new')
Wrong = collections.namedtuple('Wrong', 'name said pairs')

TOKEN = re.compile(r'[A-Za-z_]\w*(?:(?:::|\.)\w+)*|\d\w*|=>|[^\s\w]')
BRANCHES = ('if', 'else', 'while', 'match', '=>', 'for', 'loop', 'return')


def edits(crate):
    return sorted(glob.glob(f'crates/{crate}/must-fail/*.edit'))


def label_of(path):
    return os.path.basename(path)[:-5]


def read_edit(path):
    """The wrong answers of an edit. One of several is headed `# name: what it says`; an edit of one has the file's name."""
    wrongs, file, old = [], None, None
    for line in open(path):
        line = line.rstrip('\n')
        if line.startswith('#'):
            wrongs.append([line[1:].strip(), []])
        elif line.startswith('file: '):
            file = line[6:]
        elif line.startswith('old: '):
            old = line[5:]
        elif line.startswith('new:'):
            if not wrongs:
                wrongs.append(['', []])
            wrongs[-1][1].append(Pair(file, old, line[4:].removeprefix(' ')))
    filled = [w for w in wrongs if w[1]]
    if len(filled) == 1:
        return [Wrong(label_of(path), ' '.join(w[0] for w in wrongs if w[0]), filled[0][1])]
    return [Wrong(*split_name(said), pairs) for said, pairs in filled]


def split_name(said):
    name, _, rest = said.partition(':')
    return name.strip(), rest.strip()


def write_edit(crate, name, wrongs):
    with open(f'crates/{crate}/must-fail/{name}.edit', 'w') as out:
        for w in wrongs:
            out.write(f'# {w.said if len(wrongs) == 1 else w.name + ": " + w.said}\n')
            file = None
            for p in w.pairs:
                if p.file != file:
                    out.write(f'file: {p.file}\n')
                    file = p.file
                out.write(f'old: {p.old}\nnew: {p.new}\n')


def line_of(crate, pair):
    text = open(f'{crate.root}/{pair.file}').read()
    return text.count('\n', 0, text.find(pair.old)) + 1


def changed(crate, wrong):
    """The parts that a wrong answer changes: of a function, its promise too where that is what changes. A function's own answers are no part."""
    places = {(crate.at(p.file, line_of(crate, p)), line_of(crate, p)) for p in wrong.pairs if not crate.owner(p.file)}
    parts = {part for part, _ in places} - {None}
    return parts | {promise_of(part) for part, line in places if part in crate.functions and line < crate.body_line(part)}


def together_in_text(crate, wrongs):
    """Whether the replacements of all these wrong answers can be made in one text."""
    texts = {}
    for p in [p for w in wrongs for p in w.pairs]:
        text = texts.setdefault(p.file, open(f'{crate.root}/{p.file}').read())
        if text.count(p.old) != 1:
            return False
        texts[p.file] = text.replace(p.old, p.new)
    return True


def operations(code):
    """What in a piece of code leaves the prover's user something to prove, or a way to go, in order: a proof file answers them one by one."""
    tokens, found = TOKEN.findall(code), []
    for before, token, after in zip([''] + tokens, tokens, tokens[1:] + ['']):
        divides = token in ('/', '%') and not after[0:1].isdigit()
        calls = after == '(' and re.fullmatch(r'(?:\w+(?:::|\.))*[a-z_]\w*', token) and token not in BRANCHES
        indexes = token == '[' and re.search(r'[\w\])]$', before)
        if token in BRANCHES + ('as', '+', '-', '*') or divides or indexes:
            found.append(token)
        elif calls:
            found.append('call')
    return found


def keeps_shape(crate, wrong):
    """Whether a proof of the right code fits the changed code still: operands, constants and tests may change, and promises and definitions, but no operation."""
    for p in wrong.pairs:
        part = crate.at(p.file, line_of(crate, p))
        if part in crate.functions and not crate.owner(p.file) and line_of(crate, p) >= crate.body_line(part) and operations(p.old) != operations(p.new):
            return False
    return True
