"""The parts of a crate's text, and what each rests on.

A part is a function or constant of src/, a definition, law or record of specs/, or a lemma of a file that proofs share. `Crate.rests(part)` is what the
prover looks at when it judges the part: what its text, its contract, its own proof files and the contracts of the functions that it calls name, and what
those name in turn. Names are matched as words, whatever they mean at their place, so a part may be said to rest on more than it does and never on less.
"""
import collections
import functools
import glob
import os
import re

Part = collections.namedtuple('Part', 'file name')

FUNCTION = re.compile(r'^(pub )?(?:extern "C" )?fn (\w+)', re.M)
CONSTANT = re.compile(r'^(?:pub )?(?:const|struct|enum) (\w+)', re.M)
HEADER = re.compile(r'^( *)(?:(?:pub|abbrev|opaque|unfoldable) )*(?:(?:record|data) ([^\s:({]+)|([^\s:({]+) :(?=\s|$))')
MODULE = re.compile(r'^( *)module .*')


def promise_of(function):
    """A function's promise, as a part that its callers rest on: they do not rest on its body."""
    return Part(function.file, function.name + ' promises')


def is_promise(part):
    return part.name.endswith(' promises')


def listed_crates():
    return sorted(os.path.basename(d) for d in glob.glob('crates/*') if os.path.isdir(d + '/src'))


def words(text, modules=()):
    """The names in a text; a record's field after a value, `x.held`, is none. What stands after a module's name is one."""
    text = re.sub(r'(?<=[)\]])(?:\.[^\s(){}\[\],;.]+)+', ' ', text)
    text = re.sub(r"(?<![\w'.])([a-z][^\s(){}\[\],;.`\"]*)((?:\.[^\s(){}\[\],;.]+)+)", lambda m: m.group(0) if m.group(1) in modules else m.group(1), text)
    return set(re.findall(r'[^\s(){}\[\],;.`"]+', text))


def without_comments(text, mark):
    return '\n'.join('' if line.lstrip().startswith(mark) else line for line in text.split('\n'))


def line_of(text, at):
    return text.count('\n', 0, at) + 1


def source_parts(file, text):
    """Functions, constants and types of a file of src/: part to (first line, last line, text, whether public)."""
    found = {}
    for kind in FUNCTION, CONSTANT:
        for m in kind.finditer(text):
            end = text.find('\n}\n', m.start()) + 2 if kind is FUNCTION else text.find('\n\n', m.start())
            end = end if end > m.start() else len(text)
            public = bool(m.group(1)) if kind is FUNCTION else False
            found[Part(file, m.group(m.lastindex))] = (line_of(text, m.start()), line_of(text, end), text[m.start():end], public)
    return found


def attributes(text, line):
    """What stands in attributes right before a line, its paths as words."""
    above = re.search(r'(?:^#\[(?:[^\n]|\n(?! *#\[|\n))*\n)*\Z', ''.join(one + '\n' for one in text.split('\n')[:line - 1]), re.M)
    return re.sub(r'::|#', ' ', above.group()) + '\n' if above else ''


def without_calls(text):
    """A function's text without the names of functions: a definition may have the name of one."""
    return re.sub(r'(?:\bfn )?\b\w+(?=\()', ' ', text)


def logic_parts(file, text):
    """Declarations of an antt file: part to (first line, last line, text). Those of a module carry the module's parameters."""
    found, modules, current = {}, [(0, '')], None                         # a module: the indent of its body, its parameters
    for number, line in enumerate(without_comments(text, '--').split('\n'), 1):
        if not line.strip():
            continue
        indent = len(line) - len(line.lstrip())
        while len(modules) > 1 and indent < modules[-1][0]:
            modules.pop()
        head = HEADER.match(line) if indent == modules[-1][0] and not line.lstrip().startswith('use ') else None
        if MODULE.match(line):
            modules.append((indent + 2, modules[-1][1] + ' ' + line))
            current = None
        elif head:
            current = Part(file, head.group(2) or head.group(3))
            found.setdefault(current, [number, number, modules[-1][1]])
        elif current is None and len(modules) > 1:
            modules[-1] = (modules[-1][0], modules[-1][1] + ' ' + line)
        if current:
            found[current][1] = number
            found[current][2] += '\n' + line
    return {part: tuple(value) for part, value in found.items()}


# A proof's lines for the modules that the prover makes of the function itself: the names in their paths are those of src/.
OWN_MODULES = re.compile(r'^use Rattle\.\w+\.proofs\.\S+\.(?:Goals|Statement|Tie|Reads|Lts)\b.*$', re.M)


class Crate:
    def __init__(self, name):
        self.name, self.root = name, f'crates/{name}'
        self.functions, self.others, self.logic, self.aliases, self.uses, self.attributes = {}, {}, {}, {}, {}, {}
        for path in sorted(glob.glob(f'{self.root}/src/*.rt')):
            file, text = os.path.relpath(path, self.root), open(path).read()
            self.aliases[file] = re.findall(r'([^\s{},]+) as ([^\s{},;]+)', text)
            self.uses[file] = '\n'.join(' '.join(used.split()) for used in re.findall(r'^(?:pub )?use [^;]*;', text, re.M))
            for part, value in source_parts(file, text).items():
                (self.functions if value[2].lstrip().startswith(('fn', 'pub fn', 'extern', 'pub extern')) else self.others)[part] = value
                self.attributes[part] = attributes(text, value[0])
        self.proof_files = {}
        for path in sorted(glob.glob(f'{self.root}/specs/**/*.antt', recursive=True) + glob.glob(f'{self.root}/proofs/**/*.antt', recursive=True)):
            file, text = os.path.relpath(path, self.root), open(path).read()
            owner = self.owner(file)
            if owner:
                text = OWN_MODULES.sub('', text)
            self.aliases[file] = re.findall(r'([^\s{},]+) as ([^\s{},;]+)', text)
            if owner:
                self.proof_files.setdefault(owner, []).append((file, without_comments(text, '--')))
            else:
                self.logic.update(logic_parts(file, text))
        self.by_word = collections.defaultdict(set)
        for part in [*self.logic, *self.others]:
            for word in {part.name, *part.name.split('◌')} - {''}:
                self.by_word[word].add(part)

    def owner(self, file):
        """The function whose proof a file is: proofs/F/.. or proofs/MODULE/F/.."""
        folders = file.split('/')[1:-1] if file.startswith('proofs/') else []
        for source, name in [('lib', folders[:1]), ('main', folders[:1]), (folders[0] if folders else '', folders[1:2])]:
            part = Part(f'src/{source}.rt', name[0] if name else '')
            if part in self.functions:
                return part
        return None

    def named(self, file, text):
        """The parts of specs/ and shared proofs, the constants and the types that a text names."""
        aliases = self.aliases.get(file, ())
        here = words(text, {alias for _, alias in aliases})
        # A crate's name in a module's path is no part, also where a part has that name.
        given_in = lambda given: re.sub(r'^Rattle\.\w+\.', '', given)
        here |= {w for given, alias in aliases if alias in here for w in words(given_in(given), {given_in(given).split('.')[0]})}
        return set().union(*(self.by_word[w] for w in here if w in self.by_word))

    @functools.lru_cache(None)
    def direct(self, part):
        if part in self.functions:
            found = self.named(part.file, self.attributes[part] + without_calls(self.functions[part][2]))
            for file, proof in self.proof_files.get(part, ()):
                found |= self.named(file, proof)
            for callee in self.called(part):
                found |= self.named(callee.file, without_calls(contract(self.functions[callee][2]))) | {promise_of(callee)}
        elif is_promise(part):
            found = set()
        else:
            found = self.named(part.file, (self.logic.get(part) or self.others[part])[2])
        return frozenset(found - {part})

    @functools.lru_cache(None)
    def rests(self, part):
        return all_ways(self.direct, part)

    @functools.lru_cache(None)
    def called(self, part):
        """The functions of the crate that a function calls itself: by the name alone in its own file, or where a `use` line brings it, and else by its module."""
        text = self.functions[part][2]
        return frozenset(k for k in self.functions if k != part and re.search(r'(?<!fn )(?<![\w:])' + self.path_to(k, part.file) + k.name + r'\(', text))

    def path_to(self, function, file):
        module = os.path.basename(function.file)[:-3]
        path = r'(?:crate|super)::' if module in ('lib', 'main') else r'(?:(?:crate|super)::)?' + module + '::'
        brought = re.search(rf'^(?:pub )?use .*\b{function.name}\b', self.uses.get(file, ''), re.M)
        return f'(?:{path})?' if function.file == file or brought else path

    @functools.lru_cache(None)
    def reached(self, part):
        """The functions of the crate that a function calls, by any way."""
        return all_ways(self.called, part)

    def at(self, file, line):
        """The part of src/, specs/ or proofs/ that has this line of a file; a function, for a line of its own proof."""
        owner = self.owner(file)
        if owner:
            return owner
        for parts in self.functions, self.others, self.logic:
            for part, value in parts.items():
                if part.file == file and value[0] <= line <= value[1]:
                    return part
        return None

    def body_line(self, function):
        """The line on which a function's body begins."""
        first, _, text, _ = self.functions[function]
        return first + contract(text).count('\n') + 1

    def is_law(self, part):
        """Whether a declaration states something that the prover can refuse, as a definition does not."""
        if part not in self.logic:
            return False
        head = re.search(r'^ *((?:(?:pub|abbrev|opaque|unfoldable|record|data) )*)\S*' + re.escape(part.name) + r'(?=[\s:({]|$)', self.logic[part][2], re.M)
        return bool(head) and not re.search(r'abbrev|opaque|unfoldable|record|data', head.group(1))

    def full_name(self, part):
        module = os.path.basename(part.file)[:-3]
        return '::'.join([self.name] + ([] if module in ('lib', 'main') else [module]) + [part.name])


def all_ways(step, start):
    """What `step` leads to from a part, in one step or more."""
    seen, todo = set(), [start]
    while todo:
        for one in step(todo.pop()) - seen:
            seen.add(one)
            todo.append(one)
    return frozenset(seen)


def contract(text):
    """A function's text up to its body: parameters, requires and ensures."""
    return text.split('\n{\n')[0]
