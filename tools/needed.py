#!/usr/bin/env python3
"""What a crate lists in crates.txt, and what it needs there.

    needed.py            fails where a crate lists a library that it does not need: a check loads what is listed, so it would cost time for nothing
    needed.py CRATE...   the libraries that these need at the most, in the order of crates.txt

A crate needs the libraries whose items its code names (`fifo::pop`), those whose definitions its specs, proofs and promises name (`Rattle.fifo.specs`), and those
that declare a type which a value in its functions has or holds at any depth. What only the promises or proofs of other libraries rest on is found without
being listed. The last kind is found by names alone, so a crate may need less than is said here.
"""
import glob
import os
import re
import sys


def read_lists(path='crates.txt'):
    """crates.txt: each crate to what it lists."""
    return {m.group(1): m.group(2).split() for m in re.finditer(r'^(\w+)(?: +staticlib)? *:([^#\n]*)', open(path).read(), re.M)}


def paths_of(used):
    """The paths that a `use` line names, `a::{b, c::d}` as two."""
    head, brace, rest = ''.join(used.split()).partition('{')
    if not brace:
        return [head]
    inner, depth, parts = rest[:rest.rindex('}')], 0, ['']
    for sign in inner:
        depth += (sign == '{') - (sign == '}')
        if sign == ',' and not depth:
            parts.append('')
        else:
            parts[-1] += sign
    return [head + path for part in parts if part for path in paths_of(part)]


class Sources:
    """The code of all crates: types, functions' signatures and `use` lines, by (crate, module)."""

    def __init__(self, lists):
        self.crates, self.kit = list(lists), sorted({d for listed in lists.values() for d in listed} - set(lists))
        self.text, self.types, self.signatures, self.uses = {}, {}, {}, {}
        for crate in self.crates:
            for path in glob.glob(f'crates/{crate}/src/*.rt'):
                module = os.path.basename(path)[:-3]
                self.read(crate, '' if module in ('lib', 'main') else module, re.sub(r'//[^\n]*', '', open(path).read()))

    def read(self, crate, module, text):
        self.text[crate, module] = text
        for m in re.finditer(r'\b(?:struct|enum) (\w+)(?:<[^>]*>)?\s*(\{.*?\n\}|\(.*?\);|\{[^}]*\})', text, re.S):
            self.types[crate, module, m.group(1)] = m.group(2)
        for m in re.finditer(r'\bfn (\w+)(.*?)(?=\n\{|\n    (?:requires|ensures)|\{)', text, re.S):
            self.signatures[crate, module, m.group(1)] = m.group(2)
        self.uses[crate, module] = {path.split('::')[-1]: path for m in re.finditer(r'^\s*(?:pub )?use ([^;]+);', text, re.M) for path in paths_of(m.group(1))}

    def found(self, crate, module, path, seen=()):
        """Where a path that stands in a module leads: (crate, module, name), or None."""
        key, parts = (crate, module, path), path.split('::')
        if key in seen:
            return None
        uses = self.uses.get((crate, module), {})
        if len(parts) == 1:
            if key in self.types or key in self.signatures:
                return key
            return self.found(crate, module, uses[path], seen + (key,)) if path in uses else None
        if parts[0] in ('crate', 'super', 'self'):
            inner = parts[1:]
        elif (crate, parts[0]) in self.text:
            inner = parts
        elif parts[0] in self.crates:
            crate, inner = parts[0], parts[1:]
        elif parts[0] in uses:
            return self.found(crate, module, '::'.join([uses[parts[0]]] + parts[1:]), seen + (key,))
        else:
            return (crate, module, parts[0]) if (crate, module, parts[0]) in self.types else None
        module = inner[0] if len(inner) > 1 and (crate, inner[0]) in self.text else ''
        return self.found(crate, module, inner[1 if module else 0], seen + (key,))

    def held(self, key, done):
        """The types that a type holds, with itself, at any depth."""
        if key not in done:
            done.add(key)
            for word in set(re.findall(r'[\w:]*\b[A-Z]\w*', self.types[key])):
                inner = self.found(key[0], key[1], word)
                if inner in self.types:
                    self.held(inner, done)

    def libraries_of_values(self, crate):
        done = set()
        if not any(key[0] == crate for key in self.signatures):
            return done
        for (owner, module), text in self.text.items():
            for word in set(re.findall(r'(?<![\w:.])[a-zA-Z_]\w*(?:::\w+)*', text)) if owner == crate else ():
                key = self.found(crate, module, word)
                if key in self.types:
                    self.held(key, done)
                for name in set(re.findall(r'[\w:]*\b[A-Z]\w*', self.signatures.get(key, ''))):
                    inner = self.found(key[0], key[1], name)
                    if inner in self.types:
                        self.held(inner, done)
        return {key[0] for key in done}

    def libraries_named(self, crate):
        named = set()
        for path in glob.glob(f'crates/{crate}/**/*', recursive=True):
            if path.endswith(('.rt', '.antt')):
                text = open(path).read()
                code = re.sub(r'//[^\n]*', '', text) if path.endswith('.rt') else ''
                named |= {d for d in [*self.crates, *self.kit] if re.search(rf'\bRattle\.{d}\.', text)
                          or (crate, d) not in self.text and re.search(rf'(?<![\w:]){d}::', code)}
        return named

    def needed(self, crate):
        need = (self.libraries_named(crate) | self.libraries_of_values(crate)) - {crate}
        return [d for d in [*self.crates, *self.kit] if d in need]


def main(names):
    lists = read_lists()
    sources = Sources(lists)
    for name in names:
        print(f'{name}: ' + ' '.join(sources.needed(name)))
    idle = []
    for name, listed in lists.items() if not names else ():
        need = sources.needed(name)
        idle += [f'{name} lists {d}' for d in listed if d not in need]
    for line in idle:
        print('tools/needed.py:', line, 'and does not need it')
    sys.exit(bool(idle))


if __name__ == '__main__':
    main(sys.argv[1:])
