"""What the crates' sources say: the declared types and how they lie in memory, and the thin functions over a lent board.

Types lie as Rattle lays them, structs as C does: each field at the next multiple of its alignment; a type is aligned as its most aligned field, and its
size is a multiple of that. An enum is its longest variant behind a tag of one byte.
"""
import glob
import os
import re
from collections import namedtuple

# The variants of a type are its lists of fields, (name, type), by name; a struct has one, which has the struct's name.
Declared = namedtuple('Declared', 'crate is_enum variants')
# A variant of an enum whose variants hold nothing.
Variant = namedtuple('Variant', 'type name')
# A function over a lent board: what it calls (a path), a variant that it passes on before its own parameters (or None), the event of its contract, or the number of ticks (a term)
# with the variants that this names, whether it tests the lengths first, and which part of the record it stores, '' where it stores the whole.
Thin = namedtuple('Thin', 'name parameters callee built event named tested part')

SCALARS = {'bool': 1, 'u8': 1, 'i8': 1, 'u16': 2, 'i16': 2, 'u32': 4, 'i32': 4, 'f32': 4, 'u64': 8, 'i64': 8, 'f64': 8, 'usize': 8, 'isize': 8}
LENT = [('board', '&mut Board'), ('memory', '&mut [u16]'), ('eeprom', '&mut [u8]')]


def texts(crate):
    """The sources of a crate, without comments."""
    return [re.sub(r'//.*', '', open(path).read()) for path in sorted(glob.glob(f'crates/{crate}/src/*.rt'))]


def fields_in(text):
    """The fields in `name: type, ..` or `type, ..`; those of the second form have no name."""
    return [re.fullmatch(r'(?:(?:pub )?(\w+): )?(.*)', field.strip()).groups() for field in text.split(',') if field.strip()]


class Types:
    """The types that the libraries declare."""

    def __init__(self):
        self.found = {}
        for path in sorted(glob.glob('crates/*/src/lib.rt')):
            crate = path.split(os.sep)[1]
            for text in texts(crate):
                for kind, name, body in re.findall(r'^(?:pub )?(struct|enum) (\w+) \{\n(.*?)^\}', text, re.M | re.S):
                    self.found.setdefault(name, []).append(Declared(crate, kind == 'enum', self.variants(kind, name, body)))

    @staticmethod
    def variants(kind, name, body):
        if kind == 'struct':
            return {name: fields_in(body)}
        return {v: fields_in(fields) for v, fields in re.findall(r'^    (\w+)(?: ?[{(](.*?)[})])?,$', body, re.M | re.S)}

    def declared(self, name):
        found = self.found.get(name, [])
        if len(found) != 1:
            raise SystemExit(f'tools/walks.py: {name} is declared in {len(found)} libraries, and must be in one')
        return found[0]

    def is_enum(self, name):
        return name not in SCALARS and self.declared(name).is_enum

    def alignment(self, kind):
        if kind in SCALARS:
            return SCALARS[kind]
        if kind.startswith('['):
            return self.alignment(element(kind))
        return max([1] + [self.alignment(t) for fields in self.declared(kind).variants.values() for _, t in fields])

    def size(self, kind):
        if kind in SCALARS:
            return SCALARS[kind]
        if kind.startswith('['):
            return self.size(element(kind)) * length(kind)
        declared = self.declared(kind)
        tag = 1 if declared.is_enum else 0
        return up(self.alignment(kind), max(self.end(tag, fields) for fields in declared.variants.values()))

    def end(self, start, fields):
        """Where the last of these fields ends, if they stand from start on."""
        for _, t in fields:
            start = up(self.alignment(t), start) + self.size(t)
        return start

    def field(self, struct, name):
        """The type of a struct's field, and where it lies."""
        fields, k = self.declared(struct).variants[struct], self.place(struct, name)
        return fields[k][1], up(self.alignment(fields[k][1]), self.end(0, fields[:k]))

    def place(self, struct, name):
        """Which of a struct's fields it is, from 0 on."""
        return [n for n, _ in self.declared(struct).variants[struct]].index(name)


def up(k, e):
    """The next multiple of k from e on."""
    return e + -e % k


def element(array):
    return array[1:-1].split(';')[0].strip()


def length(array):
    return int(array[1:-1].split(';')[1])


CONTRACT = r'CONTRACT \w+ \(now \(board \.entry\)\) \(now \(memory \.entry\)\) \(now \(eeprom \.entry\)\) (.*) r \(now \(board \.exit\)\)'
CALL = r'let out = ([\w:]+)\(\s*\*board,\s*memory,\s*eeprom,?\s*(.*?),?\s*\);'
STORE = r'(?:\*board = out\.board|board\.(\w+) = out\.\1);'
TEST = 'if (memory.len() != 512) | (eeprom.len() != 128) { return 0x62000000; }'


def home(path):
    """Where a function is declared: a crate may pass on another's."""
    crate, *rest = path.split('::')
    passed = re.search(rf'^pub use ([\w:]+::{rest[-1]});', '\n'.join(texts(crate)), re.M) if len(rest) == 1 else None
    return home(passed[1]) if passed else path


def thin_functions(crate, contract, part):
    """The functions of a crate that call `CALLEE(*board, memory, eeprom, ..)` over a lent board, whose contract is this record, and which store this part of it, in
    the order written."""
    found = []
    for text in texts(crate):
        for name, parameters, body in re.findall(r'^pub (?:extern "C" )?fn (\w+)\((.*?)\) -> \w+\n(.*?)^\}', text, re.M | re.S):
            call = re.search(CALL, body, re.S)
            if call and contract + ' ' in body:
                found.append(thin(name, fields_in(parameters), home(call.group(1)), call.group(2), body, contract))
    found = [function for function in found if function.part == part]
    if not found:
        raise SystemExit(f'tools/walks.py: no function of {crate} calls another over a lent board')
    return found


def thin(name, parameters, callee, passed, body, contract):
    """The function that passes these arguments on beside what is lent."""
    lent, own = parameters[:3], parameters[3:]
    body = ' '.join(body.split())
    event, stored = re.search(CONTRACT.replace('CONTRACT', contract), body), re.search(STORE, body)
    built = re.match(r'(\w+)::(\w+)(?:, |$)', passed)
    rest = passed[built.end():] if built else passed
    if lent != LENT or not event or not stored or [word for word in rest.split(', ') if word] != [p for p, _ in own]:
        raise SystemExit(f'tools/walks.py: {name} is not of the shape that the walks have')
    named = [Variant(*of) for of in re.findall(r'(\w+)\.(\w+)', event.group(1))]
    term = re.sub(r'\w+\.(\w+)', r'\1', event.group(1))
    return Thin(name, own, callee.split('::'), Variant(*built.groups()) if built else None, term, named, TEST in body, stored.group(1) or '')
