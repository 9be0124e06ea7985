"""What the proofs say of a parameter p, by its type, and how antt writes lists and pairs."""


class Number:
    """An unsigned integer."""

    meaning, rule = 'ℕ', 'uint'

    def __init__(self, row):
        self.row, self.bits = row, row[1:]
        self.width = 'w' + self.bits
        self.type = f'(tyInt {self.width})'
        self.makes = f'({self.rule}-makes 𝓤 H A W {self.width})'
        self.vals, self.tells = f'{self.rule}-vals {self.width}', f'{self.rule}-tells {self.width}'

    def value(self, p): return f'vint {self.width} {p}'
    def typed(self, p): return f'(tt, record {{ fits = {p}-fits }})'
    def holds(self, p): return f'(refl, {p}-fits)'
    def known(self, p): return f' ({p}-fits : {p} < 2 ^ {self.bits})'
    def told(self, are): return f'({are} .1) '


class Signed(Number):
    """A signed integer."""

    meaning, rule = 'ℤ', 'sint'

    def value(self, p): return f'vint {self.width} (ofZ {self.width} {p})'
    def typed(self, p): return f'(tt, ofZ-fits {self.width} {p} (record {{ sfits = {p}-fits }}))'
    def known(self, p): return f' ({p}-fits : mag {p} < 2 ^ hbits {self.width})'


class Flag:
    """A bool, of which nothing need be known."""

    row, type, meaning, makes, vals, tells = 'Builtin.bool', 'tyBool', 'Bool', '(bool-makes 𝓤 H A W)', 'bool-vals', 'bool-tells'

    def value(self, p): return f'vbool {p}'
    def typed(self, p): return '(tt, tt)'
    def holds(self, p): return 'refl'
    def known(self, p): return ''
    def told(self, are): return ''


class Declared:
    """A struct or an enum, with the laws of its kind. Its modules are in use under its name with ᴿ and ᴸ, or under the names given."""

    def __init__(self, name, is_enum, the=None, these=None):
        self.meaning, self.laws, self.tag = name, 'EL' if is_enum else 'LL', 'tt ' if is_enum else ''
        the, these = the or name + 'ᴿ', these or name + 'ᴸ'
        self.type = f'{these}.mir'
        self.row, self.both = f'{the}.the-row', f'{the}.the-type {these}.the-laws'
        self.makes = f'({self.laws}.makes {the}.the-type {these}.the-plain 𝓤 H A)'
        self.vals, self.tells = f'(λ y. {self.value("y")} ∷ [])', f'{self.laws}.tells {self.both}'

    def value(self, p): return f'{self.laws}.val {self.both} {p}'
    def typed(self, p): return f'({self.laws}.lawful {self.both} 𝓤 H A W {self.tag}.typed {p} _ {p}-is .0)'
    def holds(self, p): return f'{p}-is'
    def known(self, p): return f' ({p}-is : Is {self.row} {p} ({self.value(p)} ∷ []))'
    def told(self, are): return f'({are}) '


def of(kind, types):
    """The terms of a type, given its name in the sources."""
    if kind == 'bool':
        return Flag()
    if kind[1:].isdigit():
        return Number(kind) if kind[0] == 'u' else Signed(kind)
    return Declared(kind, types.is_enum(kind))


def listed(xs): return '(' + ' ∷ '.join(map(str, xs)) + ' ∷ [])'
def chained(types): return ' × ('.join(types + ['Unit {0}']) + ')' * len(types)
def local(i): return 'l' + str(i).translate(str.maketrans('0123456789', '₀₁₂₃₄₅₆₇₈₉'))
def loaded(places): return ''.join(f'(and-then ! (load ! (from ! (stop !)) (look ! {i} refl)) ' for i in places) + '(no-more !)' + ')' * len(places)


def paired(xs, rest='tt'):
    text = rest
    for x in reversed(xs):
        text = f'({x}, {text})'
    return text
