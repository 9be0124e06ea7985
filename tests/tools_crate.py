"""The small crate of tests/tools.py, with what it rests on: a function of each form that Rattle proves by itself, and one that has its answers. It stands here as text, since a
file of Rattle that no listed crate has fails the check.
"""

BASE = {
    'crates/base/src/lib.rt': '''#![tactic(auto)]

ghost use Rattle.std.specs.Prelude.{◌≡◌, ◌≤◌};
ghost use Rattle.base.specs.Weights.{weight_of};

// The weight of a bit.
pub fn weight(set: bool, w: u8) -> u8
    ensures { (result ≤ w) × (result ≡ weight_of set w) }
{
    if set { w } else { 0 }
}
''',
    'crates/base/specs/Lib.antt': 'pub mod Choice\npub mod Weights\n',
    'crates/base/specs/Choice.antt': '''use Rattle.std.specs.Prelude.{Bool, true, false}

abbrev pub pick {ℓ} : {A : Type ℓ} → Bool → A → A → A
pick true x y = x
pick false x y = y
''',
    'crates/base/specs/Weights.antt': '''use Rattle.std.specs.Prelude.{Bool, ℕ}
use Rattle.base.specs.Choice.{pick}

abbrev pub weight_of : Bool → ℕ → ℕ
weight_of set w = pick set w 0
''',
}
TOY = {
    'crates/toy/specs/Lib.antt': 'pub mod Toy\n',
    'crates/toy/specs/Toy.antt': '''use Rattle.std.specs.Prelude.{Bool, ℕ, ◌+◌, eqb, ltb}
use Rattle.base.specs.Choice.{pick}
use Rattle.base.specs.Weights.{weight_of}
use Rattle.toy.specs.declared.Size.{Size}
use Rattle.toy.specs.declared.Size.TheVariants.{Small, Large}

unfoldable pub size_of : ℕ → Size
size_of n = pick (ltb n 10) Small (Large n)

abbrev pub rest : Size → ℕ
rest Small = 0
rest (Large n) = n

abbrev pub price : ℕ → ℕ
price n = pick (eqb n 0) 7 (pick (eqb n 3) 9 1)

unfoldable pub bits : Bool → ℕ → ℕ
bits a n = weight_of a 128 + weight_of (eqb n 1) 1

abbrev pub least : ℕ → ℕ → ℕ
least a b = pick (ltb a b) a b
''',
    'crates/toy/proofs/Lib.antt': 'pub mod Laws\n',
    'crates/toy/proofs/Laws.antt': '''use Rattle.std.specs.Prelude.{◌≡◌, ℕ, ◌<◌, ◌≤◌}
use Rattle.std.proofs.Common.{lt-ltb, le-ltb}
use Rattle.toy.specs.Toy.{least}

pub first : (a b : ℕ) → a < b → a ≡ least a b
first a b less = simp (lt-ltb _ _ less)

pub second : (a b : ℕ) → b ≤ a → b ≡ least a b
second a b more = simp (le-ltb _ _ more)
''',
    'crates/toy/proofs/least_of/Answers.antt': '''use Rattle.toy.proofs.Laws.{first, second}
use Rattle.toy.proofs.least_of.Goals as goal

pub returns-then-less : goal.returns-then-less
returns-then-less c = first c.args.a c.args.b c.if-less.true

pub returns-else-less : goal.returns-else-less
returns-else-less c = second c.args.a c.args.b c.if-less.false
''',
    'crates/toy/src/lib.rt': '''#![tactic(auto)]

ghost use Rattle.std.specs.Prelude.{◌≡◌};
ghost use Rattle.toy.specs.Toy.{size_of, rest, price, bits, least};

#[derive(Clone, Copy)]
pub enum Size {
    Small,
    Large(u8),
}

// A plain if.
#[tactic(auto, unfolding(crate::specs::Toy::size_of))]
pub fn size_of(n: u8) -> Size
    ensures { result ≡ size_of n }
{
    if n < 10 { Size::Small } else { Size::Large(n) }
}

// A match on a call's result.
#[tactic(auto, unfolding(crate::specs::Toy::size_of))]
pub fn rest_of(n: u8) -> u8
    ensures { result ≡ rest (size_of n) }
{
    let s = size_of(n);
    match s {
        Size::Small => 0,
        Size::Large(m) => m,
    }
}

// A match on a number.
pub fn price_of(n: u8) -> u8
    ensures { result ≡ price n }
{
    match n {
        0 => 7,
        3 => 9,
        _ => 1,
    }
}

// Calls whose promise is a pair.
#[tactic(auto, unfolding(crate::specs::Toy::bits))]
pub fn bits_of(a: bool, n: u8) -> u8
    ensures { result ≡ bits a n }
{
    base::weight(a, 128) + base::weight(n == 1, 1)
}

// A law for each way out.
pub fn least_of(a: u8, b: u8) -> u8
    ensures { result ≡ least a b }
{
    let less = a < b;
    if less { a } else { b }
}
''',
    'crates.txt': 'base:\ntoy: base\n',
}
ANSWERED = ['least_of']
# What is wrong in each function: the proofs of the right one must not hold.
SLIPS = {
    'size_of': ('n < 10', 'n < 11'),
    'rest_of': ('Size::Small => 0', 'Size::Small => 1'),
    'price_of': ('3 => 9', '4 => 9'),
    'bits_of': ('weight(a, 128)', 'weight(a, 64)'),
    'least_of': ('a < b;', 'b < a;'),
}
