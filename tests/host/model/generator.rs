//! Random steps: stretches of one kind of use after another, with misuse and damage in between.

use crate::event::Event;
use crate::fields::{field_kind, field_number, Kind, FIELD_COUNT};
use crate::random::Random;
use crate::record::Fifo;
use crate::step::{Change, Lent, Start, Step, EEPROM_ROOM, MEMORY_ROOM};
use crate::uses::{Use, User};
use crate::working::{is_working, EEPROM_LENGTH, MEMORY_LENGTH};

/// Numbers at and around the limits of the fields.
const EDGES: [u16; 36] = [
    0, 1, 2, 3, 4, 5, 7, 8, 15, 16, 18, 20, 31, 32, 44, 48, 52, 60, 63, 64, 99, 100, 101, 127, 128,
    155, 255, 256, 511, 512, 513, 999, 1000, 4095, 4096, 65535,
];

/// How often a change is drawn again until it does what is wanted.
const DRAWS: u32 = 50;

pub struct Generator {
    random: Random,
    kind: Use,
    left: u32,
}

impl Generator {
    pub fn new(seed: u64) -> Generator {
        Generator { random: Random::new(seed), kind: Use::Chaos, left: 0 }
    }

    /// The jumpers that a run starts with.
    pub fn start(&mut self) -> Start {
        Start { jumpers: self.random.below(4), zero_scale: self.random.below(2) }
    }

    /// The next step for a board as it stands.
    pub fn next(&mut self, lent: &Lent) -> Step {
        if self.left == 0 {
            self.kind = self.random.pick(&Use::ALL);
            self.left = 1 + self.random.below(self.kind.longest());
        }
        self.left -= 1;
        let event = User { random: &mut self.random, board: &lent.board }.event(self.kind);
        let mut step = Step::plain(event);
        step.by_record = self.random.once_in(2);
        if event == Event::Tick && self.random.once_in(8) {
            step.event = Event::Advance { ticks: self.many_ticks() };
        }
        match self.random.below(240) {
            0 => self.lend_wrong_lengths(&mut step),
            1..=4 => self.damage(&mut step, lent),
            5 | 6 => self.arrange(&mut step, lent),
            7 => self.rearrange_memories(&mut step, lent),
            8 | 9 => step.event = self.misuse(lent),
            _ => {}
        }
        step
    }

    /// In place of one tick; now and then so many that each divider comes round.
    fn many_ticks(&mut self) -> u32 {
        let most = self.random.pick(&[1, 3, 30, 30, 250, 2500]);
        self.random.below(most + 1)
    }

    /// An event that a board may refuse.
    fn misuse(&mut self, lent: &Lent) -> Event {
        User { random: &mut self.random, board: &lent.board }.misuse()
    }

    fn lend_wrong_lengths(&mut self, step: &mut Step) {
        let memory_lengths = [0, 1, 256, 511, 513, MEMORY_ROOM];
        let eeprom_lengths = [0, 1, 127, 129, EEPROM_ROOM];
        let which = self.random.below(3);
        if which != 0 {
            step.memory_length = self.random.pick(&memory_lengths);
        }
        if which != 1 {
            step.eeprom_length = self.random.pick(&eeprom_lengths);
        }
        if self.random.once_in(4) {
            step.changes = vec![self.any_change()];
        }
    }

    fn any_field(&mut self) -> usize {
        self.random.below(FIELD_COUNT as u32) as usize
    }

    /// Any number for a field; for a flag often one that it may have.
    fn any_value(&mut self, field: usize) -> u16 {
        if field_kind(field).is_flag() && self.random.once_in(2) {
            self.random.below(2) as u16
        } else if self.random.once_in(3) {
            self.random.word()
        } else {
            self.random.pick(&EDGES)
        }
    }

    fn any_change(&mut self) -> Change {
        let field = self.any_field();
        Change::Field { field, value: self.any_value(field) }
    }

    /// Any place of the sample memory, often the one behind the newest sample or before the oldest.
    fn some_place(&mut self, fifo: &Fifo) -> usize {
        let (held, place) = (usize::from(fifo.held), usize::from(fifo.place));
        match self.random.below(4) {
            0 => (place + held) % MEMORY_LENGTH,
            1 => (place + MEMORY_LENGTH - 1) % MEMORY_LENGTH,
            _ => self.random.below(MEMORY_LENGTH as u32) as usize,
        }
    }

    /// So many samples, standing anywhere on the circle, often round its end.
    fn held_somewhere(&mut self, held: u16) -> Change {
        let length = MEMORY_LENGTH as u32;
        let place = match self.random.below(4) {
            _ if held == 0 => 0,
            0 => 0,
            1 => length - 1,
            2 => (length - self.random.below(u32::from(held))) % length,
            _ => self.random.below(length),
        };
        Change::Held { held, place: place as u16, first: self.random.word() }
    }

    /// A change after which the board does not work: a field out of its range, or a free place not 0.
    fn damage(&mut self, step: &mut Step, lent: &Lent) {
        let in_memory = self.random.once_in(8);
        let field = self.any_field();
        for _ in 0..DRAWS {
            let change = if in_memory {
                let place = self.some_place(&lent.board.fifo);
                Change::Place { place, value: 1 << self.random.below(16) }
            } else if field_kind(field) == Kind::Any {
                return;
            } else {
                Change::Field { field, value: self.any_value(field) }
            };
            if !works_after(lent, &[change]) {
                step.changes = vec![change];
                return;
            }
        }
    }

    /// Changes after which the board works still, in a state that events may not lead to.
    fn arrange(&mut self, step: &mut Step, lent: &Lent) {
        match self.random.below(8) {
            0 => self.unprogram(step),
            1 => self.wind_dividers(step),
            _ => self.arrange_anything(step, lent),
        }
    }

    /// A counter as before its first control word.
    fn unprogram(&mut self, step: &mut Step) {
        let counter = format!("clocks.timer.counter{}", self.random.below(3));
        for (name, value) in [("control", 0), ("count.out", 1)] {
            let field = field_number(&format!("{counter}.{name}"));
            step.changes.push(Change::Field { field, value });
        }
    }

    /// Dividers just before a pulse.
    fn wind_dividers(&mut self, step: &mut Step) {
        for (name, period) in [("clocks.hundred", 100), ("clocks.thousand", 1000)] {
            let value = period - 1 - self.random.below(4) as u16;
            step.changes.push(Change::Field { field: field_number(name), value });
        }
    }

    fn arrange_anything(&mut self, step: &mut Step, lent: &Lent) {
        for _ in 0..DRAWS {
            let change = self.any_change();
            step.changes.push(change);
            if !works_after(lent, &step.changes) {
                step.changes.pop();
            } else if self.random.once_in(2) {
                return;
            }
        }
    }

    /// Other contents of the sample memory or the EEPROM, or a tally near the end of its numbers.
    fn rearrange_memories(&mut self, step: &mut Step, lent: &Lent) {
        let fifo = &lent.board.fifo;
        let change = match self.random.below(7) {
            6 => Change::Tally { below: self.random.pick(&[0, 1, 2, 3, 100, 511, 512, 513]) },
            0 | 1 => Change::EepromByte {
                address: self.random.pick(&[0, 1, 7, 8, 100, EEPROM_LENGTH - 1]),
                value: self.random.byte(),
            },
            2 if fifo.held > 0 => {
                let number = self.random.below(u32::from(fifo.held)) as usize;
                let place = (usize::from(fifo.place) + number) % MEMORY_LENGTH;
                Change::Place { place, value: self.random.word() }
            }
            3 => {
                let held = self.random.below(513) as u16;
                self.held_somewhere(held)
            }
            _ => {
                let held = self.random.pick(&[0, 1, 2, 254, 255, 256, 257, 509, 510, 511, 512]);
                self.held_somewhere(held)
            }
        };
        step.changes = vec![change];
    }
}

/// Whether a board works after the host's changes.
fn works_after(lent: &Lent, changes: &[Change]) -> bool {
    let mut changed = lent.clone();
    for change in changes {
        change.apply(&mut changed);
    }
    is_working(&changed.board, &changed.memory[..MEMORY_LENGTH])
}
