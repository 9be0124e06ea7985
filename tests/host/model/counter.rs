//! One counter of the 82C54: control words, counts, clock pulses, gate, latch.
//!
//! The model is written from the specification and the data sheet alone, but for five points on
//! which they say nothing. There it has what the library has:
//! - `first` and `latch` are 0 while they mean nothing: after a whole count, after the last read.
//! - In states that no event leads to: in mode 0 a count that waits while OUT is high makes OUT low
//!   when it is loaded; in mode 2 a count written while one is counted ends the waiting of a count;
//!   with counts of one byte a read ends a half-read state.

use crate::record::{Count, Counter, CounterBytes};

/// The modes that are modelled.
#[derive(Clone, Copy, Debug, PartialEq, Eq)]
pub enum Mode {
    /// Mode 0.
    InterruptOnTerminalCount,
    /// Mode 2.
    RateGenerator,
}

impl Mode {
    /// The mode of a control word's bits M2 M1 M0: 000 is mode 0, X10 is mode 2, another is not modelled.
    pub fn of_control(control: u8) -> Option<Mode> {
        match control >> 1 & 7 {
            0b000 => Some(Mode::InterruptOnTerminalCount),
            0b010 | 0b110 => Some(Mode::RateGenerator),
            _ => None,
        }
    }
}

/// The bytes that make a count, by RW1 RW0.
#[derive(Clone, Copy, PartialEq, Eq)]
enum Format {
    Low,
    High,
    LowThenHigh,
}

/// What a byte at the address of the control word asks for.
#[derive(Clone, Copy, PartialEq, Eq)]
pub enum Command {
    /// Latch the count of a counter.
    Latch(usize),
    /// Program a counter with bits 5-0.
    Program(usize, u8),
    /// Read-back, BCD or a mode that is not modelled.
    NotModelled,
}

impl Command {
    pub fn of_byte(byte: u8) -> Command {
        let which = usize::from(byte >> 6);
        let control = byte & 0x3F;
        if which == 3 {
            Command::NotModelled
        } else if control >> 4 == 0 {
            Command::Latch(which)
        } else if control & 1 != 0 || Mode::of_control(control).is_none() {
            Command::NotModelled
        } else {
            Command::Program(which, control)
        }
    }
}

impl Counter {
    pub fn is_programmed(&self) -> bool {
        self.control != 0
    }

    /// The mode of a programmed counter.
    pub fn mode(&self) -> Option<Mode> {
        if self.is_programmed() {
            Mode::of_control(self.control)
        } else {
            None
        }
    }

    fn format(&self) -> Format {
        match self.control >> 4 & 3 {
            1 => Format::Low,
            2 => Format::High,
            _ => Format::LowThenHigh,
        }
    }

    /// A control word: OUT takes its first level, the rest is as never written.
    pub fn program(&mut self, control: u8) {
        self.control = control;
        self.trigger = 0;
        self.bytes = CounterBytes::default();
        self.count = Count::default();
        self.count.out = u8::from(self.mode() == Some(Mode::RateGenerator));
    }

    /// The whole count that a byte completes; none for the first byte of two.
    fn whole_count(&self, byte: u8) -> Option<u16> {
        match self.format() {
            Format::Low => Some(u16::from(byte)),
            Format::High => Some(u16::from(byte) << 8),
            Format::LowThenHigh if self.bytes.halfwritten == 1 => {
                Some(u16::from(byte) << 8 | u16::from(self.bytes.first))
            }
            Format::LowThenHigh => None,
        }
    }

    /// Whether a byte of a count is refused: no control word yet, or count 1 in mode 2.
    pub fn refuses(&self, byte: u8) -> bool {
        !self.is_programmed()
            || (self.mode() == Some(Mode::RateGenerator) && self.whole_count(byte) == Some(1))
    }

    /// A byte of a count. In mode 0 OUT goes low at once; in mode 2 a count that is being counted
    /// goes on, and the new one is taken at the next reload.
    pub fn write(&mut self, byte: u8) {
        let terminal = self.mode() == Some(Mode::InterruptOnTerminalCount);
        if terminal {
            self.count.out = 0;
        }
        match self.whole_count(byte) {
            Some(count) => {
                self.count.count_register = count;
                self.bytes.first = 0;
                self.bytes.halfwritten = 0;
                self.count.waiting = u8::from(terminal || self.count.loaded == 0);
            }
            None => {
                self.bytes.first = byte;
                self.bytes.halfwritten = 1;
            }
        }
    }

    /// A clock pulse with the gate as it stands.
    pub fn clock(&mut self, gate: bool) {
        match self.mode() {
            None => {}
            Some(Mode::InterruptOnTerminalCount) => self.clock_mode0(gate),
            Some(Mode::RateGenerator) => self.clock_mode2(gate),
        }
    }

    /// Loading needs no gate. The first byte of two stops counting.
    fn clock_mode0(&mut self, gate: bool) {
        self.trigger = 0;
        if self.count.waiting == 1 {
            self.load();
            self.count.out = 0;
        } else if self.count.loaded == 1 && gate && self.bytes.halfwritten == 0 {
            self.count.element = self.count.element.wrapping_sub(1);
            if self.count.element == 0 {
                self.count.out = 1;
            }
        }
    }

    /// The first count is loaded without regard to the gate; so is a reload that a gate asked for.
    fn clock_mode2(&mut self, gate: bool) {
        let triggered = self.trigger == 1;
        self.trigger = 0;
        let reload_due = self.count.loaded == 1 && (triggered || (gate && self.count.element == 1));
        if self.count.waiting == 1 || reload_due {
            self.load();
            self.count.out = 1;
        } else if self.count.loaded == 1 && gate {
            self.count.element = self.count.element.wrapping_sub(1);
            self.count.out = u8::from(self.count.element != 1);
        }
    }

    fn load(&mut self) {
        self.count.element = self.count.count_register;
        self.count.waiting = 0;
        self.count.loaded = 1;
    }

    /// The gate moves: in mode 2 its fall raises OUT and its rise sets the flip-flop.
    pub fn gate_moves(&mut self, before: bool, after: bool) {
        if self.mode() != Some(Mode::RateGenerator) || before == after {
            return;
        }
        if after {
            self.trigger = 1;
        } else {
            self.count.out = 1;
        }
    }

    /// The counter latch command: a count that is latched already stays.
    pub fn latch_count(&mut self) {
        if self.is_programmed() && self.bytes.latched == 0 {
            self.bytes.latch = self.count.element;
            self.bytes.latched = 1;
        }
    }

    /// A read by the bus. The last byte of a count lets the latch go.
    pub fn read(&mut self) -> u8 {
        if !self.is_programmed() {
            return 0;
        }
        let count = if self.bytes.latched == 1 { self.bytes.latch } else { self.count.element };
        let [low, high] = count.to_le_bytes();
        let two_bytes = self.format() == Format::LowThenHigh;
        let low_is_next = match self.format() {
            Format::Low => true,
            Format::High => false,
            Format::LowThenHigh => self.bytes.halfread == 0,
        };
        self.bytes.halfread = u8::from(two_bytes && low_is_next);
        if self.bytes.halfread == 0 {
            self.bytes.latch = 0;
            self.bytes.latched = 0;
        }
        if low_is_next {
            low
        } else {
            high
        }
    }
}
