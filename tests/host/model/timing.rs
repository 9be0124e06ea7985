//! The three counters on the board: gates, clocks, edges of OUT, dividers, DIN pins.

use crate::counter::Command;
use crate::record::{Board, Counter};

/// Bits of Base + 10.
const FREQ12: u8 = 0x80;
const FREQ0: u8 = 0x40;
const GT0EN: u8 = 0x04;
const SRC0: u8 = 0x02;
const GT12EN: u8 = 0x01;

/// Bits of DIN.
const DIN0: u8 = 1;
const DIN1: u8 = 2;
const DIN2: u8 = 4;
const DIN3: u8 = 8;

impl Board {
    fn counting_bit(&self, bit: u8) -> bool {
        self.registers.counting & bit != 0
    }

    /// The level of a counter's gate: a pin where it is enabled, else high.
    pub fn gate(&self, which: usize) -> bool {
        if which == 0 {
            !self.counting_bit(GT0EN) || self.pins.din & DIN1 != 0
        } else {
            !self.counting_bit(GT12EN) || self.pins.din & DIN2 != 0
        }
    }

    pub fn counter(&self, which: usize) -> &Counter {
        let timer = &self.clocks.timer;
        [&timer.counter0, &timer.counter1, &timer.counter2][which]
    }

    pub fn counter_mut(&mut self, which: usize) -> &mut Counter {
        let timer = &mut self.clocks.timer;
        match which {
            0 => &mut timer.counter0,
            1 => &mut timer.counter1,
            _ => &mut timer.counter2,
        }
    }

    /// Changes the board so that gates may move, and lets the counters see the moves.
    pub fn moving_gates(&mut self, change: impl FnOnce(&mut Board)) {
        let before = [self.gate(0), self.gate(1), self.gate(2)];
        change(self);
        for (which, level_before) in before.into_iter().enumerate() {
            let level_after = self.gate(which);
            self.counter_mut(which).gate_moves(level_before, level_after);
        }
    }

    /// Changes a counter, and acts on its OUT where that falls.
    fn change_counter(&mut self, which: usize, change: impl FnOnce(&mut Counter)) {
        let counter = self.counter_mut(which);
        let out_before = counter.count.out;
        change(counter);
        if out_before == 1 && counter.count.out == 0 {
            self.out_falls(which);
        }
    }

    /// Falling OUT0 requests, falling OUT1 clocks counter 2, falling OUT2 triggers.
    fn out_falls(&mut self, which: usize) {
        match which {
            0 => self.requests.flags.tint |= self.requests.tinte,
            1 => self.clock_counter(2),
            _ if self.converter.clken == 1 && self.requests.clksel == 1 => self.trigger(),
            _ => {}
        }
    }

    fn clock_counter(&mut self, which: usize) {
        let gate = self.gate(which);
        self.change_counter(which, |counter| counter.clock(gate));
    }

    /// A byte to a counter, page 0 offsets 12 to 14.
    pub fn write_counter(&mut self, which: usize, byte: u8) {
        self.change_counter(which, |counter| counter.write(byte));
    }

    /// A byte to the control word register, page 0 offset 15.
    pub fn write_control_word(&mut self, byte: u8) {
        match Command::of_byte(byte) {
            Command::Latch(which) => self.counter_mut(which).latch_count(),
            Command::Program(which, control) => {
                self.change_counter(which, |counter| counter.program(control))
            }
            Command::NotModelled => {}
        }
    }

    /// One tick of the 10 MHz clock.
    pub fn tick(&mut self) {
        let clocks = &mut self.clocks;
        clocks.hundred = (clocks.hundred + 1) % 100;
        clocks.thousand = (clocks.thousand + 1) % 1000;
        let pulse_100khz = clocks.hundred == 0;
        let pulse_10khz = clocks.thousand == 0;
        if !self.counting_bit(SRC0) && (pulse_10khz || !self.counting_bit(FREQ0)) {
            self.clock_counter(0);
        }
        if pulse_100khz || !self.counting_bit(FREQ12) {
            self.clock_counter(1);
        }
        self.outputs.busy = self.outputs.busy.saturating_sub(1);
    }

    /// Ticks up to the first in which a conversion has begun or a request flag has gone up.
    pub fn advance(&mut self, ticks: u32) -> u16 {
        for done in 1..=ticks {
            let (converting, flags) = (self.converter.converting, self.requests.flags);
            self.tick();
            let now = &self.requests.flags;
            let rises = flags.adint < now.adint || flags.dint < now.dint || flags.tint < now.tint;
            if rises || converting < self.converter.converting {
                return done as u16;
            }
        }
        ticks as u16
    }

    /// DIN3-0 take new levels: gates, then counter 0's clock, then the trigger.
    pub fn din_pins(&mut self, lines: u8) {
        let falling = self.pins.din & !lines;
        self.moving_gates(|board| board.pins.din = lines);
        if falling & DIN0 != 0 && self.counting_bit(SRC0) {
            self.clock_counter(0);
        }
        let stopped = self.counting_bit(GT12EN) && lines & DIN2 == 0;
        let external = self.converter.clken == 1 && self.requests.clksel == 0;
        if falling & DIN3 != 0 && external && !stopped {
            self.trigger();
        }
    }

    /// The Latch pin takes a level.
    pub fn latch_pin(&mut self, high: bool) {
        let rising = high && self.pins.latch == 0;
        self.pins.latch = u8::from(high);
        self.requests.flags.dint |= u8::from(rising) & self.requests.dinte;
    }
}
