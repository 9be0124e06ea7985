//! Conversions, scans and the sample memory, a circle in which place 0 follows place 511.

use crate::record::{Board, Converter};
use crate::tally;
use crate::working::MEMORY_LENGTH;

impl Board {
    /// A trigger: it is lost while a conversion or scan runs.
    pub fn trigger(&mut self) {
        if self.converter.converting == 0 {
            self.start_conversion();
        }
    }

    /// A conversion of the selected channel begins, and the selection moves.
    fn start_conversion(&mut self) {
        tally::happens(|counts| counts.begun += 1);
        let converter = &mut self.converter;
        converter.converting = 1;
        converter.channel = converter.selected;
        converter.selected = if converter.selected == converter.high {
            converter.low
        } else {
            (converter.selected + 1) % 32
        };
    }

    /// The conversion in progress ends with a code.
    pub fn conversion_end(&mut self, memory: &mut [u16], code: i16) {
        tally::happens(|counts| counts.ended += 1);
        self.keep_or_lose(memory, code as u16);
        let converter = &self.converter;
        if converter.scanen != 0 && converter.channel != converter.high {
            self.start_conversion();
        } else {
            self.converter.converting = 0;
            self.request_after_end();
        }
    }

    fn keep_or_lose(&mut self, memory: &mut [u16], sample: u16) {
        let (held, place) = (usize::from(self.fifo.held), usize::from(self.fifo.place));
        if held < MEMORY_LENGTH {
            memory[(place + held) % MEMORY_LENGTH] = sample;
            self.fifo.held += 1;
        } else {
            tally::happens(|counts| counts.lost += 1);
            self.fifo.ovf = 1;
        }
    }

    fn request_after_end(&mut self) {
        let threshold = 2 * u16::from(self.requests.threshold);
        let due = self.requests.fifoen == 0 || self.fifo.held >= threshold;
        self.requests.flags.adint |= self.requests.adinte & u8::from(due);
    }

    /// The oldest sample as the byte reads show it: FFFF where none is held.
    pub fn oldest(&self, memory: &[u16]) -> u16 {
        if self.fifo.held == 0 {
            0xFFFF
        } else {
            memory[usize::from(self.fifo.place)]
        }
    }

    /// The oldest sample leaves and its place becomes 0; the next is the oldest, or, where none
    /// is held any more, the place is 0. OVF clears.
    pub fn take_oldest(&mut self, memory: &mut [u16]) {
        if self.fifo.held == 0 {
            return;
        }
        tally::happens(|counts| counts.read += 1);
        let place = usize::from(self.fifo.place);
        memory[place] = 0;
        self.fifo.held -= 1;
        let next = ((place + 1) % MEMORY_LENGTH) as u16;
        self.fifo.place = if self.fifo.held == 0 { 0 } else { next };
        self.fifo.ovf = 0;
    }

    /// A reset: what is in progress is abandoned.
    pub fn abandon_conversion(&mut self) {
        tally::happens(|counts| counts.abandoned += u64::from(self.converter.converting));
        self.converter = Converter::default();
    }

    pub fn empty_memory(&mut self, memory: &mut [u16]) {
        tally::happens(|counts| counts.cleared += u64::from(self.fifo.held));
        memory.fill(0);
        self.fifo.held = 0;
        self.fifo.place = 0;
        self.fifo.ovf = 0;
    }
}
