//! What of the tally a run has reached.

use crate::event::Event;
use crate::record::Board;
use crate::tally::{Kept, Tally};
use crate::working::MEMORY_LENGTH;

/// What a run must reach of conversions, and of the ends of the counts.
pub const CONVERSIONS: [&str; 12] = [
    "tally: begun, none in progress before",
    "tally: ended and the next of a scan begun",
    "tally: begun in many ticks",
    "tally: trigger during a conversion",
    "tally: software trigger with CLKEN",
    "tally: abandoned",
    "tally: abandoned in mid-scan",
    "tally: abandoned that had begun before the tally",
    "tally: lost, OVF set before",
    "tally: a count stays at the highest",
    "tally: cleared comes to the highest at once",
    "tally: many ticks refused",
];

/// What a run must reach of samples that leave or are cleared.
pub const SAMPLES: [&str; 10] = [
    "tally: read by word",
    "tally: read by the byte of offset 1",
    "tally: read by neither of an empty memory",
    "tally: cleared by FIFORST",
    "tally: cleared by RESETA",
    "tally: cleared by RESETD",
    "tally: cleared by a reset with INTRST",
    "tally: 512 cleared with OVF",
    "tally: FIFORST with OVF during a conversion",
    "tally: begun with samples held",
];

/// An event that was noted, with its answer and the board before it.
pub struct Noted<'a> {
    pub event: &'a Event,
    pub answer: u32,
    pub before: &'a Board,
    pub tallies: &'a [Kept; 2],
}

impl Noted<'_> {
    fn refused(&self) -> bool {
        self.answer >> 29 == 3
    }

    /// The byte that was written to an offset, 0 where none was.
    fn written(&self, to: u32) -> u8 {
        match *self.event {
            Event::WriteByte { offset, value } if offset == to && !self.refused() => value,
            _ => 0,
        }
    }

    fn counts(&self) -> [Tally; 2] {
        self.tallies.each_ref().map(|kept| kept.counts)
    }

    pub fn conversions(&self) -> [bool; CONVERSIONS.len()] {
        let [was, is] = self.counts();
        let (converter, fifo) = (&self.before.converter, &self.before.fifo);
        let running = converter.converting == 1;
        let mid_scan = converter.scanen == 1 && converter.channel != converter.high;
        let trigger = matches!(self.event, Event::WriteByte { offset: 0, .. }) && !self.refused();
        let end = matches!(self.event, Event::ConversionEnd { .. }) && !self.refused();
        let many_ticks = matches!(self.event, Event::Advance { .. });
        let (begins, abandons) = (is.begun > was.begun, is.abandoned > was.abandoned);
        let cleared = is.cleared - was.cleared;
        [
            begins && !running,
            begins && is.ended > was.ended,
            begins && many_ticks,
            trigger && running && is == was,
            trigger && !running && converter.clken == 1 && is == was,
            abandons,
            abandons && mid_scan,
            abandons && was.begun == 0,
            is.lost > was.lost && fifo.ovf == 1,
            end && was.ended == u64::MAX && is.ended == u64::MAX,
            0 < cleared && cleared < u64::from(fifo.held) && is.cleared == u64::MAX,
            many_ticks && self.refused() && is == was,
        ]
    }

    pub fn samples(&self) -> [bool; SAMPLES.len()] {
        let [was, is] = self.counts();
        let fifo = &self.before.fifo;
        let (leaves, clears) = (is.read > was.read, is.cleared > was.cleared);
        let by_word = matches!(self.event, Event::ReadWord { .. });
        let by_byte = matches!(self.event, Event::ReadByte { offset: 1 });
        let looks = (by_word || by_byte) && !self.refused();
        let fiforst = self.written(7) & 2 != 0;
        let reset = self.written(8) & 0x30;
        let full = usize::from(fifo.held) == MEMORY_LENGTH && fifo.ovf == 1;
        [
            leaves && by_word,
            leaves && by_byte,
            looks && fifo.held == 0 && is == was,
            clears && fiforst,
            clears && reset & 0x20 != 0,
            clears && reset == 0x10,
            clears && reset != 0 && self.written(8) & 8 != 0,
            clears && full,
            clears && fiforst && full && self.before.converter.converting == 1,
            self.tallies[0].first.fifo.held > 0 && was == Tally::default(),
        ]
    }
}
