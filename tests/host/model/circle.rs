//! The sample memory as a circle: where its samples stand, and what of it a run has reached.

use crate::event::Event;
use crate::record::{Board, Fifo};
use crate::working::MEMORY_LENGTH;

/// What a run must reach.
pub const MUST_BE_REACHED: [&str; 12] = [
    "samples round the end",
    "free places in two stretches",
    "a sample stored at place 0, round the end",
    "a sample stored in the middle, round the end",
    "the oldest goes on from place 511 to place 0",
    "a sample read by its bytes goes on to the next place",
    "the place back to 0 with the last sample",
    "the place back to 0 by FIFORST",
    "the place back to 0 by a reset",
    "512 held, the oldest not at place 0",
    "OVF set, the oldest not at place 0",
    "OVF cleared, the oldest not at place 0",
];

impl Fifo {
    /// The place behind the newest sample, counted on beyond the end of the memory.
    fn behind(&self) -> usize {
        usize::from(self.place) + usize::from(self.held)
    }

    pub fn goes_round(&self) -> bool {
        self.behind() > MEMORY_LENGTH
    }

    /// In words, where a free place stands: on which side of the samples, and in a stretch that
    /// has two sides at which end.
    pub fn side(&self, free: usize) -> &'static str {
        let round = self.goes_round();
        let first = round && free == self.behind() - MEMORY_LENGTH;
        let last = round && free + 1 == usize::from(self.place);
        match (round, first, last) {
            (false, ..) if free < usize::from(self.place) => SIDES[0],
            (false, ..) => SIDES[1],
            (_, true, true) => SIDES[2],
            (_, true, _) => SIDES[3],
            (_, _, true) => SIDES[4],
            _ => SIDES[5],
        }
    }
}

/// Where a free place may stand.
pub const SIDES: [&str; 6] = [
    "before the oldest",
    "behind the newest",
    "the only one, samples round the end",
    "first behind the newest, samples round the end",
    "last before the oldest, samples round the end",
    "in the middle, samples round the end",
];

/// What an event that was not refused has reached.
pub fn reached(event: &Event, before: &Board, after: &Board) -> [bool; MUST_BE_REACHED.len()] {
    let (was, is) = (&before.fifo, &after.fifo);
    let stored = is.held > was.held;
    let read = is.held < was.held && is.held > 0;
    let by_bytes = matches!(event, Event::ReadByte { offset: 1 });
    let emptied = was.place > 0 && is.held == 0;
    let by_read = matches!(event, Event::ReadByte { .. } | Event::ReadWord { .. });
    let by_fiforst = matches!(event, Event::WriteByte { offset: 7, .. });
    let by_reset = matches!(event, Event::WriteByte { offset: 8, .. });
    [
        is.goes_round(),
        is.place > 0 && is.behind() < MEMORY_LENGTH,
        stored && was.place > 0 && was.behind() == MEMORY_LENGTH,
        stored && was.goes_round(),
        read && was.place == 511 && is.place == 0,
        read && by_bytes && is.place == was.place + 1,
        by_read && emptied && is.place == 0,
        by_fiforst && emptied && is.place == 0,
        by_reset && emptied && is.place == 0,
        stored && is.held == 512 && is.place > 0,
        was.ovf < is.ovf && is.place > 0,
        was.ovf > is.ovf && is.place > 0,
    ]
}
