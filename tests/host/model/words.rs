//! Word reads of the sample memory: what of them a run has reached.

use crate::event::{refusal, Answer, Event};
use crate::record::Board;

/// What a run must reach.
pub const MUST_BE_REACHED: [&str; 5] = [
    "word read of an empty memory",
    "word read of an empty memory during a conversion",
    "word read of a sample of FFFF",
    "word read of the last sample, FFFF",
    "word read elsewhere of an empty memory",
];

/// What an event with its answer has reached.
pub fn reached(event: &Event, before: &Board, answer: u32) -> [bool; MUST_BE_REACHED.len()] {
    let Event::ReadWord { offset } = *event else { return [false; MUST_BE_REACHED.len()] };
    let empty = before.fifo.held == 0;
    let nothing = answer == Answer::Nothing.number();
    debug_assert!(!nothing || empty);
    let all_ones = answer == Answer::Word(0xFFFF).number();
    let refused = answer == Answer::Refused(refusal::OFFSET).number();
    [
        nothing,
        nothing && before.converter.converting == 1,
        all_ones,
        all_ones && before.fifo.held == 1,
        refused && empty && offset != 0,
    ]
}
