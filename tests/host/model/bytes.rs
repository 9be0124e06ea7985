//! Records of any bytes: working boards' records in which bytes are replaced, a few or all of them,
//! each lent to one event. The events take turns, so that each has as many records as the others.

use crate::compare::Pair;
use crate::event::{answer_text, refusal, Answer, Event, Port};
use crate::fields::differing;
use crate::generator::Generator;
use crate::other_uses::FAR;
use crate::random::Random;
use crate::record::{Board, RECORD_LENGTH};
use crate::step::{Lent, Step, EEPROM_ROOM, MEMORY_ROOM};
use crate::tally::{Kept, Tally};
use crate::working::{EEPROM_LENGTH, MEMORY_LENGTH};

/// The events by their functions.
const EVENTS: [&str; 12] = [
    "write_byte",
    "read_byte",
    "read_word",
    "conversion_end",
    "din",
    "latch",
    "port_a_pins",
    "port_b_pins",
    "port_c_pins",
    "tick",
    "advance",
    "transfer_end",
];

/// A board has so many records made of it before another one is taken.
const RECORDS_OF_A_RUN: u64 = 5000;
/// Of the records of each event, at least one in so many is refused by 1, and one is not.
const ONE_IN: u64 = 5;

/// Where records come from: a board in use.
struct Source {
    random: Random,
    generator: Generator,
    used: Pair,
}

impl Source {
    fn new(seed: u64) -> Source {
        let mut generator = Generator::new(seed);
        let used = Pair::fresh(generator.start());
        Source { random: Random::new(!seed), generator, used }
    }

    /// What is lent to the next event, before any byte is replaced: a working board.
    fn next(&mut self) -> Lent {
        let step = self.generator.next(&self.used.model);
        self.used.step(&step);
        self.used.model.clone()
    }

    fn other_byte(&mut self, byte: u8) -> u8 {
        match self.random.below(4) {
            0 => byte ^ 1 << self.random.below(8),
            1 => self.random.below(4) as u8,
            _ => self.random.byte(),
        }
    }

    /// The record with one to four bytes replaced, or all, or none.
    fn replaced(&mut self, board: Board) -> Board {
        let mut bytes = board.bytes();
        match self.random.below(16) {
            0 => bytes.fill_with(|| self.random.byte()),
            1 => {}
            _ => {
                for _ in 0..=self.random.below(4) {
                    let place = self.random.below(RECORD_LENGTH as u32) as usize;
                    bytes[place] = self.other_byte(bytes[place]);
                }
            }
        }
        Board::of_bytes(bytes)
    }

    fn event(&mut self, which: usize) -> Event {
        let far = self.random.once_in(8);
        let number = if far { self.random.pick(&FAR) } else { self.random.below(16) };
        let byte = self.random.byte();
        match which {
            0 => Event::WriteByte { offset: number, value: byte },
            1 => Event::ReadByte { offset: number },
            2 => Event::ReadWord { offset: if far { number } else { 0 } },
            3 => Event::ConversionEnd { code: self.random.word() as i16 },
            4 => Event::Din { lines: number },
            5 => Event::Latch { level: if far { number } else { number & 1 } },
            6 => Event::PortPins { port: Port::A, pins: byte },
            7 => Event::PortPins { port: Port::B, pins: byte },
            8 => Event::PortPins { port: Port::C, pins: byte },
            9 => Event::Tick,
            10 => Event::Advance { ticks: self.random.below(300) },
            _ => Event::TransferEnd,
        }
    }

    /// An event, now and then with wrong lengths.
    fn step(&mut self, which: usize) -> Step {
        let mut step = Step::plain(self.event(which));
        step.by_record = self.random.once_in(2);
        match self.random.below(128) {
            0 => step.memory_length = self.random.pick(&[0, 511, 513, MEMORY_ROOM]),
            1 => step.eeprom_length = self.random.pick(&[0, 127, 129, EEPROM_ROOM]),
            _ => {}
        }
        step
    }

    /// Now and then a place of the sample memory, free or held, or a byte of the EEPROM is another.
    fn spoil_memories(&mut self, lent: &mut Lent) {
        match self.random.below(16) {
            0 => lent.memory[self.random.below(MEMORY_LENGTH as u32) as usize] = self.random.word(),
            1 => lent.eeprom[self.random.below(EEPROM_LENGTH as u32) as usize] = self.random.byte(),
            _ => {}
        }
    }
}

/// The answer to an event, and how library and model differ, or the library from what was lent
/// where the event is refused: records as their bytes, memories as they are.
fn differences(lent: &Lent, step: &Step) -> (u32, Vec<String>) {
    let mut pair = Pair { model: lent.clone(), library: lent.clone() };
    let outcome = pair.step(step);
    let mut found = outcome.differences;
    if pair.library.board.bytes() != pair.model.board.bytes() {
        found.push("the bytes of the record".to_string());
    }
    let same_bytes = pair.library.board.bytes() == lent.board.bytes();
    if outcome.answer >> 29 == 3 && !(same_bytes && pair.library == *lent) {
        found.push("a refused event changes something".to_string());
    }
    (outcome.answer, found)
}

/// Prints what differs, with as few bytes replaced as show a difference.
fn show(before: &Board, mut lent: Lent, step: &Step) {
    for place in 0..RECORD_LENGTH {
        let mut simpler = lent.clone();
        let mut bytes = lent.board.bytes();
        bytes[place] = before.bytes()[place];
        simpler.board = Board::of_bytes(bytes);
        simpler.tally = Kept::begun(simpler.board, Tally::default());
        if !differences(&simpler, step).1.is_empty() {
            lent = simpler;
        }
    }
    for (path, was, is) in differing(before, &lent.board) {
        println!("    {path} = {is} in place of {was}");
    }
    let (answer, found) = differences(&lent, step);
    println!("    {step}: {}", answer_text(answer));
    for difference in found {
        println!("    DIFFERENT {difference}");
    }
}

/// Prints how many records each event refused by 1 and how many it did not; answers whether both
/// were often.
fn report(counts: &[[u64; 2]; EVENTS.len()]) -> bool {
    let mut often = true;
    for (name, [taken, refused]) in EVENTS.iter().zip(counts) {
        let rare = (taken.min(refused) * ONE_IN) < taken + refused || taken + refused == 0;
        let mark = if rare { "  <- not reached often enough" } else { "" };
        println!("{refused:>9} records refused by 1, {taken:>9} not: {name}{mark}");
        often &= !rare;
    }
    often
}

/// Whether library and model agree on so many records, and both outcomes were often.
pub fn records_agree(seed: u64, records: u64) -> bool {
    let mut source = Source::new(seed);
    let mut counts = [[0; 2]; EVENTS.len()];
    for number in 0..records {
        if number % RECORDS_OF_A_RUN == 0 {
            source = Source::new(seed.wrapping_add(number));
        }
        let mut lent = source.next();
        let before = lent.board;
        lent.board = source.replaced(before);
        lent.tally = Kept::begun(lent.board, Tally::default());
        source.spoil_memories(&mut lent);
        let which = (number % EVENTS.len() as u64) as usize;
        let step = source.step(which);
        let (answer, found) = differences(&lent, &step);
        if !found.is_empty() {
            println!("seed {seed}: a difference at record {number}, shortened to");
            show(&before, lent, &step);
            return false;
        }
        if step.has_right_lengths() {
            let refused = answer == Answer::Refused(refusal::RECORD).number();
            counts[which][usize::from(refused)] += 1;
        }
    }
    report(&counts)
}
