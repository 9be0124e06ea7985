//! Compares the library with an independent model of the board over random events.
//!
//! `model SEED EVENTS [RUNS]` makes RUNS runs of EVENTS events each. After each event the answer,
//! the whole record, both memories and the tally of library and model are compared, and whether that
//! adds up. `model bytes SEED RECORDS` does so for one event on each of RECORDS records of any bytes.
//! Exit status 0: no difference, and everything that must be reached was; 1: otherwise; 2: wrong
//! command line.

mod board;
mod bus;
mod bytes;
mod circle;
mod compare;
mod counter;
mod coverage;
mod damage;
mod event;
mod fields;
mod generator;
mod library;
mod noted;
mod other_uses;
mod pages;
mod random;
mod record;
mod sampling;
mod shrink;
mod step;
mod tally;
mod timing;
mod uses;
mod words;
mod working;

use compare::Pair;
use coverage::Coverage;
use generator::Generator;
use std::process::ExitCode;
use step::{Lent, Start, EEPROM_ROOM, MEMORY_ROOM};

/// Fresh records of all jumpers, and fresh memories of right and wrong lengths.
fn fresh_boards_agree() -> bool {
    let mut agree = true;
    for jumpers in (0..=255).chain([256, 257, 259, 511, 65536, 1 << 31, u32::MAX]) {
        for zero_scale in [0, 1, 2, 255, 256, 65536, 1 << 31, u32::MAX] {
            let start = Start { jumpers, zero_scale };
            let mut differences = Pair::fresh(start).differences();
            let lent = Lent::fresh(start);
            if library::is_working(&lent, 512) != (jumpers <= 3) {
                differences.push("is_working".to_string());
            }
            for difference in &differences {
                println!("fresh board, jumpers {jumpers}, {zero_scale}: DIFFERENT {difference}");
            }
            agree &= differences.is_empty();
        }
    }
    agree && fresh_stores_agree()
}

fn fresh_stores_agree() -> bool {
    let mut agree = true;
    let filled = Lent {
        memory: [0x1234; MEMORY_ROOM],
        eeprom: [0x56; EEPROM_ROOM],
        ..Lent::fresh(Start { jumpers: 0, zero_scale: 0 })
    };
    for memory_length in [0, 1, 511, 512, 513, MEMORY_ROOM] {
        for eeprom_length in [0, 1, 127, 128, 129, EEPROM_ROOM] {
            let mut theirs = filled.clone();
            let answer = library::fresh_stores(&mut theirs, memory_length, eeprom_length);
            let mut ours = filled.clone();
            let expected = if memory_length == 512 && eeprom_length == 128 {
                ours.memory[..512].fill(0);
                ours.eeprom[..128].fill(0);
                event::Answer::Done.number()
            } else {
                event::Answer::Refused(event::refusal::LENGTH).number()
            };
            if answer != expected || ours != theirs {
                println!("fresh stores {memory_length}, {eeprom_length}: DIFFERENT");
                agree = false;
            }
        }
    }
    agree
}

/// One run; shows the difference, where there is one, and answers false.
fn run(seed: u64, events: u64, coverage: &mut Coverage) -> bool {
    let mut generator = Generator::new(seed);
    let start = generator.start();
    let mut pair = Pair::fresh(start);
    let mut steps = Vec::new();
    for _ in 0..events {
        let step = generator.next(&pair.model);
        steps.push(step);
        let step = &steps[steps.len() - 1];
        let outcome = pair.step(step);
        if !outcome.differences.is_empty() {
            println!("seed {seed}: a difference at event {}, shortened to", steps.len());
            shrink::show(start, &shrink::shrink(start, steps));
            return false;
        }
        coverage.count(step, &outcome, &pair.model.board);
    }
    true
}

/// Fresh boards, then so many runs.
fn runs_agree(seed: u64, events: u64, runs: u64) -> bool {
    let mut coverage = Coverage::default();
    let mut good = fresh_boards_agree();
    for number in 0..runs {
        good = good && run(seed.wrapping_add(number), events, &mut coverage);
    }
    good && coverage.report()
}

/// What the command line asks for; none where it is wrong.
fn agree() -> Option<bool> {
    let words: Vec<String> = std::env::args().skip(1).collect();
    let of_bytes = words.first().is_some_and(|word| word == "bytes");
    let numbers = words[usize::from(of_bytes)..].iter().map(|word| word.parse());
    match (of_bytes, numbers.collect::<Result<Vec<u64>, _>>().ok()?.as_slice()) {
        (true, &[seed, records]) => Some(bytes::records_agree(seed, records)),
        (false, &[seed, events]) => Some(runs_agree(seed, events, 1)),
        (false, &[seed, events, runs]) => Some(runs_agree(seed, events, runs)),
        _ => None,
    }
}

fn main() -> ExitCode {
    match agree() {
        Some(true) => {
            println!("library and model agree");
            ExitCode::SUCCESS
        }
        Some(false) => ExitCode::FAILURE,
        None => {
            eprintln!("model SEED EVENTS [RUNS] | model bytes SEED RECORDS");
            ExitCode::from(2)
        }
    }
}
