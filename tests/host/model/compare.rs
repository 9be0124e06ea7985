//! Library and model side by side: the same steps on both, and what differs after each.

use crate::board;
use crate::event::answer_text;
use crate::fields::differing;
use crate::library;
use crate::record::Board;
use crate::step::{Lent, Start, Step};
use crate::tally::{self, Kept, Tally};
use crate::working::{is_working, MEMORY_LENGTH};

/// Both sides of a comparison.
pub struct Pair {
    pub model: Lent,
    pub library: Lent,
}

/// What a step did on the model's side.
pub struct Outcome {
    /// The record when the event came, after the host's changes.
    pub before: Board,
    pub answer: u32,
    /// The tally when the event came, and after it.
    pub noted: [Kept; 2],
    /// What the library has otherwise, in words; empty where nothing differs.
    pub differences: Vec<String>,
}

impl Pair {
    /// Two fresh boards: the model's own, and what the library makes of other contents.
    pub fn fresh(start: Start) -> Pair {
        let model = Lent::fresh(start);
        let mut library = model.clone();
        library.memory[..MEMORY_LENGTH].fill(0x5A5A);
        library.eeprom[..100].fill(0x5A);
        library.board = library::fresh(start.jumpers, start.zero_scale);
        library::fresh_stores(&mut library, MEMORY_LENGTH, crate::working::EEPROM_LENGTH);
        Pair { model, library }
    }

    /// What differs now.
    pub fn differences(&self) -> Vec<String> {
        let (model, library) = (&self.model, &self.library);
        let mut found = Vec::new();
        if model.board != library.board {
            for (path, ours, theirs) in differing(&model.board, &library.board) {
                found.push(format!("{path}: library {theirs}, model {ours}"));
            }
        }
        if model.memory != library.memory {
            found.extend(first_places("memory", &model.memory, &library.memory));
        }
        if model.eeprom != library.eeprom {
            found.extend(first_places("eeprom", &model.eeprom, &library.eeprom));
        }
        if model.tally != library.tally {
            let (ours, theirs) = (model.tally.counts, library.tally.counts);
            found.push(format!("tally: library {theirs}, model {ours}"));
        }
        found
    }

    /// Whether the library says of the sums what they are, and whether they hold where they must: of
    /// the tally, of one that is off by one, and of one that adds up where numbers go round.
    fn differences_of_sums(&self) -> Vec<String> {
        let kept = self.model.tally;
        let off_by_one = Tally { lost: kept.counts.lost ^ 1, ..kept.counts };
        let mut found = Vec::new();
        let round = kept.round_the_end(kept.counts, &self.model.board);
        for counts in [kept.counts, off_by_one, round] {
            let ours = kept.adds_up(counts, &self.model.board);
            let theirs = library::adds_up(counts, kept.first, self.library.board);
            if ours != theirs {
                found.push(format!("{counts}: adds up: library {theirs}, model {ours}"));
            }
        }
        if kept.must_add_up() && !kept.adds_up(kept.counts, &self.model.board) {
            found.push(format!("{} do not add up", kept.counts));
        }
        found
    }

    /// One step on both sides. A board that does not work afterwards is put back to what it was
    /// before the host's changes, so that the run goes on with a working one.
    pub fn step(&mut self, step: &Step) -> Outcome {
        let kept = if step.changes.is_empty() {
            None
        } else {
            Some((self.model.clone(), self.library.clone()))
        };
        for change in &step.changes {
            change.apply(&mut self.model);
            change.apply(&mut self.library);
        }
        let (before, tally_before) = (self.model.board, self.model.tally);
        let works = is_working(&before, &self.model.memory[..step.memory_length]);
        let library_says = library::is_working(&self.library, step.memory_length);
        let (answer, library_answer) = self.answers(step);
        let mut differences = self.differences();
        differences.extend(self.differences_of_sums());
        let noted = [tally_before, self.model.tally];
        if library_says != works {
            differences.push(format!("is_working: library {library_says}, model {works}"));
        }
        if library_answer != answer {
            let (theirs, ours) = (answer_text(library_answer), answer_text(answer));
            differences.push(format!("answer: library {theirs}, model {ours}"));
        }
        if let (Some((model, library)), false) = (kept, works) {
            (self.model, self.library) = (model, library);
        }
        Outcome { before, answer, noted, differences }
    }

    fn answers(&mut self, step: &Step) -> (u32, u32) {
        let model = &mut self.model;
        let memory = &mut model.memory[..step.memory_length];
        let eeprom = &mut model.eeprom[..step.eeprom_length];
        let answer = board::step(&mut model.board, memory, eeprom, &step.event).number();
        model.tally.counts = model.tally.counts.with(tally::happened());
        library::note(&mut self.library, step);
        (answer, library::step(&mut self.library, step))
    }
}

/// The first few places of two memories that differ.
fn first_places<T: PartialEq + std::fmt::Debug>(
    name: &str,
    ours: &[T],
    theirs: &[T],
) -> Vec<String> {
    let places = (0..ours.len()).filter(|&place| ours[place] != theirs[place]);
    places
        .take(4)
        .map(|at| format!("{name}[{at}]: library {:?}, model {:?}", theirs[at], ours[at]))
        .collect()
}

/// The step at which the same steps on fresh boards first differ, and how.
pub fn first_difference(start: Start, steps: &[Step]) -> Option<(usize, Vec<String>)> {
    let mut pair = Pair::fresh(start);
    for (index, step) in steps.iter().enumerate() {
        let outcome = pair.step(step);
        if !outcome.differences.is_empty() {
            return Some((index, outcome.differences));
        }
    }
    None
}
