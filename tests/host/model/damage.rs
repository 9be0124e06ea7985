//! The refusals by 1 for a single thing that no working board has, counted by its name.

use crate::circle::SIDES;
use crate::fields::{field_kind, field_name, field_number, field_value, Kind, FIELD_COUNT};
use crate::record::Board;
use crate::step::Change;
use crate::working::MEMORY_LENGTH;
use std::collections::BTreeMap;

/// What is wrong with a place of the oldest that is below 512.
const PLACES: [&str; 2] = ["fifo.place not 0, none held", "fifo.place not that of the samples"];

#[derive(Default)]
pub struct Damages {
    out_of_range: BTreeMap<usize, u64>,
    no_flag: BTreeMap<usize, u64>,
    oldest: BTreeMap<&'static str, u64>,
    free_place: BTreeMap<&'static str, u64>,
}

impl Damages {
    /// Counts a refusal by 1 of a board that was changed so.
    pub fn count(&mut self, changes: &[Change], board: &Board) {
        match *changes {
            [Change::Field { field, .. }] => self.count_field(field, board),
            [Change::Place { place, .. }] => {
                *self.free_place.entry(board.fifo.side(place)).or_insert(0) += 1
            }
            _ => {}
        }
    }

    fn count_field(&mut self, field: usize, board: &Board) {
        let below = usize::from(board.fifo.place) < MEMORY_LENGTH;
        if field == field_number("fifo.place") && below {
            let wrong = PLACES[usize::from(board.fifo.held > 0)];
            *self.oldest.entry(wrong).or_insert(0) += 1;
            return;
        }
        let no_flag = field_kind(field).is_flag() && field_value(board, field) > 1;
        let counts = if no_flag { &mut self.no_flag } else { &mut self.out_of_range };
        *counts.entry(field).or_insert(0) += 1
    }

    /// All that must be met, and how often it was.
    pub fn list(&self) -> Vec<(String, u64)> {
        let mut counts = Vec::new();
        let met = |counts: &BTreeMap<usize, u64>, field| *counts.get(&field).unwrap_or(&0);
        for field in 0..FIELD_COUNT {
            let (kind, name) = (field_kind(field), field_name(field));
            if matches!(kind, Kind::Ranged | Kind::BoundFlag) {
                counts.push((format!("{name} out of range"), met(&self.out_of_range, field)));
            }
            if kind.is_flag() {
                counts.push((format!("{name} neither 0 nor 1"), met(&self.no_flag, field)));
            }
        }
        for wrong in PLACES {
            counts.push((wrong.to_string(), *self.oldest.get(wrong).unwrap_or(&0)));
        }
        for side in SIDES {
            let met = *self.free_place.get(side).unwrap_or(&0);
            counts.push((format!("free place not 0, {side}"), met));
        }
        counts
    }
}
