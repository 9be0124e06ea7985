//! A run with a difference, made shorter while a difference stays, and shown.

use crate::compare::{first_difference, Pair};
use crate::event::answer_text;
use crate::step::{Start, Step};

/// The steps up to the difference, where there is one.
fn cut(start: Start, mut steps: Vec<Step>) -> Option<Vec<Step>> {
    let (index, _) = first_difference(start, &steps)?;
    steps.truncate(index + 1);
    Some(steps)
}

/// Leaves out stretches of `width` steps wherever a difference stays.
fn leave_out(start: Start, mut steps: Vec<Step>, width: usize) -> Vec<Step> {
    let mut from = 0;
    while from < steps.len() {
        let mut fewer = steps[..from].to_vec();
        fewer.extend_from_slice(&steps[(from + width).min(steps.len())..]);
        match cut(start, fewer) {
            Some(shorter) => steps = shorter,
            None => from += width,
        }
    }
    steps
}

/// Lends the boards unchanged and with right lengths wherever a difference stays.
fn lend_plainly(start: Start, mut steps: Vec<Step>) -> Vec<Step> {
    for index in 0..steps.len() {
        for drop in (0..steps[index].changes.len()).rev() {
            let mut simpler = steps.clone();
            simpler[index].changes.remove(drop);
            if first_difference(start, &simpler).is_some() {
                steps = simpler;
            }
        }
        let mut simpler = steps.clone();
        let Step { event, by_record, ref changes, .. } = steps[index];
        simpler[index] = Step { changes: changes.clone(), by_record, ..Step::plain(event) };
        if !steps[index].has_right_lengths() && first_difference(start, &simpler).is_some() {
            steps = simpler;
        }
    }
    cut(start, steps.clone()).unwrap_or(steps)
}

/// The shortest run with a difference that leaving out finds.
pub fn shrink(start: Start, steps: Vec<Step>) -> Vec<Step> {
    let mut steps = cut(start, steps.clone()).unwrap_or(steps);
    let mut width = steps.len().div_ceil(2).max(1);
    loop {
        let length = steps.len();
        steps = leave_out(start, steps, width);
        if width > 1 {
            width = width.div_ceil(2).min(steps.len().max(1));
        } else if steps.len() == length {
            return lend_plainly(start, steps);
        }
    }
}

/// Prints a run and what differs at its end.
pub fn show(start: Start, steps: &[Step]) {
    println!("fresh board, jumpers {}, zero scale {}", start.jumpers, start.zero_scale);
    let mut pair = Pair::fresh(start);
    for (number, step) in steps.iter().enumerate() {
        let outcome = pair.step(step);
        println!("{:>5}  {step}: {}", number + 1, answer_text(outcome.answer));
        for difference in &outcome.differences {
            println!("       DIFFERENT {difference}");
        }
    }
}
