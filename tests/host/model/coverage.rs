//! What a run has reached, counted by name.

use crate::circle;
use crate::compare::Outcome;
use crate::counter::Mode;
use crate::damage::Damages;
use crate::event::Event;
use crate::noted::{self, Noted};
use crate::pages::{commands_in, transfer_of, NO_TRANSFER};
use crate::record::Board;
use crate::step::Step;
use crate::words;
use std::collections::BTreeMap;

/// What a run must reach besides word reads, tallies, places on the circle, refusals and damaged fields.
const MUST_BE_REACHED: [&str; 44] = [
    "512 held",
    "OVF set",
    "an end in mid-scan",
    "low above high at a conversion",
    "EEPROM read begun, with key",
    "EEPROM read refused, without key",
    "EEPROM write begun, with key",
    "EEPROM write refused, without key",
    "RUNCAL begun, with key",
    "RUNCAL begun, without key",
    "TrimDAC transfer begun, with key",
    "TrimDAC transfer begun, without key",
    "EEPROM read ended",
    "EEPROM write ended",
    "RUNCAL ended",
    "TrimDAC transfer ended",
    "gate low at a tick, mode 0",
    "gate low at a tick, mode 2",
    "gate rising by a pin, mode 0",
    "gate rising by a pin, mode 2",
    "gate rising by a write, mode 0",
    "gate rising by a write, mode 2",
    "gate falling with OUT low, mode 2",
    "conversion begun by software",
    "conversion begun by OUT2, a tick",
    "conversion begun by OUT2, many ticks",
    "conversion begun by OUT2, a write",
    "conversion begun by DIN3",
    "conversion begun by a scan",
    "trigger stopped by DIN2",
    "ADINT set",
    "ADINT set at a lost end",
    "DINT set",
    "TINT set by a tick",
    "TINT set by many ticks",
    "TINT set by a pin",
    "TINT set by a write",
    "counter 0 clocked at 10 kHz",
    "counter 1 clocked at 100 kHz",
    "DACBUSY ends",
    "DACBUSY ends in many ticks",
    "many ticks, all done",
    "sample memory emptied by FIFORST",
    "sample memory emptied by a reset",
];

/// OUT2 falls by a clock pulse or a byte for counter 1 or 2; a pin gives neither, its gates only raise OUT.
const CANNOT_HAPPEN: &str = "conversion begun by OUT2, a pin";

#[derive(Default)]
pub struct Coverage {
    reached: BTreeMap<&'static str, u64>,
    refusals: [u64; 32],
    damages: Damages,
    pub events: u64,
}

impl Coverage {
    fn reach(&mut self, name: &'static str, reached: bool) {
        if reached {
            *self.reached.entry(name).or_insert(0) += 1;
        }
    }

    fn reach_all<const N: usize>(&mut self, names: [&'static str; N], reached: [bool; N]) {
        for (name, reached) in names.into_iter().zip(reached) {
            self.reach(name, reached);
        }
    }

    /// Counts a step with the board before its event and after.
    pub fn count(&mut self, step: &Step, outcome: &Outcome, after: &Board) {
        self.events += 1;
        let before = &outcome.before;
        self.reach_all(words::MUST_BE_REACHED, words::reached(&step.event, before, outcome.answer));
        let (event, answer, tallies) = (&step.event, outcome.answer, &outcome.noted);
        let noted = Noted { event, answer, before, tallies };
        self.reach_all(noted::CONVERSIONS, noted.conversions());
        self.reach_all(noted::SAMPLES, noted.samples());
        if outcome.answer >> 29 == 3 {
            let refusal = outcome.answer >> 24 & 31;
            self.refusals[refusal as usize] += 1;
            if refusal == 1 {
                self.damages.count(&step.changes, before);
            }
            self.reach_refused_commands(&step.event, before, refusal);
            return;
        }
        self.reach_samples(&step.event, before, after);
        self.reach_begun(&step.event, before, after);
        self.reach_transfers(&step.event, before, after);
        self.reach_gates(&step.event, before, after);
        self.reach_requests(&step.event, before, after);
        self.reach_clocks(&step.event, before, after);
        if let Event::Advance { ticks } = step.event {
            let ended = before.outputs.busy > 1 && after.outputs.busy == 0;
            self.reach("DACBUSY ends in many ticks", ended);
            self.reach("many ticks, all done", ticks > 1 && outcome.answer == ticks);
        }
    }

    fn reach_refused_commands(&mut self, event: &Event, before: &Board, refusal: u32) {
        if let (Event::WriteByte { value, .. }, 8) = (event, refusal) {
            debug_assert!(commands_in(*value) == 1 && before.calibration.key == 0);
            self.reach("EEPROM read refused, without key", transfer_of(*value) == 1);
            self.reach("EEPROM write refused, without key", transfer_of(*value) == 2);
        }
    }

    fn reach_samples(&mut self, event: &Event, before: &Board, after: &Board) {
        let emptied = before.fifo.held > 0 && after.fifo.held == 0;
        self.reach_all(circle::MUST_BE_REACHED, circle::reached(event, before, after));
        self.reach("512 held", before.fifo.held != 512 && after.fifo.held == 512);
        self.reach("OVF set", before.fifo.ovf < after.fifo.ovf);
        match *event {
            Event::WriteByte { offset: 7, .. } => {
                self.reach("sample memory emptied by FIFORST", emptied)
            }
            Event::WriteByte { offset: 8, .. } => {
                self.reach("sample memory emptied by a reset", emptied)
            }
            Event::ConversionEnd { .. } => {
                self.reach("an end in mid-scan", after.converter.converting == 1)
            }
            _ => {}
        }
    }

    fn reach_begun(&mut self, event: &Event, before: &Board, after: &Board) {
        let ended = matches!(event, Event::ConversionEnd { .. });
        let begun = after.converter.converting == 1 && (ended || before.converter.converting == 0);
        let internal = before.requests.clksel == 1;
        if begun {
            let by = match *event {
                Event::WriteByte { offset: 0, .. } => "conversion begun by software",
                Event::WriteByte { .. } => "conversion begun by OUT2, a write",
                Event::Tick => "conversion begun by OUT2, a tick",
                Event::Advance { .. } => "conversion begun by OUT2, many ticks",
                Event::Din { .. } if internal => CANNOT_HAPPEN,
                Event::Din { .. } => "conversion begun by DIN3",
                _ => "conversion begun by a scan",
            };
            self.reach(by, true);
            let above = before.converter.low > before.converter.high;
            self.reach("low above high at a conversion", above);
        }
        if let Event::Din { lines } = *event {
            let enabled = before.converter.clken == 1 && !internal;
            let clocked = enabled && before.converter.converting == 0;
            let falls = before.pins.din & 8 != 0 && lines & 8 == 0;
            self.reach("trigger stopped by DIN2", clocked && falls && !begun);
        }
    }

    fn reach_transfers(&mut self, event: &Event, before: &Board, after: &Board) {
        let (was, runs) = (before.calibration.transfer, after.calibration.transfer);
        let begun = match (runs, after.calibration.key) {
            (1, _) => "EEPROM read begun, with key",
            (2, _) => "EEPROM write begun, with key",
            (3, 1) => "RUNCAL begun, with key",
            (3, _) => "RUNCAL begun, without key",
            (_, 1) => "TrimDAC transfer begun, with key",
            (_, _) => "TrimDAC transfer begun, without key",
        };
        self.reach(begun, was == NO_TRANSFER && runs != NO_TRANSFER);
        let ended = match was {
            1 => "EEPROM read ended",
            2 => "EEPROM write ended",
            3 => "RUNCAL ended",
            _ => "TrimDAC transfer ended",
        };
        let by_its_end = matches!(event, Event::TransferEnd);
        self.reach(ended, by_its_end && was != NO_TRANSFER && runs == NO_TRANSFER);
    }

    fn reach_gates(&mut self, event: &Event, before: &Board, after: &Board) {
        for which in 0..3 {
            let counter = before.counter(which);
            let mode2 = match counter.mode() {
                Some(mode) => mode == Mode::RateGenerator,
                None => continue,
            };
            let (was, is) = (before.gate(which), after.gate(which));
            let rises = match (event, mode2) {
                (Event::Din { .. }, false) => "gate rising by a pin, mode 0",
                (Event::Din { .. }, true) => "gate rising by a pin, mode 2",
                (_, false) => "gate rising by a write, mode 0",
                (_, true) => "gate rising by a write, mode 2",
            };
            self.reach(rises, !was && is);
            let low = ["gate low at a tick, mode 0", "gate low at a tick, mode 2"];
            self.reach(
                low[usize::from(mode2)],
                *event == Event::Tick && counter.count.loaded == 1 && !was,
            );
            let out_raised = mode2 && was && !is && counter.count.out == 0;
            self.reach("gate falling with OUT low, mode 2", out_raised);
        }
    }

    fn reach_requests(&mut self, event: &Event, before: &Board, after: &Board) {
        let (was, is) = (&before.requests.flags, &after.requests.flags);
        self.reach("ADINT set", was.adint < is.adint);
        self.reach("ADINT set at a lost end", was.adint < is.adint && after.fifo.ovf == 1);
        self.reach("DINT set", was.dint < is.dint);
        let by = match event {
            Event::Tick => "TINT set by a tick",
            Event::Advance { .. } => "TINT set by many ticks",
            Event::Din { .. } => "TINT set by a pin",
            _ => "TINT set by a write",
        };
        self.reach(by, was.tint < is.tint);
    }

    fn reach_clocks(&mut self, event: &Event, before: &Board, after: &Board) {
        if *event != Event::Tick {
            return;
        }
        let moved = |which| before.counter(which).count != after.counter(which).count;
        let counting = before.registers.counting;
        self.reach("counter 0 clocked at 10 kHz", counting & 0x40 != 0 && moved(0));
        self.reach("counter 1 clocked at 100 kHz", counting & 0x80 != 0 && moved(1));
        self.reach("DACBUSY ends", before.outputs.busy == 1);
    }

    /// Prints all counts; answers whether everything was reached.
    pub fn report(&self) -> bool {
        println!("{} events", self.events);
        let mut counts: Vec<(String, u64)> = Vec::new();
        let of_samples = words::MUST_BE_REACHED.into_iter().chain(circle::MUST_BE_REACHED);
        let of_tallies = noted::CONVERSIONS.into_iter().chain(noted::SAMPLES);
        for name in MUST_BE_REACHED.into_iter().chain(of_samples).chain(of_tallies) {
            counts.push((name.to_string(), *self.reached.get(name).unwrap_or(&0)));
        }
        for refusal in 1..=10 {
            counts.push((format!("refusal {refusal}"), self.refusals[refusal]));
        }
        counts.extend(self.damages.list());
        for (name, count) in &counts {
            println!("{count:>9}  {name}{}", if *count == 0 { "  <- not reached" } else { "" });
        }
        let impossible = *self.reached.get(CANNOT_HAPPEN).unwrap_or(&0);
        println!("{impossible:>9}  {CANNOT_HAPPEN} (cannot happen)");
        impossible == 0 && counts.iter().all(|(_, count)| *count > 0)
    }
}
