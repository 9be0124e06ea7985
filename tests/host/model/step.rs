//! What the host lends to a call, and one step of a run: changes to what is lent, lengths, an event.

use crate::event::Event;
use crate::fields::{field_name, set_field};
use crate::record::{fresh, Board, Fifo};
use crate::tally::{Kept, Tally};
use crate::working::{EEPROM_LENGTH, MEMORY_LENGTH};
use std::fmt;

/// Room for a sample memory and an EEPROM, more than a board has, so that longer lengths can be lent.
pub const MEMORY_ROOM: usize = 1024;
pub const EEPROM_ROOM: usize = 256;
/// What stands in the room beyond the right lengths.
const MEMORY_BEYOND: u16 = 0xB0B0;
const EEPROM_BEYOND: u8 = 0xB0;

/// The record and both memories of one board, and the tally that the host keeps beside it.
#[derive(Clone, PartialEq, Eq)]
pub struct Lent {
    pub board: Board,
    pub memory: [u16; MEMORY_ROOM],
    pub eeprom: [u8; EEPROM_ROOM],
    pub tally: Kept,
}

impl Lent {
    /// A fresh board.
    pub fn fresh(start: Start) -> Lent {
        let mut memory = [MEMORY_BEYOND; MEMORY_ROOM];
        let mut eeprom = [EEPROM_BEYOND; EEPROM_ROOM];
        memory[..MEMORY_LENGTH].fill(0);
        eeprom[..EEPROM_LENGTH].fill(0);
        let board = fresh(start.jumpers, start.zero_scale);
        Lent { board, memory, eeprom, tally: Kept::begun(board, Tally::default()) }
    }
}

/// The jumpers of the fresh board that a run starts with.
#[derive(Clone, Copy, Debug)]
pub struct Start {
    pub jumpers: u32,
    pub zero_scale: u32,
}

/// A change that the host makes to what it lends.
#[derive(Clone, Copy, Debug, PartialEq, Eq)]
pub enum Change {
    /// A field of the record takes a value.
    Field { field: usize, value: u16 },
    /// A place of the sample memory takes a value.
    Place { place: usize, value: u16 },
    /// A byte of the EEPROM takes a value.
    EepromByte { address: usize, value: u8 },
    /// The sample memory holds so many samples from a place on, without OVF.
    Held { held: u16, place: u16, first: u16 },
    /// The counts of the tally stand so many below the highest.
    Tally { below: u64 },
}

impl Change {
    /// The change is no event: where it concerns what the tally adds up, the tally begins anew.
    pub fn apply(&self, lent: &mut Lent) {
        let before = lent.board;
        match *self {
            Change::Tally { below } => {
                lent.tally = Kept::begun(before, Tally::near_the_end(below));
            }
            Change::Field { field, value } => set_field(&mut lent.board, field, value),
            Change::Place { place, value } => lent.memory[place] = value,
            Change::EepromByte { address, value } => lent.eeprom[address] = value,
            Change::Held { held, place, first } => {
                lent.board.fifo = Fifo { held, place, ovf: 0 };
                for number in 0..MEMORY_LENGTH as u16 {
                    let sample = first.wrapping_add(number.wrapping_mul(257));
                    let at = usize::from(place + number) % MEMORY_LENGTH;
                    lent.memory[at] = if number < held { sample } else { 0 };
                }
            }
        }
        let board = lent.board;
        if (board.fifo.held, board.converter.converting)
            != (before.fifo.held, before.converter.converting)
        {
            lent.tally = Kept::begun(board, Tally::default());
        }
    }
}

impl fmt::Display for Change {
    fn fmt(&self, out: &mut fmt::Formatter) -> fmt::Result {
        match *self {
            Change::Field { field, value } => write!(out, "{} = {value}", field_name(field)),
            Change::Place { place, value } => write!(out, "memory[{place}] = {value}"),
            Change::EepromByte { address, value } => write!(out, "eeprom[{address}] = {value}"),
            Change::Held { held, place, first } => {
                write!(out, "memory holds {held} from {place} on: {first}, and each next 257 more")
            }
            Change::Tally { below } => write!(out, "counts of the tally {below} below the highest"),
        }
    }
}

/// One step of a run.
#[derive(Clone, Debug)]
pub struct Step {
    pub changes: Vec<Change>,
    pub memory_length: usize,
    pub eeprom_length: usize,
    pub event: Event,
    /// The event goes to the library as a record of numbers.
    pub by_record: bool,
}

impl Step {
    /// An event on a board that is lent as it is.
    pub fn plain(event: Event) -> Step {
        Step {
            changes: Vec::new(),
            memory_length: MEMORY_LENGTH,
            eeprom_length: EEPROM_LENGTH,
            event,
            by_record: false,
        }
    }

    pub fn has_right_lengths(&self) -> bool {
        self.memory_length == MEMORY_LENGTH && self.eeprom_length == EEPROM_LENGTH
    }
}

impl fmt::Display for Step {
    fn fmt(&self, out: &mut fmt::Formatter) -> fmt::Result {
        for change in &self.changes {
            write!(out, "[{change}] ")?;
        }
        if !self.has_right_lengths() {
            write!(out, "[lengths {} and {}] ", self.memory_length, self.eeprom_length)?;
        }
        write!(out, "{}{}", self.event, if self.by_record { ", by its record" } else { "" })
    }
}
