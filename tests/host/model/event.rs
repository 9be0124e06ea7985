//! The events that a board meets and the answers it gives.

use std::fmt;

/// A port of the 82C55.
#[derive(Clone, Copy, Debug, PartialEq, Eq)]
pub enum Port {
    A,
    B,
    C,
}

/// One event.
#[derive(Clone, Copy, Debug, PartialEq, Eq)]
pub enum Event {
    WriteByte { offset: u32, value: u8 },
    ReadByte { offset: u32 },
    ReadWord { offset: u32 },
    ConversionEnd { code: i16 },
    Din { lines: u32 },
    Latch { level: u32 },
    PortPins { port: Port, pins: u8 },
    Tick,
    /// Ticks up to the first with which the host has something to do.
    Advance { ticks: u32 },
    TransferEnd,
}

/// Refusals by the numbers of the specification.
pub mod refusal {
    pub const RECORD: u8 = 1;
    pub const LENGTH: u8 = 2;
    pub const OFFSET: u8 = 3;
    pub const NO_CONVERSION: u8 = 4;
    pub const DIN: u8 = 5;
    pub const BUSY: u8 = 6;
    pub const NOT_MODELLED: u8 = 7;
    pub const NO_KEY: u8 = 8;
    pub const COMMANDS: u8 = 9;
    pub const NO_TRANSFER: u8 = 10;
}

/// The answer to an event.
#[derive(Clone, Copy, Debug, PartialEq, Eq)]
pub enum Answer {
    Done,
    /// So many ticks were done.
    Ticks(u16),
    Byte(u8),
    Word(u16),
    /// A word read that finds no sample.
    Nothing,
    Refused(u8),
}

impl Answer {
    /// The one number of the C header: kind in bits 31-29, refusal in 28-24, what was read in 15-0;
    /// there also the ticks that were done, and what the bus shows where nothing was there: FFFF.
    pub fn number(self) -> u32 {
        match self {
            Answer::Done => 0,
            Answer::Ticks(done) => u32::from(done),
            Answer::Byte(byte) => 1 << 29 | u32::from(byte),
            Answer::Word(word) => 2 << 29 | u32::from(word),
            Answer::Nothing => 4 << 29 | 0xFFFF,
            Answer::Refused(number) => 3 << 29 | u32::from(number) << 24,
        }
    }
}

/// The number of an answer in words.
pub fn answer_text(number: u32) -> String {
    let (kind, refusal, read) = (number >> 29, number >> 24 & 31, number & 0xFFFF);
    let whole = kind << 29 | refusal << 24 | read == number;
    match (whole, kind, refusal) {
        (true, 0, 0) if read == 0 => "done".to_string(),
        (true, 0, 0) => format!("{read} ticks done"),
        (true, 1, 0) if read < 256 => format!("byte {read:02X}"),
        (true, 2, 0) => format!("word {read:04X}"),
        (true, 3, _) if read == 0 => format!("refused {refusal}"),
        (true, 4, 0) if read == 0xFFFF => "nothing".to_string(),
        _ => format!("no answer of the header: {number:08X}"),
    }
}

impl fmt::Display for Event {
    fn fmt(&self, out: &mut fmt::Formatter) -> fmt::Result {
        match *self {
            Event::WriteByte { offset, value } => write!(out, "write {value:02X} to {offset}"),
            Event::ReadByte { offset } => write!(out, "read {offset}"),
            Event::ReadWord { offset } => write!(out, "read word {offset}"),
            Event::ConversionEnd { code } => write!(out, "conversion end, code {code}"),
            Event::Din { lines } => write!(out, "DIN {lines} ({lines:04b})"),
            Event::Latch { level } => write!(out, "Latch {level}"),
            Event::PortPins { port, pins } => write!(out, "pins of port {port:?} {pins:02X}"),
            Event::Tick => write!(out, "tick"),
            Event::Advance { ticks } => write!(out, "at most {ticks} ticks"),
            Event::TransferEnd => write!(out, "transfer end"),
        }
    }
}
