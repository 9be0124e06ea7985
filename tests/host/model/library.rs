//! The library's functions as the C header declares them.

use crate::event::{Event, Port};
use crate::record::Board;
use crate::step::{Lent, Step, EEPROM_ROOM, MEMORY_ROOM};
use crate::tally::Tally;

mod header {
    use crate::record::Board;
    use crate::tally::Tally;

    #[repr(C)]
    pub struct Advanced {
        pub answer: u32,
        pub done: u32,
    }

    /// An event as a record of numbers.
    #[repr(C)]
    #[derive(Clone, Copy)]
    pub struct Record {
        pub kind: u8,
        pub value: u8,
        pub code: i16,
        pub offset: u32,
        pub levels: u32,
    }

    macro_rules! events {
        ($($name:ident($($parameter:ident: $kind:ty),*);)+) => {
            extern "C" {
                pub fn dmm32_fresh(jumpers: u32, zero_scale: u32) -> Board;
                pub fn dmm32_fresh_stores(
                    memory: *mut u16,
                    memory_length: usize,
                    eeprom: *mut u8,
                    eeprom_length: usize,
                ) -> u32;
                pub fn dmm32_is_working(
                    board: Board,
                    memory: *const u16,
                    memory_length: usize,
                ) -> bool;
                pub fn dmm32_advance(
                    board: *mut Board,
                    memory: *mut u16,
                    memory_length: usize,
                    eeprom: *mut u8,
                    eeprom_length: usize,
                    ticks: u32,
                ) -> Advanced;
                pub fn dmm32_ticks_until(
                    board: Board,
                    memory: *const u16,
                    memory_length: usize,
                    eeprom: *const u8,
                    eeprom_length: usize,
                    most: u32,
                ) -> u32;
                pub fn dmm32_note(
                    tally: Tally,
                    board: Board,
                    memory: *const u16,
                    memory_length: usize,
                    eeprom: *const u8,
                    eeprom_length: usize,
                    event: Record,
                ) -> Tally;
                pub fn dmm32_note_ticks(
                    tally: Tally,
                    board: Board,
                    memory: *const u16,
                    memory_length: usize,
                    eeprom: *const u8,
                    eeprom_length: usize,
                    ticks: u32,
                ) -> Tally;
                pub fn dmm32_tally_adds_up(tally: Tally, first: Board, now: Board) -> bool;
                $(pub fn $name(
                    board: *mut Board,
                    memory: *mut u16,
                    memory_length: usize,
                    eeprom: *mut u8,
                    eeprom_length: usize,
                    $($parameter: $kind),*
                ) -> u32;)+
            }
        };
    }

    events! {
        dmm32_write_byte(offset: u32, value: u8);
        dmm32_read_byte(offset: u32);
        dmm32_read_word(offset: u32);
        dmm32_conversion_end(code: i16);
        dmm32_din(lines: u32);
        dmm32_latch(level: u32);
        dmm32_port_a_pins(pins: u8);
        dmm32_port_b_pins(pins: u8);
        dmm32_port_c_pins(pins: u8);
        dmm32_tick();
        dmm32_transfer_end();
        dmm32_step(event: Record);
    }
}

/// The library's fresh record.
pub fn fresh(jumpers: u32, zero_scale: u32) -> Board {
    unsafe { header::dmm32_fresh(jumpers, zero_scale) }
}

/// The library zeroes both memories, where the lengths are right.
pub fn fresh_stores(lent: &mut Lent, memory_length: usize, eeprom_length: usize) -> u32 {
    assert!(memory_length <= MEMORY_ROOM && eeprom_length <= EEPROM_ROOM);
    let (memory, eeprom) = (lent.memory.as_mut_ptr(), lent.eeprom.as_mut_ptr());
    unsafe { header::dmm32_fresh_stores(memory, memory_length, eeprom, eeprom_length) }
}

/// Whether the library takes what is lent for a working board's.
pub fn is_working(lent: &Lent, memory_length: usize) -> bool {
    assert!(memory_length <= MEMORY_ROOM);
    unsafe { header::dmm32_is_working(lent.board, lent.memory.as_ptr(), memory_length) }
}

/// The event as a record of numbers, others in what its kind does not have; none for many ticks.
fn record_of(event: &Event) -> Option<header::Record> {
    let any = header::Record { kind: 0, value: 0x3A, code: -2, offset: 8, levels: 7 };
    let of = |kind| header::Record { kind, ..any };
    Some(match *event {
        Event::WriteByte { offset, value } => header::Record { offset, value, ..of(1) },
        Event::ReadByte { offset } => header::Record { offset, ..of(2) },
        Event::ReadWord { offset } => header::Record { offset, ..of(3) },
        Event::ConversionEnd { code } => header::Record { code, ..of(4) },
        Event::Din { lines } => header::Record { levels: lines, ..of(5) },
        Event::Latch { level } => header::Record { levels: level, ..of(6) },
        Event::PortPins { port: Port::A, pins } => header::Record { value: pins, ..of(7) },
        Event::PortPins { port: Port::B, pins } => header::Record { value: pins, ..of(8) },
        Event::PortPins { port: Port::C, pins } => header::Record { value: pins, ..of(9) },
        Event::Tick => of(10),
        Event::TransferEnd => of(11),
        Event::Advance { .. } => return None,
    })
}

/// The library notes the event of a step, which is about to happen.
pub fn note(lent: &mut Lent, step: &Step) {
    assert!(step.memory_length <= MEMORY_ROOM && step.eeprom_length <= EEPROM_ROOM);
    let (tally, board) = (lent.tally.counts, lent.board);
    let (memory, eeprom) = (lent.memory.as_ptr(), lent.eeprom.as_ptr());
    let (memory_length, eeprom_length) = (step.memory_length, step.eeprom_length);
    macro_rules! noted {
        ($name:ident, $what:expr) => {
            header::$name(tally, board, memory, memory_length, eeprom, eeprom_length, $what)
        };
    }
    lent.tally.counts = unsafe {
        match (record_of(&step.event), step.event) {
            (Some(record), _) => noted!(dmm32_note, record),
            (None, Event::Advance { ticks }) => noted!(dmm32_note_ticks, ticks),
            (None, _) => unreachable!(),
        }
    };
}

/// Whether the library says that a tally adds up.
pub fn adds_up(tally: Tally, first: Board, now: Board) -> bool {
    unsafe { header::dmm32_tally_adds_up(tally, first, now) }
}

/// The library's answer to the event of a step, by its record where the step says so and it has one,
/// else by its function.
pub fn step(lent: &mut Lent, step: &Step) -> u32 {
    assert!(step.memory_length <= MEMORY_ROOM && step.eeprom_length <= EEPROM_ROOM);
    match record_of(&step.event) {
        Some(record) if step.by_record => step_by_record(lent, step, record),
        _ => step_by_function(lent, step),
    }
}

fn step_by_record(lent: &mut Lent, step: &Step, record: header::Record) -> u32 {
    let (memory, eeprom) = (lent.memory.as_mut_ptr(), lent.eeprom.as_mut_ptr());
    let (memory_length, eeprom_length) = (step.memory_length, step.eeprom_length);
    unsafe {
        header::dmm32_step(&mut lent.board, memory, memory_length, eeprom, eeprom_length, record)
    }
}

fn step_by_function(lent: &mut Lent, step: &Step) -> u32 {
    let board: *mut Board = &mut lent.board;
    let (memory, eeprom) = (lent.memory.as_mut_ptr(), lent.eeprom.as_mut_ptr());
    macro_rules! call {
        ($name:ident $(, $value:expr)*) => {
            header::$name(board, memory, step.memory_length, eeprom, step.eeprom_length $(, $value)*)
        };
    }
    unsafe {
        match step.event {
            Event::WriteByte { offset, value } => call!(dmm32_write_byte, offset, value),
            Event::ReadByte { offset } => call!(dmm32_read_byte, offset),
            Event::ReadWord { offset } => call!(dmm32_read_word, offset),
            Event::ConversionEnd { code } => call!(dmm32_conversion_end, code),
            Event::Din { lines } => call!(dmm32_din, lines),
            Event::Latch { level } => call!(dmm32_latch, level),
            Event::PortPins { port: Port::A, pins } => call!(dmm32_port_a_pins, pins),
            Event::PortPins { port: Port::B, pins } => call!(dmm32_port_b_pins, pins),
            Event::PortPins { port: Port::C, pins } => call!(dmm32_port_c_pins, pins),
            Event::Tick => call!(dmm32_tick),
            Event::Advance { ticks } => {
                let (memory_length, eeprom_length) = (step.memory_length, step.eeprom_length);
                let until = header::dmm32_ticks_until(
                    *board,
                    memory,
                    memory_length,
                    eeprom,
                    eeprom_length,
                    ticks,
                );
                let advanced = call!(dmm32_advance, ticks);
                // bit 23 is no answer's: where the two numbers of ticks differ, so do the answers
                let differ = u32::from(until != advanced.done) << 23;
                advanced.answer | advanced.done | differ
            }
            Event::TransferEnd => call!(dmm32_transfer_end),
        }
    }
}
