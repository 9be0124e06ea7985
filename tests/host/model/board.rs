//! One event on a board: the refusals in their order, then what the event does.

use crate::counter::Command;
use crate::event::{refusal, Answer, Event};
use crate::pages::{commands_in, EE_EN};
use crate::record::Board;
use crate::working::{control_byte_is_taken, is_working, EEPROM_LENGTH, MEMORY_LENGTH};

/// The event changes record and memories and gives its answer; a refused one changes nothing.
pub fn step(board: &mut Board, memory: &mut [u16], eeprom: &mut [u8], event: &Event) -> Answer {
    if memory.len() != MEMORY_LENGTH || eeprom.len() != EEPROM_LENGTH {
        return Answer::Refused(refusal::LENGTH);
    }
    if !is_working(board, memory) {
        return Answer::Refused(refusal::RECORD);
    }
    match refusal_of(board, event) {
        Some(number) => Answer::Refused(number),
        None => perform(board, memory, eeprom, event),
    }
}

fn perform(board: &mut Board, memory: &mut [u16], eeprom: &mut [u8], event: &Event) -> Answer {
    match *event {
        Event::WriteByte { offset, value } => board.write_byte(memory, offset, value),
        Event::ReadByte { offset } => return Answer::Byte(board.read_byte(memory, offset)),
        Event::ReadWord { .. } => {
            let empty = board.fifo.held == 0;
            let low = board.read_byte(memory, 0);
            let high = board.read_byte(memory, 1);
            let word = u16::from_le_bytes([low, high]);
            return if empty { Answer::Nothing } else { Answer::Word(word) };
        }
        Event::ConversionEnd { code } => board.conversion_end(memory, code),
        Event::Din { lines } => board.din_pins(lines as u8),
        Event::Latch { level } => board.latch_pin(level != 0),
        Event::PortPins { port, pins } => board.port_pins(port, pins),
        Event::Tick => board.tick(),
        Event::Advance { ticks } => return Answer::Ticks(board.advance(ticks)),
        Event::TransferEnd => board.calibration.transfer_end(eeprom),
    }
    Answer::Done
}

fn when(refused: bool, number: u8) -> Option<u8> {
    if refused {
        Some(number)
    } else {
        None
    }
}

/// The refusal of an event by a working board, if any.
fn refusal_of(board: &Board, event: &Event) -> Option<u8> {
    match *event {
        Event::WriteByte { offset, value } => {
            when(offset > 15, refusal::OFFSET).or_else(|| refusal_of_write(board, offset, value))
        }
        Event::ReadByte { offset } => when(offset > 15, refusal::OFFSET)
            .or_else(|| when(offset == 15 && board.registers.page == 2, refusal::NOT_MODELLED)),
        Event::ReadWord { offset } => when(offset != 0, refusal::OFFSET),
        Event::ConversionEnd { .. } => {
            when(board.converter.converting == 0, refusal::NO_CONVERSION)
        }
        Event::Din { lines } => when(lines > 15, refusal::DIN),
        Event::TransferEnd => when(!board.calibration.is_busy(), refusal::NO_TRANSFER),
        Event::Latch { .. } | Event::PortPins { .. } | Event::Tick | Event::Advance { .. } => None,
    }
}

fn refusal_of_write(board: &Board, offset: u32, value: u8) -> Option<u8> {
    match (board.registers.page, offset) {
        (_, 4 | 5) => when(board.outputs.busy != 0, refusal::BUSY),
        (0, 12..=14) => {
            let counter = board.counter(offset as usize - 12);
            when(counter.refuses(value), refusal::NOT_MODELLED)
        }
        (0, 15) => when(Command::of_byte(value) == Command::NotModelled, refusal::NOT_MODELLED),
        (1, 15) => when(!control_byte_is_taken(value), refusal::NOT_MODELLED),
        (2, 15) => Some(refusal::NOT_MODELLED),
        (3, 12..=14) if board.calibration.is_busy() => Some(refusal::BUSY),
        (3, 14) => when(commands_in(value) > 1, refusal::COMMANDS)
            .or_else(|| when(value & EE_EN != 0 && board.calibration.key == 0, refusal::NO_KEY)),
        _ => None,
    }
}
