//! What a working board is: every number in its range, every flag 0 or 1, free places of the sample
//! memory 0.

use crate::counter::Mode;
use crate::record::*;

/// Numbers in a sample memory.
pub const MEMORY_LENGTH: usize = 512;
/// Bytes in an EEPROM.
pub const EEPROM_LENGTH: usize = 128;
/// Ticks of DACBUSY after a write to Base + 5.
pub const DACBUSY_TICKS: u8 = 100;

/// Whether record and sample memory are a working board's.
pub fn is_working(board: &Board, memory: &[u16]) -> bool {
    memory.len() == MEMORY_LENGTH
        && fifo_works(&board.fifo, memory)
        && converter_works(&board.converter)
        && requests_work(&board.requests)
        && registers_work(&board.registers)
        && outputs_work(&board.outputs)
        && clocks_work(&board.clocks)
        && control_byte_is_taken(board.ports.control)
        && board.calibration.address < 128
        && board.calibration.transfer <= 4
        && are_flags(&[board.calibration.key, board.calibration.cmuxen])
        && board.pins.din <= 15
        && board.wiring.inputs <= 3
        && are_flags(&[board.pins.latch, board.wiring.zeroscale])
}

fn are_flags(numbers: &[u8]) -> bool {
    numbers.iter().all(|number| matches!(number, 0 | 1))
}

/// Whether the 82C55 takes a control byte: bit 7 set, mode bits 6, 5 and 2 clear.
pub fn control_byte_is_taken(control: u8) -> bool {
    control & 0b1110_0100 == 0b1000_0000
}

fn fifo_works(fifo: &Fifo, memory: &[u16]) -> bool {
    let (held, place) = (usize::from(fifo.held), usize::from(fifo.place));
    held <= MEMORY_LENGTH
        && place < MEMORY_LENGTH
        && (held > 0 || place == 0)
        && (fifo.ovf == 0 || fifo.ovf == 1 && held == MEMORY_LENGTH)
        && free_places(held, place, memory).iter().all(|stretch| stretch.iter().all(|&n| n == 0))
}

/// The free places: the stretch from behind the newest sample to before the oldest, where the
/// samples go round the end; else that behind the newest and that before the oldest.
fn free_places(held: usize, place: usize, memory: &[u16]) -> [&[u16]; 2] {
    let behind = place + held;
    if behind > MEMORY_LENGTH {
        [&memory[behind - MEMORY_LENGTH..place], &[]]
    } else {
        [&memory[behind..], &memory[..place]]
    }
}

fn converter_works(converter: &Converter) -> bool {
    converter.low < 32
        && converter.high < 32
        && converter.selected < 32
        && converter.channel < 32
        && are_flags(&[converter.converting, converter.scanen, converter.clken])
}

fn requests_work(requests: &Requests) -> bool {
    let flags = &requests.flags;
    are_flags(&[requests.fifoen, requests.clksel, requests.adinte, requests.dinte, requests.tinte])
        && are_flags(&[flags.adint, flags.dint, flags.tint])
}

fn registers_work(registers: &Registers) -> bool {
    registers.page < 4 && registers.dout < 8 && registers.range < 16
}

fn outputs_work(outputs: &Outputs) -> bool {
    let codes = &outputs.codes;
    let load = &outputs.load;
    [codes.out0, codes.out1, codes.out2, codes.out3, load.code].iter().all(|&code| code < 4096)
        && are_flags(&[load.loaded])
        && load.channel < 4
        && outputs.busy <= DACBUSY_TICKS
}

fn clocks_work(clocks: &Clocks) -> bool {
    clocks.hundred < 100
        && clocks.thousand < 1000
        && counter_works(&clocks.timer.counter0)
        && counter_works(&clocks.timer.counter1)
        && counter_works(&clocks.timer.counter2)
}

fn counter_works(counter: &Counter) -> bool {
    let (count, bytes) = (&counter.count, &counter.bytes);
    are_flags(&[counter.trigger, count.out, count.waiting])
        && matches!(count.loaded, 0 | 1)
        && are_flags(&[bytes.latched, bytes.halfread, bytes.halfwritten])
        && control_works(counter)
}

fn control_works(counter: &Counter) -> bool {
    if counter.control == 0 {
        return counter.count.out == 1;
    }
    let format_given = counter.control & 0b11_0000 != 0;
    let binary = counter.control & 1 == 0;
    let mode = Mode::of_control(counter.control);
    let one_to_load = mode == Some(Mode::RateGenerator) && counter.count.count_register == 1;
    counter.control < 64 && format_given && binary && mode.is_some() && !one_to_load
}
