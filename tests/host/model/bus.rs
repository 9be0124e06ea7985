//! Writes and reads of Base + 0 to Base + 15 that are not refused.

use crate::record::*;
use crate::working::DACBUSY_TICKS;

/// Bits of Base + 8 write.
const RESETA: u8 = 0x20;
const RESETD: u8 = 0x10;
const INTRST: u8 = 0x08;

fn bit(value: impl Into<u8>, number: u8) -> u8 {
    value.into() << number
}

impl Board {
    pub fn write_byte(&mut self, memory: &mut [u16], offset: u32, value: u8) {
        match offset {
            0 if self.converter.clken == 0 => self.trigger(),
            0 => {}
            1 => self.registers.dout = value & 7,
            2 => {
                self.converter.low = value & 31;
                self.converter.selected = self.converter.low;
            }
            3 => {
                self.converter.high = value & 31;
                self.converter.selected = self.converter.low;
            }
            4 => self.outputs.lsb = value,
            5 => self.load_output(value),
            6 => self.requests.threshold = value,
            7 => self.write_fifo_control(memory, value),
            8 => self.write_miscellaneous(memory, value),
            9 => self.write_operation(value),
            10 => self.moving_gates(|board| board.registers.counting = value),
            11 => self.registers.range = value & 15,
            _ => self.write_paged(offset, value),
        }
    }

    fn write_paged(&mut self, offset: u32, value: u8) {
        match (self.registers.page, offset) {
            (0, 15) => self.write_control_word(value),
            (0, _) => self.write_counter(offset as usize - 12, value),
            (1, _) => self.ports.write(offset, value),
            (3, _) => self.calibration.write(offset, value),
            _ => {}
        }
    }

    fn load_output(&mut self, value: u8) {
        let code = u16::from(value & 15) << 8 | u16::from(self.outputs.lsb);
        self.outputs.load = Load { loaded: 1, channel: value >> 6, code };
        self.outputs.busy = DACBUSY_TICKS;
    }

    /// Reading Base + 5: the channel that was loaded last takes its code.
    fn update_output(&mut self) {
        let load = self.outputs.load;
        if load.loaded == 0 || self.outputs.busy != 0 {
            return;
        }
        let codes = &mut self.outputs.codes;
        match load.channel {
            0 => codes.out0 = load.code,
            1 => codes.out1 = load.code,
            2 => codes.out2 = load.code,
            _ => codes.out3 = load.code,
        }
    }

    fn write_fifo_control(&mut self, memory: &mut [u16], value: u8) {
        self.requests.fifoen = value >> 3 & 1;
        self.converter.scanen = value >> 2 & 1;
        if value & 2 != 0 {
            self.empty_memory(memory);
        }
    }

    /// A reset beats INTRST, and INTRST leaves page and key.
    fn write_miscellaneous(&mut self, memory: &mut [u16], value: u8) {
        if value & (RESETA | RESETD) != 0 {
            self.reset(memory, value & RESETA != 0);
        } else if value & INTRST != 0 {
            self.requests.flags = Flags::default();
        } else {
            self.registers.page = value & 3;
            self.calibration.key = 0;
        }
    }

    fn write_operation(&mut self, value: u8) {
        self.requests.adinte = value >> 7;
        self.requests.dinte = value >> 6 & 1;
        self.requests.tinte = value >> 5 & 1;
        self.converter.clken = value >> 1 & 1;
        self.requests.clksel = value & 1;
    }

    /// RESETA or RESETD: counters, dividers, pins, TrimDAC and EEPROM remain.
    fn reset(&mut self, memory: &mut [u16], outputs_too: bool) {
        self.moving_gates(|board| board.registers = Registers::default());
        self.abandon_conversion();
        self.requests = Requests::default();
        self.empty_memory(memory);
        let codes = if outputs_too {
            codes_after_reseta(self.wiring.zeroscale == 1)
        } else {
            self.outputs.codes
        };
        self.outputs = Outputs { codes, ..Outputs::default() };
        self.ports.write_control(ALL_INPUTS);
        let trim = self.calibration.trim;
        self.calibration = Calibration { trim, ..Calibration::default() };
    }

    pub fn read_byte(&mut self, memory: &mut [u16], offset: u32) -> u8 {
        match offset {
            0 => self.oldest(memory) as u8,
            1 => {
                let high_byte = (self.oldest(memory) >> 8) as u8;
                self.take_oldest(memory);
                high_byte
            }
            2 => self.converter.low,
            3 => self.converter.high,
            4 => {
                let busy = bit(self.outputs.busy != 0, 7) | bit(self.calibration.is_busy(), 6);
                busy | self.pins.din
            }
            5 => {
                self.update_output();
                0
            }
            6 => self.requests.threshold,
            7 => self.fifo_status(),
            8 => self.conversion_status(),
            9 => self.operation_status(),
            10 => self.registers.counting,
            11 => self.registers.range,
            _ => self.read_paged(offset),
        }
    }

    fn read_paged(&mut self, offset: u32) -> u8 {
        match (self.registers.page, offset) {
            (0, 15) => 0,
            (0, _) => self.counter_mut(offset as usize - 12).read(),
            (1, _) => self.ports.read(offset),
            (3, _) => self.calibration.read(offset),
            _ => 0,
        }
    }

    fn fifo_status(&self) -> u8 {
        let held = self.fifo.held;
        bit(held == 0, 7)
            | bit(held >= 256, 6)
            | bit(held == 512, 5)
            | bit(self.fifo.ovf == 1, 4)
            | bit(self.requests.fifoen, 3)
            | bit(self.converter.scanen, 2)
            | self.registers.page
    }

    /// STS, S/D1, S/D0 and the selected channel.
    fn conversion_status(&self) -> u8 {
        let single_ended = [0b11, 0b00, 0b10, 0b01][usize::from(self.wiring.inputs)];
        bit(self.converter.converting, 7) | single_ended << 5 | self.converter.selected
    }

    fn operation_status(&self) -> u8 {
        let flags = &self.requests.flags;
        bit(flags.adint, 7)
            | bit(flags.dint, 6)
            | bit(flags.tint, 5)
            | bit(self.converter.clken, 1)
            | bit(self.requests.clksel, 0)
    }
}
