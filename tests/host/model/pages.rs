//! The 82C55 of page 1 and the calibration registers of page 3.

use crate::record::{Board, Calibration, Lines, Ports};

/// Bits of page 3's Base + 14.
pub const EE_EN: u8 = 0x80;
const EE_RW: u8 = 0x40;
pub const RUNCAL: u8 = 0x20;
const CMUXEN: u8 = 0x10;
pub const TDACEN: u8 = 0x08;

/// The key that lets EEPROM commands through.
pub const KEY: u8 = 0xA5;
/// The revision code, Base + 15 of page 3.
const REVISION: u8 = 34;

/// The numbers of a running transfer.
pub const NO_TRANSFER: u8 = 0;
pub const EEPROM_READ: u8 = 1;
pub const EEPROM_WRITE: u8 = 2;
pub const RUN_CALIBRATION: u8 = 3;
pub const TRIMDAC_WRITE: u8 = 4;

impl Ports {
    /// A control byte that is taken clears the output latches.
    pub fn write_control(&mut self, control: u8) {
        self.control = control;
        self.latches = Lines::default();
    }

    pub fn write(&mut self, offset: u32, byte: u8) {
        match offset {
            12 => self.latches.a = byte,
            13 => self.latches.b = byte,
            14 => self.latches.c = byte,
            _ => self.write_control(byte),
        }
    }

    /// Input lines read the pins, output lines the latch.
    pub fn read(&self, offset: u32) -> u8 {
        let direction = |bit: u8, lines: u8| if self.control & bit != 0 { lines } else { 0 };
        let (inputs, pins, latch) = match offset {
            12 => (direction(0x10, 0xFF), self.pins.a, self.latches.a),
            13 => (direction(0x02, 0xFF), self.pins.b, self.latches.b),
            14 => (direction(0x08, 0xF0) | direction(0x01, 0x0F), self.pins.c, self.latches.c),
            _ => return self.control,
        };
        pins & inputs | latch & !inputs
    }
}

/// How many of EE_EN, RUNCAL and TDACEN a byte has.
pub fn commands_in(byte: u8) -> u32 {
    (byte & (EE_EN | RUNCAL | TDACEN)).count_ones()
}

/// The transfer that a byte at Base + 14 starts.
pub fn transfer_of(byte: u8) -> u8 {
    if byte & RUNCAL != 0 {
        RUN_CALIBRATION
    } else if byte & TDACEN != 0 {
        TRIMDAC_WRITE
    } else if byte & EE_EN == 0 {
        NO_TRANSFER
    } else if byte & EE_RW != 0 {
        EEPROM_READ
    } else {
        EEPROM_WRITE
    }
}

impl Calibration {
    pub fn write(&mut self, offset: u32, byte: u8) {
        match offset {
            12 => self.value = byte,
            13 => self.address = byte & 0x7F,
            14 => {
                self.cmuxen = u8::from(byte & CMUXEN != 0);
                self.transfer = transfer_of(byte);
            }
            _ => self.key = u8::from(byte == KEY),
        }
    }

    pub fn read(&self, offset: u32) -> u8 {
        match offset {
            12 => self.value,
            13 => self.address,
            14 => self.status(),
            _ => REVISION,
        }
    }

    /// TDBUSY bit 6, EEBUSY bit 5, CMUXEN bit 4, TDACEN bit 3.
    fn status(&self) -> u8 {
        let cmuxen = if self.cmuxen == 1 { CMUXEN } else { 0 };
        let busy = match self.transfer {
            NO_TRANSFER => 0,
            TRIMDAC_WRITE => 0x40 | TDACEN,
            _ => 0x20,
        };
        cmuxen | busy
    }

    /// CALBUSY.
    pub fn is_busy(&self) -> bool {
        self.transfer != NO_TRANSFER
    }

    /// The transfer that runs ends: its data and address are those of now.
    pub fn transfer_end(&mut self, eeprom: &mut [u8]) {
        let address = usize::from(self.address);
        match self.transfer {
            EEPROM_READ => self.value = eeprom[address],
            EEPROM_WRITE => eeprom[address] = self.value,
            RUN_CALIBRATION => self.trim.copy_from_slice(&eeprom[..8]),
            _ => self.trim[address & 7] = self.value,
        }
        self.transfer = NO_TRANSFER;
    }
}

impl Board {
    pub fn port_pins(&mut self, port: crate::event::Port, pins: u8) {
        use crate::event::Port;
        match port {
            Port::A => self.ports.pins.a = pins,
            Port::B => self.ports.pins.b = pins,
            Port::C => self.ports.pins.c = pins,
        }
    }
}
