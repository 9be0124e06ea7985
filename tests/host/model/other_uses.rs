//! Further kinds of use: calibration, outputs, ports, requests, and events without any aim.

use crate::event::Event;
use crate::pages::KEY;
use crate::uses::{read, write, User};

/// Offsets and levels beyond 15, many of them below 16 in their low byte or their low half.
pub const FAR: [u32; 20] = [
    16, 17, 31, 32, 127, 128, 240, 255, 256, 257, 263, 264, 271, 272, 65536, 65543, 65551,
    16777216, 2147483648, 4294967295,
];

impl User<'_> {
    /// A level of a pin: 0 is low, any other number high.
    fn level(&mut self) -> u32 {
        self.random.pick(&[0, 0, 0, 0, 1, 1, 2, 255, 256, 65536, 1 << 31, u32::MAX])
    }

    pub fn calibrating(&mut self) -> Event {
        if let Some(event) = self.page_first(3) {
            return event;
        }
        let running = self.board.calibration.is_busy();
        match self.random.below(20) {
            0..=2 => write(12, self.random.byte()),
            3 | 4 => write(13, self.random.pick(&[0, 1, 2, 5, 7, 8, 100, 127, 128, 255])),
            5 | 6 => write(14, self.random.pick(&[0x80, 0xC0, 0x90, 0xD0])),
            7 => write(14, self.random.pick(&[0x20, 0x30, 0x60])),
            8 => write(14, self.random.pick(&[0x08, 0x18, 0x4F])),
            9 => write(14, self.random.byte()),
            10 => write(15, KEY),
            11 => write(15, self.random.pick(&[KEY, KEY, KEY, 0, 0x5A, 0xA4])),
            12 => read(self.random.pick(&[4, 12, 13])),
            13 => read(self.random.pick(&[14, 15])),
            14 => write(8, self.random.pick(&[3, 0x0B, 0x0F])),
            _ if running || self.random.once_in(8) => Event::TransferEnd,
            _ => write(14, self.random.pick(&[0x80, 0xC0, 0x20, 0x08])),
        }
    }

    pub fn outputs(&mut self) -> Event {
        let busy = self.board.outputs.busy;
        match self.random.below(16) {
            0 => write(4, self.random.byte()),
            1 => write(5, self.random.byte()),
            2 => read(5),
            3 => read(4),
            4 => write(1, self.random.byte()),
            _ if busy > 0 => Event::Tick,
            5..=9 => write(4, self.random.byte()),
            10..=12 => read(5),
            _ => write(5, self.random.byte()),
        }
    }

    pub fn ports(&mut self) -> Event {
        if let Some(event) = self.page_first(1) {
            return event;
        }
        match self.random.below(16) {
            0 => write(15, self.random.byte()),
            1 => write(15, 0x80 | self.random.byte() & 0x1B),
            2..=5 => write(12 + self.random.below(3), self.random.byte()),
            6..=11 => read(12 + self.random.below(4)),
            _ => Event::PortPins { port: self.any_port(), pins: self.random.byte() },
        }
    }

    pub fn requests(&mut self) -> Event {
        let din0_clocks = self.board.registers.counting & 2 != 0;
        match self.random.below(24) {
            0 | 1 => write(9, self.random.byte() & 0xFC),
            2..=6 => Event::Latch { level: self.level() },
            7 => write(8, 8),
            8 => write(6, self.random.below(8) as u8),
            9 => write(7, self.random.byte() & 0x0C),
            10..=12 => read(9),
            13 => write(10, self.random.pick(&[0x02, 0x06, 0x00])),
            14 | 15 => Event::Din { lines: u32::from(self.board.pins.din ^ 1) },
            16 => Event::ReadWord { offset: 0 },
            17 if self.board.registers.page != 0 => write(8, 0),
            17 => write(15, self.random.pick(&[0x14, 0x34, 0x10])),
            18 => write(12, self.random.below(4) as u8),
            19..=21 if din0_clocks => Event::Din { lines: u32::from(self.board.pins.din ^ 1) },
            _ => self.convert(),
        }
    }

    /// Any event at all.
    pub fn chaos(&mut self) -> Event {
        match self.random.below(24) {
            0..=7 => write(self.random.below(17), self.random.byte()),
            8 => write(self.random.below(16), self.random.pick(&[0, 1, 2, 3, 0xA5, 0xFF])),
            9..=14 => read(self.random.below(17)),
            15 => Event::ReadWord { offset: self.random.below(2) },
            16 | 17 => Event::ConversionEnd { code: self.random.word() as i16 },
            18 => Event::Din { lines: self.random.below(17) },
            19 => Event::Latch { level: self.level() },
            20 => Event::PortPins { port: self.any_port(), pins: self.random.byte() },
            21 => Event::TransferEnd,
            22 => write(8, self.random.below(4) as u8),
            _ => Event::Tick,
        }
    }

    /// Events that are refused, or come near to it.
    pub fn misuse(&mut self) -> Event {
        let far = self.random.pick(&FAR);
        match self.random.below(12) {
            0 => write(far, self.random.byte()),
            1 => read(far),
            2 => Event::ReadWord { offset: self.random.pick(&[1, 2, 8, 15, far]) },
            3 => Event::Din { lines: self.random.pick(&[15, 16, far]) },
            4 => Event::ConversionEnd { code: 1 },
            5 => Event::TransferEnd,
            6 => write(self.random.pick(&[4, 5]), self.random.byte()),
            7 if self.board.registers.page == 0 => write(15, self.random.byte()),
            8 if self.board.registers.page == 0 => write(12 + self.random.below(3), 1),
            7..=9 if self.board.registers.page != 2 => write(8, 2),
            10 => write(14, self.random.byte()),
            _ => self.random.pick(&[read(15), write(15, 0), write(15, 1), read(12), write(13, 3)]),
        }
    }
}
