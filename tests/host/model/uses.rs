//! The kinds of use that a board is put to, each a source of random events.

use crate::counter::Mode;
use crate::event::{Event, Port};
use crate::random::Random;
use crate::record::Board;

/// A kind of use.
#[derive(Clone, Copy, Debug, PartialEq, Eq)]
pub enum Use {
    Sampling,
    Filling,
    Draining,
    Counting,
    Clocking,
    Dividing,
    Calibrating,
    Outputs,
    Ports,
    Requests,
    Chaos,
}

impl Use {
    pub const ALL: [Use; 14] = [
        Use::Sampling,
        Use::Sampling,
        Use::Filling,
        Use::Draining,
        Use::Counting,
        Use::Counting,
        Use::Counting,
        Use::Clocking,
        Use::Dividing,
        Use::Calibrating,
        Use::Outputs,
        Use::Ports,
        Use::Requests,
        Use::Chaos,
    ];

    /// The most events that one stretch of this use has.
    pub fn longest(self) -> u32 {
        match self {
            Use::Filling => 1600,
            Use::Dividing => 1500,
            Use::Draining => 600,
            Use::Counting | Use::Clocking => 500,
            _ => 250,
        }
    }
}

/// One who uses a board as it stands.
pub struct User<'a> {
    pub random: &'a mut Random,
    pub board: &'a Board,
}

pub fn write(offset: u32, value: u8) -> Event {
    Event::WriteByte { offset, value }
}

pub fn read(offset: u32) -> Event {
    Event::ReadByte { offset }
}

impl User<'_> {
    /// The next event of a kind of use.
    pub fn event(&mut self, kind: Use) -> Event {
        if self.random.once_in(400) {
            return write(8, self.random.pick(&[0x20, 0x10, 0x30, 0x18, 0x2B, 0x08]));
        }
        match kind {
            Use::Sampling => self.sampling(),
            Use::Filling => self.filling(),
            Use::Draining => self.draining(),
            Use::Counting => self.counting(),
            Use::Clocking => self.clocking(),
            Use::Dividing => self.dividing(),
            Use::Calibrating => self.calibrating(),
            Use::Outputs => self.outputs(),
            Use::Ports => self.ports(),
            Use::Requests => self.requests(),
            Use::Chaos => self.chaos(),
        }
    }

    /// A code, often -1: a sample that reads FFFF.
    fn conversion_end(&mut self) -> Event {
        let code = if self.random.once_in(16) { -1 } else { self.random.word() as i16 };
        Event::ConversionEnd { code }
    }

    /// What begins a conversion under the present clock setting, or leads towards it.
    fn start(&mut self) -> Event {
        let (clken, clksel) = (self.board.converter.clken, self.board.requests.clksel);
        if clken == 0 {
            write(0, self.random.byte())
        } else if clksel == 1 {
            Event::Tick
        } else {
            let din = self.board.pins.din;
            let lines = if self.random.once_in(4) { self.random.byte() & 15 } else { din | 4 };
            Event::Din { lines: u32::from(lines & 7 | !din & 8) }
        }
    }

    fn sampling(&mut self) -> Event {
        match self.random.below(24) {
            0 => write(2, self.random.byte()),
            1 => write(3, self.random.byte()),
            2 => write(3, self.board.converter.low.wrapping_add(self.random.below(4) as u8)),
            3 => write(7, self.random.byte() & 0x0C | self.random.pick(&[0, 0, 0, 2])),
            4 => write(9, self.random.byte() & 0xFC | self.random.pick(&[0, 0, 2, 3])),
            5 => write(6, self.random.pick(&[0, 1, 2, 3, 128, 255])),
            6 => read(self.random.below(12)),
            7 => Event::ReadWord { offset: 0 },
            8 => read(1),
            9 => self.start(),
            10 => write(11, self.random.byte()),
            _ if self.board.converter.converting == 1 => self.conversion_end(),
            _ => self.start(),
        }
    }

    fn filling(&mut self) -> Event {
        match self.random.below(64) {
            0 => self.sampling(),
            1 => write(9, self.random.pick(&[0x00, 0x80])),
            2 => write(7, self.random.pick(&[0x00, 0x04, 0x08, 0x0C])),
            3 => read(self.random.pick(&[7, 8, 9])),
            _ if self.board.converter.converting == 1 => self.conversion_end(),
            _ if self.board.converter.clken == 1 => write(9, self.random.byte() & 0xE0),
            _ => write(0, 0),
        }
    }

    fn draining(&mut self) -> Event {
        match self.random.below(8) {
            0 => self.sampling(),
            1 => read(0),
            2 | 3 => read(1),
            4 => read(7),
            _ => Event::ReadWord { offset: 0 },
        }
    }

    /// The page, where it is another, else nothing.
    pub fn page_first(&mut self, page: u8) -> Option<Event> {
        let elsewhere = self.board.registers.page != page && !self.random.once_in(16);
        elsewhere.then(|| write(8, page))
    }

    /// A control word that is modelled: any counter, any format, mode 0 or 2.
    fn control_word(&mut self) -> Event {
        let counter = self.random.below(3) as u8;
        let format = self.random.pick(&[1, 1, 2, 3, 3]);
        let mode = self.random.pick(&[0, 0, 2, 2, 6]);
        write(15, counter << 6 | format << 4 | mode << 1)
    }

    /// A byte of a count, mostly of a small one.
    fn count_byte(&mut self) -> Event {
        let which = self.random.below(3) as usize;
        let counter = self.board.counter(which);
        let high = counter.bytes.halfwritten == 1 || counter.control >> 4 == 2;
        let value = match self.random.below(8) {
            0 => self.random.byte(),
            1 => 0,
            _ if high => self.random.below(2) as u8,
            _ => self.random.below(6) as u8,
        };
        write(12 + which as u32, value)
    }

    fn any_din(&mut self) -> Event {
        Event::Din { lines: u32::from(self.board.pins.din) ^ 1 << self.random.below(4) }
    }

    fn counting(&mut self) -> Event {
        if let Some(event) = self.page_first(0) {
            return event;
        }
        match self.random.below(32) {
            0 => self.control_word(),
            1..=3 => self.count_byte(),
            4 => write(15, self.random.below(3) as u8 * 0x40 | self.random.byte() & 15),
            5 | 6 => read(12 + self.random.below(3)),
            7 => write(10, self.random.byte() & 0x3F),
            8 => write(10, self.random.pick(&[0x00, 0x05, 0x07, 0x04, 0x01, 0x02])),
            9..=11 => self.any_din(),
            12 => Event::Din { lines: self.random.below(16) },
            13 => write(9, self.random.byte() | self.random.pick(&[0x20, 0x23])),
            14 => self.conversion_end(),
            15 => write(8, 8),
            _ => Event::Tick,
        }
    }

    /// Counters 1 and 2 as the A/D clock: mostly mode 2 and small counts of one byte.
    fn clocking(&mut self) -> Event {
        if let Some(event) = self.page_first(0) {
            return event;
        }
        let which = 1 + self.random.below(2);
        let counter = *self.board.counter(which as usize);
        let counts = counter.count.loaded == 1 || counter.count.waiting == 1;
        let terminal = counter.mode() == Some(Mode::InterruptOnTerminalCount);
        match self.random.below(32) {
            0 => write(9, self.random.byte() & 0xE0 | 3),
            1 => write(10, self.random.pick(&[0x00, 0x01, 0x00, 0x80])),
            2 => self.any_din(),
            3 => self.count_byte(),
            4 if self.random.once_in(4) => self.control_word(),
            5 if terminal => write(12 + which, 2 + self.random.below(3) as u8),
            6 if counter.control != 0x14 => write(15, (which as u8) << 6 | 0x14),
            _ if counter.mode().is_none() => write(15, (which as u8) << 6 | 0x14),
            _ if !counts => write(12 + which, 2 + self.random.below(3) as u8),
            _ if self.board.converter.converting == 1 && self.random.once_in(3) => {
                self.conversion_end()
            }
            _ => Event::Tick,
        }
    }

    fn dividing(&mut self) -> Event {
        match self.random.below(128) {
            0 => write(10, self.random.pick(&[0xC0, 0x40, 0x80, 0x00])),
            1..=3 => self.counting(),
            4 => read(4),
            _ => Event::Tick,
        }
    }

    pub fn any_port(&mut self) -> Port {
        self.random.pick(&[Port::A, Port::B, Port::C])
    }

    /// A trigger where none runs, else the end of the conversion.
    pub fn convert(&mut self) -> Event {
        if self.board.converter.converting == 1 {
            self.conversion_end()
        } else {
            self.start()
        }
    }
}
