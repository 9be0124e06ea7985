//! The record of a board, field by field as in the C header, and a fresh board. All fields are
//! numbers, so that any bytes are a record; a flag is 0 or 1 in a working board.

/// Channels and conversions.
#[repr(C)]
#[derive(Clone, Copy, Debug, Default, PartialEq, Eq)]
pub struct Converter {
    pub low: u8,
    pub high: u8,
    pub selected: u8,
    pub channel: u8,
    pub converting: u8,
    pub scanen: u8,
    pub clken: u8,
}

/// The three request flags of Base + 9.
#[repr(C)]
#[derive(Clone, Copy, Debug, Default, PartialEq, Eq)]
pub struct Flags {
    pub adint: u8,
    pub dint: u8,
    pub tint: u8,
}

/// What is requested when.
#[repr(C)]
#[derive(Clone, Copy, Debug, Default, PartialEq, Eq)]
pub struct Requests {
    pub threshold: u8,
    pub fifoen: u8,
    pub clksel: u8,
    pub adinte: u8,
    pub dinte: u8,
    pub tinte: u8,
    pub flags: Flags,
}

/// The state of the sample memory: how many samples are held, the place of the oldest, OVF.
#[repr(C)]
#[derive(Clone, Copy, Debug, Default, PartialEq, Eq)]
pub struct Fifo {
    pub held: u16,
    pub place: u16,
    pub ovf: u16,
}

/// Registers that stand alone.
#[repr(C)]
#[derive(Clone, Copy, Debug, Default, PartialEq, Eq)]
pub struct Registers {
    pub page: u8,
    pub dout: u8,
    pub counting: u8,
    pub range: u8,
}

/// What the four analogue outputs put out.
#[repr(C)]
#[derive(Clone, Copy, Debug, Default, PartialEq, Eq)]
pub struct Codes {
    pub out0: u16,
    pub out1: u16,
    pub out2: u16,
    pub out3: u16,
}

/// The load register of the D/A chip.
#[repr(C)]
#[derive(Clone, Copy, Debug, Default, PartialEq, Eq)]
pub struct Load {
    pub loaded: u8,
    pub channel: u8,
    pub code: u16,
}

/// The analogue outputs.
#[repr(C)]
#[derive(Clone, Copy, Debug, Default, PartialEq, Eq)]
pub struct Outputs {
    pub codes: Codes,
    pub load: Load,
    pub lsb: u8,
    pub busy: u8,
}

/// The count of one counter: CR, CE and OUT.
#[repr(C)]
#[derive(Clone, Copy, Debug, Default, PartialEq, Eq)]
pub struct Count {
    pub count_register: u16,
    pub element: u16,
    pub out: u8,
    pub waiting: u8,
    pub loaded: u16,
}

/// The bytes of one counter on their way to and from the bus.
#[repr(C)]
#[derive(Clone, Copy, Debug, Default, PartialEq, Eq)]
pub struct CounterBytes {
    pub latch: u16,
    pub latched: u8,
    pub halfread: u8,
    pub first: u8,
    pub halfwritten: u8,
}

/// One counter of the 82C54.
#[repr(C)]
#[derive(Clone, Copy, Debug, Default, PartialEq, Eq)]
pub struct Counter {
    pub control: u8,
    pub trigger: u8,
    pub count: Count,
    pub bytes: CounterBytes,
}

/// The 82C54.
#[repr(C)]
#[derive(Clone, Copy, Debug, Default, PartialEq, Eq)]
pub struct Timer {
    pub counter0: Counter,
    pub counter1: Counter,
    pub counter2: Counter,
}

/// The 82C54 and the two dividers.
#[repr(C)]
#[derive(Clone, Copy, Debug, Default, PartialEq, Eq)]
pub struct Clocks {
    pub timer: Timer,
    pub hundred: u16,
    pub thousand: u16,
}

/// A byte for each port.
#[repr(C)]
#[derive(Clone, Copy, Debug, Default, PartialEq, Eq)]
pub struct Lines {
    pub a: u8,
    pub b: u8,
    pub c: u8,
}

/// The 82C55 in mode 0.
#[repr(C)]
#[derive(Clone, Copy, Debug, Default, PartialEq, Eq)]
pub struct Ports {
    pub control: u8,
    pub latches: Lines,
    pub pins: Lines,
}

/// Calibration, page 3.
#[repr(C)]
#[derive(Clone, Copy, Debug, Default, PartialEq, Eq)]
pub struct Calibration {
    pub value: u8,
    pub address: u8,
    pub transfer: u8,
    pub key: u8,
    pub cmuxen: u8,
    pub trim: [u8; 8],
}

/// The levels of the pins.
#[repr(C)]
#[derive(Clone, Copy, Debug, Default, PartialEq, Eq)]
pub struct Pins {
    pub din: u8,
    pub latch: u8,
}

/// The jumpers.
#[repr(C)]
#[derive(Clone, Copy, Debug, Default, PartialEq, Eq)]
pub struct Wiring {
    pub inputs: u8,
    pub zeroscale: u8,
}

/// The record.
#[repr(C)]
#[derive(Clone, Copy, Debug, Default, PartialEq, Eq)]
pub struct Board {
    pub converter: Converter,
    pub requests: Requests,
    pub fifo: Fifo,
    pub registers: Registers,
    pub outputs: Outputs,
    pub clocks: Clocks,
    pub ports: Ports,
    pub calibration: Calibration,
    pub pins: Pins,
    pub wiring: Wiring,
}

/// Bytes in a record.
pub const RECORD_LENGTH: usize = 116;

impl Board {
    /// The record that has these bytes. It has no padding, and any number may stand in each field.
    pub fn of_bytes(bytes: [u8; RECORD_LENGTH]) -> Board {
        unsafe { std::mem::transmute(bytes) }
    }

    pub fn bytes(self) -> [u8; RECORD_LENGTH] {
        unsafe { std::mem::transmute(self) }
    }
}

/// The 82C55 control byte that makes all ports inputs.
pub const ALL_INPUTS: u8 = 0x9B;

/// The level of all outputs after RESETA.
pub fn codes_after_reseta(zero_scale: bool) -> Codes {
    let code = if zero_scale { 0 } else { 2048 };
    Codes { out0: code, out1: code, out2: code, out3: code }
}

/// A fresh board with these jumpers; a number above 255 stays as 255.
pub fn fresh(jumpers: u32, zero_scale: u32) -> Board {
    let mut board = Board::default();
    board.outputs.codes = codes_after_reseta(zero_scale != 0);
    board.clocks.timer.counter0.count.out = 1;
    board.clocks.timer.counter1.count.out = 1;
    board.clocks.timer.counter2.count.out = 1;
    board.ports.control = ALL_INPUTS;
    board.pins.din = 15;
    board.wiring = Wiring { inputs: jumpers.min(255) as u8, zeroscale: u8::from(zero_scale != 0) };
    board
}
