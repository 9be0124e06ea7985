//! The fields of the record by name, to be set to any number and to be listed.

use crate::record::{Board, Counter};

/// What a working board has in a field.
#[derive(Clone, Copy, PartialEq, Eq)]
pub enum Kind {
    /// Any number.
    Any,
    /// Some of the numbers.
    Ranged,
    /// 0 or 1.
    Flag,
    /// 0 or 1, and in some boards only one of them.
    BoundFlag,
}

impl Kind {
    pub fn is_flag(self) -> bool {
        matches!(self, Kind::Flag | Kind::BoundFlag)
    }
}

/// A field of T with a name, and how it takes a number.
pub struct Field<T> {
    pub name: &'static str,
    pub kind: Kind,
    pub set: fn(&mut T, u16),
    pub get: fn(&T) -> u16,
}

macro_rules! number {
    ($kind:ident, $($part:ident).+) => {
        Field {
            name: stringify!($($part).+),
            kind: Kind::$kind,
            set: |place, value| place.$($part).+ = value as _,
            get: |place| place.$($part).+ as u16,
        }
    };
}

/// The fields outside the counters.
pub static BOARD_FIELDS: [Field<Board>; 51] = [
    number!(Ranged, converter.low),
    number!(Ranged, converter.high),
    number!(Ranged, converter.selected),
    number!(Ranged, converter.channel),
    number!(Flag, converter.converting),
    number!(Flag, converter.scanen),
    number!(Flag, converter.clken),
    number!(Any, requests.threshold),
    number!(Flag, requests.fifoen),
    number!(Flag, requests.clksel),
    number!(Flag, requests.adinte),
    number!(Flag, requests.dinte),
    number!(Flag, requests.tinte),
    number!(Flag, requests.flags.adint),
    number!(Flag, requests.flags.dint),
    number!(Flag, requests.flags.tint),
    number!(Ranged, fifo.held),
    number!(Ranged, fifo.place),
    number!(BoundFlag, fifo.ovf),
    number!(Ranged, registers.page),
    number!(Ranged, registers.dout),
    number!(Any, registers.counting),
    number!(Ranged, registers.range),
    number!(Ranged, outputs.codes.out0),
    number!(Ranged, outputs.codes.out1),
    number!(Ranged, outputs.codes.out2),
    number!(Ranged, outputs.codes.out3),
    number!(Flag, outputs.load.loaded),
    number!(Ranged, outputs.load.channel),
    number!(Ranged, outputs.load.code),
    number!(Any, outputs.lsb),
    number!(Ranged, outputs.busy),
    number!(Ranged, clocks.hundred),
    number!(Ranged, clocks.thousand),
    number!(Ranged, ports.control),
    number!(Any, ports.latches.a),
    number!(Any, ports.latches.b),
    number!(Any, ports.latches.c),
    number!(Any, ports.pins.a),
    number!(Any, ports.pins.b),
    number!(Any, ports.pins.c),
    number!(Any, calibration.value),
    number!(Ranged, calibration.address),
    number!(Ranged, calibration.transfer),
    number!(Flag, calibration.key),
    number!(Flag, calibration.cmuxen),
    Field {
        name: "calibration.trim",
        kind: Kind::Any,
        get: |board| u16::from(board.calibration.trim[0]),
        set: |board, value| board.calibration.trim[usize::from(value % 8)] = (value >> 8) as u8,
    },
    number!(Ranged, pins.din),
    number!(Flag, pins.latch),
    number!(Ranged, wiring.inputs),
    number!(Flag, wiring.zeroscale),
];

/// The fields of one counter.
pub static COUNTER_FIELDS: [Field<Counter>; 12] = [
    number!(Ranged, control),
    number!(Flag, trigger),
    number!(Ranged, count.count_register),
    number!(Any, count.element),
    number!(BoundFlag, count.out),
    number!(Flag, count.waiting),
    number!(Flag, count.loaded),
    number!(Any, bytes.latch),
    number!(Flag, bytes.latched),
    number!(Flag, bytes.halfread),
    number!(Any, bytes.first),
    number!(Flag, bytes.halfwritten),
];

/// The number of all fields: those of the board, then those of counters 0, 1 and 2.
pub const FIELD_COUNT: usize = BOARD_FIELDS.len() + 3 * COUNTER_FIELDS.len();

/// The counter and its field that a number beyond the board's fields stands for.
fn counter_field(field: usize) -> (usize, &'static Field<Counter>) {
    let beyond = field - BOARD_FIELDS.len();
    (beyond / COUNTER_FIELDS.len(), &COUNTER_FIELDS[beyond % COUNTER_FIELDS.len()])
}

/// Gives a value to a field; what does not fit the field's type is cut off.
pub fn set_field(board: &mut Board, field: usize, value: u16) {
    if field < BOARD_FIELDS.len() {
        (BOARD_FIELDS[field].set)(board, value);
    } else {
        let (which, counter_field) = counter_field(field);
        (counter_field.set)(board.counter_mut(which), value);
    }
}

pub fn field_value(board: &Board, field: usize) -> u16 {
    if field < BOARD_FIELDS.len() {
        (BOARD_FIELDS[field].get)(board)
    } else {
        let (which, counter_field) = counter_field(field);
        (counter_field.get)(board.counter(which))
    }
}

/// The number of a field by its full name.
pub fn field_number(name: &str) -> usize {
    (0..FIELD_COUNT).find(|&field| field_name(field) == name).expect("a field of the record")
}

pub fn field_kind(field: usize) -> Kind {
    if field < BOARD_FIELDS.len() {
        BOARD_FIELDS[field].kind
    } else {
        counter_field(field).1.kind
    }
}

pub fn field_name(field: usize) -> String {
    if field < BOARD_FIELDS.len() {
        BOARD_FIELDS[field].name.to_string()
    } else {
        let (which, counter_field) = counter_field(field);
        format!("clocks.timer.counter{which}.{}", counter_field.name)
    }
}

/// Every field with its path and value, from the record's own listing.
pub fn listing(board: &Board) -> Vec<(String, String)> {
    let mut path: Vec<String> = Vec::new();
    let mut fields = Vec::new();
    for line in format!("{board:#?}").lines().skip(1) {
        let line = line.trim().trim_end_matches(',');
        if line == "}" || line == "]" {
            path.pop();
        } else if line.ends_with('{') || line.ends_with('[') {
            path.push(line.split(':').next().unwrap_or("").to_string());
        } else {
            let (name, value) = line.split_once(": ").unwrap_or(("", line));
            let place = fields.len().to_string();
            let name = if name.is_empty() { place.as_str() } else { name };
            fields.push((format!("{}.{name}", path.join(".")), value.to_string()));
        }
    }
    fields
}

/// The fields that differ, each with its path and both values.
pub fn differing(left: &Board, right: &Board) -> Vec<(String, String, String)> {
    let pairs = listing(left).into_iter().zip(listing(right));
    pairs
        .filter(|(one, other)| one.1 != other.1)
        .map(|((path, one), (_, other))| (path, one, other))
        .collect()
}
