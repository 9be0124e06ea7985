// A Rust host of the static library: compares the bits of the volts of every A/D code at every range code with exact fractions and with a division
// of its own, and output requests with the table of the voltages at which one code gives way to the next. Prints what it compared; the exit status is
// 1 where anything differs.
use std::hint::black_box;
use std::process::ExitCode;

extern "C" {
    fn dmm32_volts(code: i16, range: u32) -> f64;
    fn dmm32_volts_refusal(range: u32) -> u32;
    fn dmm32_output_code(microvolts: i32, range: u32) -> u32;
    fn dmm32_output_bytes(microvolts: i32, range: u32, channel: u32) -> u32;
}

#[derive(Default)]
struct Tally {
    compared: u64,
    differ: u64,
}

impl Tally {
    fn result(&mut self, same: bool, what: impl FnOnce() -> String) {
        self.compared += 1;
        if !same {
            self.differ += 1;
            if self.differ <= 10 {
                println!("host.rs: differs: {}", what());
            }
        }
    }
}

// The table of chapter 9.2: unipolar or not, range in volts, gain.
fn row(range: u32) -> Option<(bool, i128, i128)> {
    let gain = 1 << (range % 4);
    match range {
        0..=3 => Some((false, 5, gain)),
        8..=11 => Some((false, 10, gain)),
        12..=15 => Some((true, 10, gain)),
        _ => None,
    }
}

// The bits of the f64 that is exactly numerator / denominator, where there is one: the fraction in lowest terms is odd * 2 ^ exponent.
fn exact_bits(numerator: i128, denominator: i128) -> Option<u64> {
    if numerator == 0 {
        return Some(0);
    }
    let (mut n, mut d) = (numerator.unsigned_abs(), denominator.unsigned_abs());
    let (mut a, mut b) = (n, d);
    while b != 0 {
        (a, b) = (b, a % b);
    }
    n /= a;
    d /= a;
    if !d.is_power_of_two() || n >= 1 << 53 {
        return None;
    }
    let top = 127 - n.leading_zeros();
    let exponent = 1023 + top as i64 - d.trailing_zeros() as i64;
    let mantissa = (n << (52 - top)) as u64 & ((1 << 52) - 1);
    Some((((numerator < 0) as u64) << 63) | ((exponent as u64) << 52) | mantissa)
}

// x over by, as the processor divides: the compiler does not know by what, and cannot make a multiplication of it.
fn quotient(x: f64, by: i128) -> f64 {
    x / black_box(by as f64)
}

fn volts_at(tally: &mut Tally, range: u32) {
    let refusal = unsafe { dmm32_volts_refusal(range) };
    tally.result(refusal == if row(range).is_some() { 0 } else { 13 }, || format!("volts_refusal({range})"));
    for code in i16::MIN..=i16::MAX {
        let x = unsafe { dmm32_volts(code, range) };
        let Some((unipolar, volts, gain)) = row(range) else {
            tally.result(x.to_bits() == f64::NAN.to_bits(), || format!("volts({code}, {range}) is {x}"));
            continue;
        };
        let (n, over) = if unipolar { (code as i128 + 32768, 65536) } else { (code as i128, 32768) };
        tally.result(exact_bits(n * volts, over * gain) == Some(x.to_bits()), || format!("volts({code}, {range}) is {x}"));
        let divided = quotient(n as f64 * quotient(volts as f64, gain), over);
        tally.result(divided.to_bits() == x.to_bits(), || format!("volts({code}, {range}) is {x}, divided {divided}"));
    }
}

// For an output range: the least microvolts that are nearest to each code from 0 to 4096, the first being the low end itself. Between two codes
// lies their half, which is the upper one's.
fn firsts(low: i64, swing: i64) -> Vec<i64> {
    let mut v = vec![low];
    for code in 1..=4096i64 {
        let mut at = *v.last().unwrap();
        let near = |at: i64, c: i64| (c * swing - (at - low) * 4096).abs();
        at += swing / 4096 / 2;
        while near(at, code) > near(at, code - 1) {
            at += 1;
        }
        while at > low && near(at - 1, code) <= near(at - 1, code - 1) {
            at -= 1;
        }
        v.push(at);
    }
    v
}

struct Ranges([Vec<i64>; 4]);

impl Ranges {
    // The nearest code by a search of the table: how many codes begin at or below the voltage.
    fn expected(&self, microvolts: i32, range: u32) -> u32 {
        let Some(v) = self.0.get(range as usize) else {
            return 65536 + 19;
        };
        match v.partition_point(|&first| first <= microvolts as i64) {
            0 | 4097 => 65536 + 18,
            n => n as u32 - 1,
        }
    }

    fn request(&self, tally: &mut Tally, microvolts: i32, range: u32, channel: u32) {
        let code = self.expected(microvolts, range);
        let answer = unsafe { dmm32_output_code(microvolts, range) };
        tally.result(answer == code, || format!("output_code({microvolts}, {range}) is {answer}"));
        let bytes = match channel {
            0..=3 if code < 65536 => u16::from_le_bytes([code.to_le_bytes()[0], code.to_le_bytes()[1] + 64 * channel as u8]) as u32,
            0..=3 => code,
            _ => 65536 + 19,
        };
        let answer = unsafe { dmm32_output_bytes(microvolts, range, channel) };
        tally.result(answer == bytes, || format!("output_bytes({microvolts}, {range}, {channel}) is {answer}"));
    }
}

// xorshift64*, with a fixed seed
struct Random(u64);

impl Random {
    fn next(&mut self) -> u64 {
        self.0 ^= self.0 >> 12;
        self.0 ^= self.0 << 25;
        self.0 ^= self.0 >> 27;
        self.0.wrapping_mul(0x2545F4914F6CDD1D)
    }
}

fn main() -> ExitCode {
    let mut tally = Tally::default();
    for range in (0..=255).chain([256, 260, 271, 65535, 65536, 65550, 1 << 31, u32::MAX]) {
        volts_at(&mut tally, range);
    }
    println!("host.rs: {} comparisons of volts", tally.compared);

    let before = tally.compared;
    let ranges = Ranges([
        firsts(-5_000_000, 10_000_000),
        firsts(-10_000_000, 20_000_000),
        firsts(0, 5_000_000),
        firsts(0, 10_000_000),
    ]);
    for range in 0..4 {
        for &first in &ranges.0[range as usize] {
            for off in -1..=1 {
                ranges.request(&mut tally, (first + off) as i32, range, (first & 3) as u32);
            }
        }
    }
    for range in [0, 1, 2, 3, 4, 5, 255, 256, 65536, u32::MAX] {
        for channel in [0, 1, 2, 3, 4, 5, 64, 255, 256, 65536, u32::MAX] {
            for microvolts in [i32::MIN, -10_000_001, -10_000_000, -5_000_001, -5_000_000, -1, 0, 1, 4_998_779, 4_998_780, i32::MAX] {
                ranges.request(&mut tally, microvolts, range, channel);
            }
        }
    }
    let mut random = Random(86028157);
    for i in 0..2_000_000u64 {
        let microvolts = if i % 16 == 0 { random.next() as i32 } else { (random.next() % 24_000_001) as i32 - 12_000_000 };
        let r = random.next();
        let range = if r % 32 == 0 { (r >> 32) as u32 } else { (r >> 32) as u32 % 4 };
        let channel = if r / 32 % 32 == 0 { (r >> 16) as u32 } else { (r >> 16) as u32 % 4 };
        ranges.request(&mut tally, microvolts, range, channel);
    }
    println!("host.rs: {} comparisons of output requests", tally.compared - before);
    println!("host.rs: {} differ", tally.differ);
    if tally.differ == 0 { ExitCode::SUCCESS } else { ExitCode::FAILURE }
}
