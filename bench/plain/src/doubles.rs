//! A simulator's waits compared with ours (document 02, order 11), a line for each record.
use crate::wait::wait;
use crate::{be16, be64};

/// The bytes of a record, its kind with them.
pub const RECORD: usize = 16;
const KIND: u8 = 15;
/// The bits of the infinity; those of every finite number without a sign are below.
const INFINITY: u64 = 0x7ff0_0000_0000_0000;

struct Settings {
    lifetime: f64,
    capacity: f64,
    least: f64,
}

#[inline]
fn double_wait(settings: &Settings, c: f64, s: f64, p: f64) -> f64 {
    let o = 1.0 - c / settings.capacity;
    let mut d = 1.0;
    for _ in 0..10 {
        d *= o;
    }
    let x = (s / settings.capacity + p / 32.0) + settings.least;
    (settings.lifetime * (1.0 / d)) * x
}

/// Appends a number in decimal.
#[inline]
fn decimal(out: &mut Vec<u8>, mut number: u64) {
    let mut digits = [0; 20];
    let mut at = digits.len();
    loop {
        at -= 1;
        digits[at] = b'0' + (number % 10) as u8;
        number /= 10;
        if number == 0 {
            break;
        }
    }
    out.extend_from_slice(&digits[at..]);
}

fn line(out: &mut Vec<u8>, number: u64, record: &[u8]) {
    decimal(out, number);
    let [capacity, c, s] = [1, 3, 5].map(|at| be16(record, at));
    let p = record[7];
    let theirs = be64(record, 8);
    if !(1..=1000).contains(&capacity) || c >= capacity || s > c || p > 32 || theirs >= INFINITY {
        out.extend_from_slice(b" BAD\n");
        return;
    }
    let settings = Settings {
        lifetime: 900_000.0,
        capacity: f64::from(capacity),
        least: 1e-7,
    };
    let ours = double_wait(&settings, f64::from(c), f64::from(s), f64::from(p)).to_bits();
    let word = if ours == theirs { b" SAME " } else { b" DIFF " };
    out.extend_from_slice(word);
    if ours < theirs {
        out.push(b'-');
    }
    decimal(out, ours.abs_diff(theirs));
    out.push(b' ');
    let [capacity, c, s] = [capacity, c, s].map(u64::from);
    decimal(out, wait(capacity, 32, c, s, u64::from(p)));
    out.push(b'\n');
}

/// Appends the lines of the whole records at the front of the input, the first with the number behind `lines`; how many bytes they are, and
/// whether what comes next is no record.
pub fn compare(input: &[u8], lines: &mut u64, out: &mut Vec<u8>) -> (usize, bool) {
    let mut at = 0;
    while let Some(&kind) = input.get(at) {
        if kind != KIND {
            return (at, true);
        }
        let Some(record) = input.get(at..at + RECORD) else {
            break;
        };
        *lines += 1;
        line(out, *lines, record);
        at += RECORD;
    }
    (at, false)
}
