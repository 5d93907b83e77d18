//! Document 02, order 11: a simulator's waits compared with the same formula in doubles, a line for each record of kind 15. Rust's `f64` is
//! IEEE 754's binary64 and rounds each operation once.
use super::wait::Load;

/// "The tool keeps the settings E, C and G together as doubles (900000.0, C, 1e-7)."
struct Settings {
    e: f64,
    c: f64,
    g: f64,
}

/// "o = 1 − c/C; d = 1 multiplied ten times by o; f = 1/d".
pub fn factor(load: &Load) -> f64 {
    let o = 1.0 - load.c as f64 / load.capacity as f64;
    let mut d = 1.0;
    for _ in 0..10 {
        d *= o;
    }
    1.0 / d
}

/// "x = (s/C + p/32) + G; wait = (E·f)·x".
pub fn wait(load: &Load) -> f64 {
    let settings = Settings {
        e: 900000.0,
        c: load.capacity as f64,
        g: 1e-7,
    };
    let x = (load.s as f64 / settings.c + load.p as f64 / 32.0) + settings.g;
    (settings.e * factor(load)) * x
}

/// "C not 1 to 1,000, c ≥ C, s > c, p > 32, or a recorded wait with its sign bit set, infinite or no number".
fn bad(load: &Load, recorded: f64) -> bool {
    let numbers = !(1..=1000).contains(&load.capacity)
        || load.c >= load.capacity
        || load.s > load.c
        || load.p > 32;
    numbers || recorded.is_sign_negative() || recorded.is_infinite() || recorded.is_nan()
}

/// The line of one record, without its kind.
fn line(number: usize, body: &[u8]) -> String {
    let field = |from: usize, to: usize| {
        body[from..to]
            .iter()
            .fold(0u64, |sum, &byte| sum << 8 | u64::from(byte))
    };
    let load = Load {
        capacity: field(0, 2),
        c: field(2, 4),
        s: field(4, 6),
        p: field(6, 7),
        bits: 32,
    };
    let theirs = field(7, 15);
    if bad(&load, f64::from_bits(theirs)) {
        return format!("{number} BAD\n");
    }
    let ours = wait(&load).to_bits();
    let word = if ours == theirs { "SAME" } else { "DIFF" };
    let difference = i128::from(ours) - i128::from(theirs);
    format!("{number} {word} {difference} {}\n", load.wait())
}

/// All that is printed of an input.
pub fn compared(input: &[u8]) -> String {
    let mut printed = String::new();
    let mut records = 0;
    let mut rest = input;
    while rest.len() >= 16 && rest[0] == 15 {
        records += 1;
        printed += &line(records, &rest[1..16]);
        rest = &rest[16..];
    }
    if !rest.is_empty() {
        printed += "STOP\n";
    }
    printed
}
