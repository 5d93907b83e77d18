//! Document 01, with the requests of document 02 that are built, in the plainest way: the implementation that the library is
//! compared with.
//!
//! Written from the papers alone and for reading, not for speed: bytes are read into structs, worked on as lists and written
//! back; fractions are exact. Each item's comment names the paragraph that it follows.
// Each test program uses a part of it.
#![allow(dead_code)]

pub mod bounds;
pub mod cache;
pub mod doubles;
pub mod family;
pub mod log;
pub mod message;
pub mod natural;
pub mod record;
pub mod registrar;
pub mod sha256;
pub mod small;
pub mod wait;

/// "The clock is in milliseconds ..., 0 to 2^40 − 1."
pub const CLOCK_MAX: u64 = (1 << 40) - 1;
/// "Lifetime E = 900,000 ms."
pub const LIFETIME: u64 = 900_000;
/// Order 3: "the log program and all new callers use 10,000".
pub const USUAL_WINDOW: u64 = 10_000;
/// "Window 1,000 ms", which order 3 leaves to P11 and to the replay of a recorded day.
pub const RECORDED_WINDOW: u64 = 1_000;
/// Order 3: "1 to 60,000 ms".
pub const WINDOWS: std::ops::RangeInclusive<u64> = 1..=60_000;
