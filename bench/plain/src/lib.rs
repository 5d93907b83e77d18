//! Plain optimised Rust of the registrar's rules: the measure that the proved library is held against.
//!
//! Same rules, same checks in the same order, same bytes. Each call takes what the library's call takes and answers the
//! same, with a [`Refusal`] for a negative number. A refusal writes nothing. The modules are public for `bench/best`, which has
//! another walk, another hash and another check of bounds, and the rest from here.
#![forbid(unsafe_code)]

pub mod bounds;
pub mod cache;
pub mod doubles;
pub mod family;
mod message;
pub mod record;
mod registrar;
pub mod sha256;
pub mod small;
pub mod wait;

pub use family::{Family, V4, V6};
pub use message::{read_message, write_message};
pub use record::{
    read_ad, read_ad_v6, read_ticket, write_ad, write_ad_v6, write_ticket, Ad, Ticket,
};
pub use registrar::{
    get_ads, newest, open, register, register_bounded, service_id, withdraw, Registered,
};
pub use sha256::{hmac, sha256};

/// The number of a refusal.
#[derive(Clone, Copy, Debug, PartialEq, Eq)]
pub struct Refusal(pub u8);

pub const LIFETIME: u64 = 900_000;
pub const WINDOW_MAX: u64 = 60_000;
pub const CLOCK_MAX: u64 = (1 << 40) - 1;

/// The number in a field of eight bytes.
#[inline]
pub fn be64(bytes: &[u8], at: usize) -> u64 {
    u64::from_be_bytes(*bytes[at..].first_chunk().unwrap())
}

/// The number in a field of two bytes.
#[inline]
pub fn be16(bytes: &[u8], at: usize) -> u16 {
    u16::from_be_bytes(*bytes[at..].first_chunk().unwrap())
}
