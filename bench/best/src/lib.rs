//! Plain Rust of the registrar's rules, written to be as fast as it gets: the second measure that the proved library is held against.
//!
//! What `bench/plain` does in several walks is done in one, SHA-256 is unrolled over sixteen words, and the key's two states are made
//! once a call. Records, heads, messages and the waiting time are `bench/plain`'s. Same rules, same answers, same bytes.
#![forbid(unsafe_code)]

mod bounds;
mod cache;
mod registrar;
pub mod sha256;
pub mod ticket;

pub use plain::{
    open, read_ad, read_ad_v6, read_message, write_ad, write_ad_v6, write_message, Ad, Family,
    Refusal, Registered, Ticket, V4, V6,
};
pub use registrar::{get_ads, newest, register, register_bounded, service_id, withdraw};
pub use sha256::{hmac, sha256};
pub use ticket::{read_ticket, write_ticket};
