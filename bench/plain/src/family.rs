//! The two address families. The calls are compiled once for each, with every length a constant; which one it is is chosen once a call.
use std::hint::cold_path;

use crate::{be64, Refusal};

/// Bytes of a fixed length.
pub trait Record: Copy + AsRef<[u8]> + AsMut<[u8]> + 'static {
    /// The bytes, if there are so many.
    fn exactly(bytes: &[u8]) -> Option<&Self>;
    /// As many as the bytes hold, one behind the other.
    fn all(bytes: &[u8]) -> &[Self];
    fn all_mut(bytes: &mut [u8]) -> &mut [Self];
}

impl<const N: usize> Record for [u8; N] {
    fn exactly(bytes: &[u8]) -> Option<&Self> {
        bytes.try_into().ok()
    }

    fn all(bytes: &[u8]) -> &[Self] {
        bytes.as_chunks().0
    }

    fn all_mut(bytes: &mut [u8]) -> &mut [Self] {
        bytes.as_chunks_mut().0
    }
}

/// What an address family fixes.
pub trait Family {
    type Address: Record;
    type Ad: Record;
    type Entry: Record;
    type Bound: Record;
    const NO_BOUND: Self::Bound;
    /// A number for each number of leading bits that two addresses can share, from 0 to all.
    type Totals: AsMut<[u64]>;
    const NO_TOTALS: Self::Totals;

    /// The kinds of an advertisement, of an entry, of a withdrawn entry and of a cache's head.
    const AD: u8;
    const LISTED: u8;
    const WITHDRAWN: u8;
    const HEAD: u8;

    const ADDRESS_LEN: usize = size_of::<Self::Address>();
    const AD_LEN: usize = size_of::<Self::Ad>();
    const ENTRY_LEN: usize = size_of::<Self::Entry>();
    const BOUND_LEN: usize = size_of::<Self::Bound>();
    const BITS: usize = 8 * Self::ADDRESS_LEN;

    /// Whether the kind is an entry's; that few are withdrawn is for the compiler.
    fn is_entry(kind: u8) -> bool {
        kind == Self::LISTED || {
            cold_path();
            kind == Self::WITHDRAWN
        }
    }

    /// How many leading bits two addresses share.
    fn shared_bits(one: &Self::Address, other: &Self::Address) -> usize;
}

pub struct V4;
pub struct V6;

impl Family for V4 {
    type Address = [u8; 4];
    type Ad = [u8; 143];
    type Entry = [u8; 151];
    type Bound = [u8; 45];
    const NO_BOUND: Self::Bound = [0; 45];
    type Totals = [u64; 33];
    const NO_TOTALS: Self::Totals = [0; 33];
    const AD: u8 = 1;
    const LISTED: u8 = 3;
    const WITHDRAWN: u8 = 13;
    const HEAD: u8 = 14;

    fn shared_bits(one: &Self::Address, other: &Self::Address) -> usize {
        (u32::from_be_bytes(*one) ^ u32::from_be_bytes(*other)).leading_zeros() as usize
    }
}

impl Family for V6 {
    type Address = [u8; 16];
    type Ad = [u8; 155];
    type Entry = [u8; 163];
    type Bound = [u8; 57];
    const NO_BOUND: Self::Bound = [0; 57];
    type Totals = [u64; 129];
    const NO_TOTALS: Self::Totals = [0; 129];
    const AD: u8 = 10;
    const LISTED: u8 = 11;
    const WITHDRAWN: u8 = 16;
    const HEAD: u8 = 12;

    fn shared_bits(one: &Self::Address, other: &Self::Address) -> usize {
        // Two addresses mostly differ in their first half.
        let [high, low] = [0, 8].map(|at| be64(one, at) ^ be64(other, at));
        if high != 0 {
            high.leading_zeros() as usize
        } else {
            64 + low.leading_zeros() as usize
        }
    }
}

/// A family as a value.
#[derive(Clone, Copy)]
pub enum Told {
    V4,
    V6,
}

impl Told {
    /// By the number that opening takes: refusal 1.
    pub fn by_number(number: u64) -> Result<Told, Refusal> {
        match number {
            4 => Ok(Told::V4),
            6 => Ok(Told::V6),
            _ => Err(Refusal(1)),
        }
    }

    /// By the kind of the cache's head, never by its length: refusal 1.
    pub fn by_head(cache: &[u8]) -> Result<Told, Refusal> {
        match cache.first() {
            Some(&V4::HEAD) => Ok(Told::V4),
            Some(&V6::HEAD) => Ok(Told::V6),
            _ => Err(Refusal(1)),
        }
    }
}
