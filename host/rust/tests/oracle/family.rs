//! Document 02, order 10: the two families of addresses, and what each has of its own.

/// "A room has one family, told at opening."
#[derive(Clone, Copy, Debug, PartialEq, Eq)]
pub enum Family {
    V4,
    V6,
}

use Family::{V4, V6};

impl Family {
    pub const BOTH: [Family; 2] = [V4, V6];

    /// The number that opening is told it by.
    pub fn number(self) -> u64 {
        match self {
            V4 => 4,
            V6 => 6,
        }
    }

    pub fn of_number(number: u64) -> Option<Family> {
        Family::BOTH
            .into_iter()
            .find(|family| family.number() == number)
    }

    /// The family of a cache whose head has this kind: "An IPv6 room has head kind 12", and order 8's is 14.
    pub fn of_head(kind: u8) -> Option<Family> {
        Family::BOTH
            .into_iter()
            .find(|family| family.head_kind() == kind)
    }

    pub fn other(self) -> Family {
        match self {
            V4 => V6,
            V6 => V4,
        }
    }

    pub fn head_kind(self) -> u8 {
        match self {
            V4 => 14,
            V6 => 12,
        }
    }

    pub fn ad_kind(self) -> u8 {
        match self {
            V4 => 1,
            V6 => 10,
        }
    }

    pub fn entry_kind(self) -> u8 {
        match self {
            V4 => 3,
            V6 => 11,
        }
    }

    /// Of a quiet ad.
    pub fn withdrawn_kind(self) -> u8 {
        match self {
            V4 => 13,
            V6 => 16,
        }
    }

    pub fn address_len(self) -> usize {
        match self {
            V4 => 4,
            V6 => 16,
        }
    }

    /// "Points run over i from 1 to 128", and from 1 to 32 in document 01.
    pub fn bits(self) -> u32 {
        match self {
            V4 => 32,
            V6 => 128,
        }
    }

    /// The lengths of an ad's fields: service, peer, address, port, stamp, signature.
    pub fn ad_fields(self) -> [usize; 6] {
        [32, 32, self.address_len(), 2, 8, 64]
    }

    pub fn body_len(self) -> usize {
        self.ad_fields().iter().sum()
    }

    /// "An ad 155", and 143 in document 01: the kind and the body.
    pub fn ad_len(self) -> usize {
        1 + self.body_len()
    }

    /// The kind, the time accepted and the body.
    pub fn entry_len(self) -> usize {
        1 + 8 + self.body_len()
    }

    /// "A list buffer 1,550", and 1,430 in document 01.
    pub fn list_len(self) -> usize {
        match self {
            V4 => 1_430,
            V6 => 1_550,
        }
    }

    /// The length of a cache: "a room is 29 + 163·C bytes", and 29 + 151·C by order 8.
    pub fn cache_len(self, capacity: usize) -> usize {
        match self {
            V4 => 29 + 151 * capacity,
            V6 => 29 + 163 * capacity,
        }
    }

    /// The capacity that fits a cache of this length.
    pub fn capacity_of(self, length: usize) -> Option<usize> {
        (1..=1000).find(|capacity| self.cache_len(*capacity) == length)
    }
}
