//! The two families of addresses, and the lengths that each has of its own.
use std::net::IpAddr;

use crate::{AD_LEN, AD_V6_LEN, LISTED_MAX};

/// The family of a cache's addresses. It is told when the cache is opened, and every later call reads it off the cache's head.
#[derive(Clone, Copy, Debug, PartialEq, Eq, Hash)]
pub enum Family {
    /// IPv4.
    V4 = 4,
    /// IPv6.
    V6 = 6,
}

impl Family {
    /// Both families.
    pub const ALL: [Family; 2] = [Family::V4, Family::V6];

    /// The number that stands for this family in C.
    pub const fn number(self) -> u64 {
        self as u64
    }

    /// Bytes of an advertisement: [`AD_LEN`] or [`AD_V6_LEN`].
    pub const fn ad_len(self) -> usize {
        match self {
            Family::V4 => AD_LEN,
            Family::V6 => AD_V6_LEN,
        }
    }

    /// Bytes of an advertisement's body: the advertisement without its kind.
    pub const fn body_len(self) -> usize {
        self.ad_len() - 1
    }

    /// Bytes of the buffer for a listing.
    pub(crate) const fn list_len(self) -> usize {
        LISTED_MAX * self.ad_len()
    }

    /// Bytes of an entry: its kind, when it was accepted, and the body.
    pub(crate) const fn entry_len(self) -> usize {
        1 + 8 + self.body_len()
    }

    /// Bytes of a lower bound: its kind, the service, the address and until.
    pub(crate) const fn bound_len(self) -> usize {
        match self {
            Family::V4 => 45,
            Family::V6 => 57,
        }
    }

    /// The kind of a cache's head.
    const fn head_kind(self) -> u8 {
        match self {
            Family::V4 => 14,
            Family::V6 => 12,
        }
    }
}

impl From<IpAddr> for Family {
    fn from(address: IpAddr) -> Family {
        match address {
            IpAddr::V4(_) => Family::V4,
            IpAddr::V6(_) => Family::V6,
        }
    }
}

/// The family of a cache, by the kind of its head and not by its length, which may fit both; `None` where the head is of neither. Whether
/// the cache is well formed is not asked: every call does.
pub fn family(cache: &[u8]) -> Option<Family> {
    let kind = *cache.first()?;
    Family::ALL
        .into_iter()
        .find(|family| family.head_kind() == kind)
}
