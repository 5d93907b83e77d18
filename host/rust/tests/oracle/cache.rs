//! The cache, document 01's room: "A room is a head, then C places of 151 bytes", with document 02's order 8: "The head becomes kind
//! 14, with two 8-byte numbers after the old fields", and order 10: "An IPv6 room has head kind 12 and its own records".
use super::family::Family;
use super::record::{fields, number, Ad};
use super::wait::Load;
use super::{CLOCK_MAX, LIFETIME};

#[derive(Clone, Debug, PartialEq, Eq)]
pub struct Entry {
    pub accepted: u64,
    /// Order 8's quiet ad: "its kind becomes 13".
    pub withdrawn: bool,
    pub ad: Ad,
}

impl Entry {
    /// What a confirmation at `accepted` holds.
    pub fn new(accepted: u64, ad: Ad) -> Entry {
        Entry {
            accepted,
            withdrawn: false,
            ad,
        }
    }

    /// The kind of its record: "its held ads may now be of kind 3 or 13", and "held kind 11, quiet kind 16".
    fn kind(&self, family: Family) -> u8 {
        if self.withdrawn {
            family.withdrawn_kind()
        } else {
            family.entry_kind()
        }
    }

    fn of_record(family: Family, record: &[u8]) -> Option<Entry> {
        if ![family.entry_kind(), family.withdrawn_kind()].contains(&record[0]) {
            return None;
        }
        Some(Entry {
            accepted: number(&record[1..9]),
            withdrawn: record[0] == family.withdrawn_kind(),
            ad: Ad::of_body(family, &record[9..]),
        })
    }

    pub fn is_of(&self, service: &[u8], peer: &[u8]) -> bool {
        self.ad.service == service && self.ad.peer == peer
    }

    /// "A held ad is live while now − accepted < E."
    pub fn live(&self, now: u64) -> bool {
        now - self.accepted < LIFETIME
    }
}

#[derive(Clone, Debug, PartialEq, Eq)]
pub struct Cache {
    pub family: Family,
    pub capacity: usize,
    pub clock: u64,
    /// "Confirmed since opening and expired since opening, both kept modulo 2^64".
    pub confirmed: u64,
    pub expired: u64,
    pub entries: Vec<Entry>,
}

impl Cache {
    pub fn empty(family: Family, capacity: usize) -> Cache {
        Cache::holding(family, capacity, 0, Vec::new())
    }

    /// A cache in which these entries were confirmed since its opening, and none has expired.
    pub fn holding(family: Family, capacity: usize, clock: u64, entries: Vec<Entry>) -> Cache {
        Cache {
            family,
            capacity,
            clock,
            confirmed: entries.len() as u64,
            expired: 0,
            entries,
        }
    }

    /// The cache in these bytes, if they are well formed. Its family is read off the head's kind: some lengths fit both.
    pub fn read(bytes: &[u8]) -> Option<Cache> {
        let family = Family::of_head(*bytes.first()?)?;
        let capacity = family.capacity_of(bytes.len())?;
        let (head, places) = bytes.split_at(29);
        let [_, head_capacity, count, clock, confirmed, expired] = fields(head, [1, 2, 2, 8, 8, 8]);
        let count = number(&count) as usize;
        let [clock, confirmed, expired] = [clock, confirmed, expired].map(|field| number(&field));
        if number(&head_capacity) as usize != capacity || count > capacity {
            return None;
        }
        let slots: Vec<&[u8]> = places.chunks(family.entry_len()).collect();
        let (held, rest) = slots.split_at(count);
        if rest.concat().iter().any(|byte| *byte != 0) {
            return None;
        }
        let entries: Option<Vec<Entry>> = held
            .iter()
            .map(|slot| Entry::of_record(family, slot))
            .collect();
        let entries = entries?;
        let falls = entries
            .windows(2)
            .any(|pair| pair[1].accepted < pair[0].accepted);
        let late = entries.iter().any(|entry| entry.accepted > clock);
        if falls || late || clock > CLOCK_MAX {
            return None;
        }
        // "confirmed = expired + held, quiet ones included", modulo 2^64.
        let sum = u128::from(expired) + count as u128;
        if u128::from(confirmed) != sum % (1 << 64) {
            return None;
        }
        Some(Cache {
            family,
            capacity,
            clock,
            confirmed,
            expired,
            entries,
        })
    }

    pub fn bytes(&self) -> Vec<u8> {
        let mut bytes = vec![self.family.head_kind()];
        bytes.extend((self.capacity as u16).to_be_bytes());
        bytes.extend((self.entries.len() as u16).to_be_bytes());
        for number in [self.clock, self.confirmed, self.expired] {
            bytes.extend(number.to_be_bytes());
        }
        for entry in &self.entries {
            bytes.push(entry.kind(self.family));
            bytes.extend(entry.accepted.to_be_bytes());
            bytes.extend(entry.ad.body());
        }
        bytes.resize(self.family.cache_len(self.capacity), 0);
        bytes
    }

    /// "Expired ads leave, the last clock is now"; each adds one to those expired since opening.
    pub fn move_on(&mut self, now: u64) {
        let earlier = self.entries.len();
        self.entries.retain(|entry| entry.live(now));
        let gone = earlier - self.entries.len();
        self.expired = self.expired.wrapping_add(gone as u64);
        self.clock = now;
    }

    /// The ad is held, behind the others, and adds one to those confirmed since opening.
    pub fn confirm(&mut self, now: u64, ad: Ad) {
        self.entries.push(Entry::new(now, ad));
        self.confirmed = self.confirmed.wrapping_add(1);
    }

    pub fn live(&self, now: u64) -> Vec<&Entry> {
        self.entries
            .iter()
            .filter(|entry| entry.live(now))
            .collect()
    }

    /// c, s and p for a newcomer.
    pub fn load(&self, now: u64, newcomer: &Ad) -> Load {
        let live = self.live(now);
        let same_service = |entry: &&&Entry| entry.ad.service == newcomer.service;
        Load {
            capacity: self.capacity as u64,
            c: live.len() as u64,
            s: live.iter().filter(same_service).count() as u64,
            p: similarity(self.family, &live, newcomer),
            bits: self.family.bits().into(),
        }
    }
}

/// "For each i from 1 to 32, one point if k·2^i > c, where k is the number of them that share the first i bits of the address", and "over i
/// from 1 to 128".
fn similarity(family: Family, live: &[&Entry], newcomer: &Ad) -> u64 {
    let c = live.len() as u128;
    let whole =
        |ad: &Ad| (ad.address.iter()).fold(0, |number, byte| number << 8 | u128::from(*byte));
    let addresses: Vec<u128> = live.iter().map(|entry| whole(&entry.ad)).collect();
    let newcomer = whole(newcomer);
    let first_bits = |address: u128, i: u32| address >> (family.bits() - i);
    let point = |i: &u32| {
        let shares = |address: &&u128| first_bits(**address, *i) == first_bits(newcomer, *i);
        let k = addresses.iter().filter(shares).count() as u128;
        // What does not fit 128 bits is more than any c.
        k.saturating_mul(2u128.saturating_pow(*i)) > c
    };
    (1..=family.bits()).filter(point).count() as u64
}
