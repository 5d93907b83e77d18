//! The cache as lent bytes: a head, then entries oldest first, then zeros.
use crate::family::{Family, Record};
use crate::record::Ad;
use crate::{be16, be64, Refusal, CLOCK_MAX, LIFETIME};

pub const HEAD_LEN: usize = 29;

pub fn accepted(entry: &impl Record) -> u64 {
    be64(entry.as_ref(), 1)
}

pub fn service(entry: &impl Record) -> &[u8; 32] {
    entry.as_ref()[9..].first_chunk().unwrap()
}

pub fn peer(entry: &impl Record) -> &[u8; 32] {
    entry.as_ref()[41..].first_chunk().unwrap()
}

pub fn withdrawn<F: Family>(entry: &F::Entry) -> bool {
    entry.as_ref()[0] == F::WITHDRAWN
}

/// Behind the address and the port.
pub fn stamp<F: Family>(entry: &F::Entry) -> u64 {
    be64(entry.as_ref(), 73 + F::ADDRESS_LEN + 2)
}

pub fn address<F: Family>(entry: &F::Entry) -> &F::Address {
    F::Address::exactly(&entry.as_ref()[73..][..F::ADDRESS_LEN]).unwrap()
}

/// An entry's advertisement without its kind.
pub fn body(entry: &impl Record) -> &[u8] {
    &entry.as_ref()[9..]
}

/// Where the entry at a slot begins.
pub fn place<F: Family>(slot: usize) -> usize {
    HEAD_LEN + slot * F::ENTRY_LEN
}

/// The capacity that fits a cache of this length.
pub fn capacity_of<F: Family>(len: usize) -> Option<usize> {
    let slots_len = len.checked_sub(HEAD_LEN)?;
    let capacity = slots_len / F::ENTRY_LEN;
    (slots_len % F::ENTRY_LEN == 0 && (1..=1_000).contains(&capacity)).then_some(capacity)
}

/// What a head tells.
#[derive(Clone, Copy)]
pub struct Head {
    pub capacity: usize,
    pub count: usize,
    pub clock: u64,
    /// Since opening, modulo 2^64, like `expired`.
    pub confirmed: u64,
    pub expired: u64,
}

impl Head {
    /// The head of a cache that has been opened.
    pub fn opened(capacity: usize) -> Head {
        Head {
            capacity,
            count: 0,
            clock: 0,
            confirmed: 0,
            expired: 0,
        }
    }

    /// The head of at least so many bytes, if its kind is right.
    fn read<F: Family>(bytes: &[u8]) -> Option<Head> {
        let head: &[u8; HEAD_LEN] = bytes.first_chunk()?;
        (head[0] == F::HEAD).then(|| Head {
            capacity: usize::from(be16(head, 1)),
            count: usize::from(be16(head, 3)),
            clock: be64(head, 5),
            confirmed: be64(head, 13),
            expired: be64(head, 21),
        })
    }

    /// The head of a cache whose length and head are a well-formed one's.
    pub fn checked<F: Family>(bytes: &[u8]) -> Option<Head> {
        let capacity = capacity_of::<F>(bytes.len())?;
        let head = Head::read::<F>(bytes)?;
        let fits = head.capacity == capacity
            && head.count <= capacity
            && head.clock <= CLOCK_MAX
            && head.confirmed == head.expired.wrapping_add(head.count as u64);
        fits.then_some(head)
    }

    pub fn write<F: Family>(&self, cache: &mut [u8]) {
        let head: &mut [u8; HEAD_LEN] = cache.first_chunk_mut().unwrap();
        head[0] = F::HEAD;
        head[1..3].copy_from_slice(&(self.capacity as u16).to_be_bytes());
        head[3..5].copy_from_slice(&(self.count as u16).to_be_bytes());
        head[5..13].copy_from_slice(&self.clock.to_be_bytes());
        head[13..21].copy_from_slice(&self.confirmed.to_be_bytes());
        head[21..].copy_from_slice(&self.expired.to_be_bytes());
    }

    /// At this clock, with so many fewer entries, which have expired.
    pub fn moved_on(&self, clock: u64, expired: usize) -> Head {
        Head {
            count: self.count - expired,
            clock,
            expired: self.expired.wrapping_add(expired as u64),
            ..*self
        }
    }

    /// With an entry more, which has been confirmed.
    pub fn with_one_more(&self) -> Head {
        Head {
            count: self.count + 1,
            confirmed: self.confirmed.wrapping_add(1),
            ..*self
        }
    }
}

/// A well-formed cache.
pub struct Cache<'a, F: Family> {
    pub head: Head,
    pub entries: &'a [F::Entry],
}

impl<'a, F: Family> Cache<'a, F> {
    /// Checks that the bytes are a well-formed cache: refusal 1.
    pub fn read(bytes: &'a [u8]) -> Result<Self, Refusal> {
        Cache::well_formed(bytes).ok_or(Refusal(1))
    }

    fn well_formed(bytes: &'a [u8]) -> Option<Self> {
        let head = Head::checked::<F>(bytes)?;
        let (held, rest) = bytes[HEAD_LEN..].split_at(head.count * F::ENTRY_LEN);
        let entries = F::Entry::all(held);
        let mut last = 0;
        for entry in entries {
            if !F::is_entry(entry.as_ref()[0]) || accepted(entry) < last {
                return None;
            }
            last = accepted(entry);
        }
        (last <= head.clock && zero(rest)).then_some(Cache { head, entries })
    }

    /// How many entries have expired; they are the oldest.
    pub fn expired(&self, now: u64) -> usize {
        self.entries
            .partition_point(|entry| now - accepted(entry) >= LIFETIME)
    }
}

/// Whether all bytes are zero.
fn zero(bytes: &[u8]) -> bool {
    bytes
        .chunks(64)
        .all(|chunk| chunk.iter().fold(0, |seen, byte| seen | byte) == 0)
}

/// What the wait depends on.
pub struct Tally {
    pub same_service: u64,
    /// The similarity score times the number of an address's bits, document 01's points.
    pub similarity: u64,
}

/// Counts the live entries for a newcomer, in one walk: refusal 6 where one has its service and peer.
pub fn tally<F: Family>(live: &[F::Entry], ad: Ad<F>) -> Result<Tally, Refusal> {
    let newcomer = ad.address();
    let mut same_service = 0;
    // How many share exactly so many leading bits of the address.
    let mut totals = F::NO_TOTALS;
    let sharing = totals.as_mut();
    for entry in live {
        if service(entry) == ad.service() {
            if peer(entry) == ad.peer() {
                return Err(Refusal(6));
            }
            same_service += 1;
        }
        sharing[F::shared_bits(address::<F>(entry), newcomer)] += 1;
    }
    Ok(Tally {
        same_service,
        similarity: points(sharing, live.len() as u64),
    })
}

/// At how many levels too many share, of `count` live entries.
fn points(sharing: &[u64], count: u64) -> u64 {
    let mut at_least = 0;
    let mut points = 0;
    for (bits, exactly) in sharing.iter().enumerate().skip(1).rev() {
        at_least += exactly;
        // Of at most 1,000, one that shares is too many from level 10 on: 2^10 stands for every higher power.
        points += u64::from(at_least << bits.min(10) > count);
    }
    points
}

/// Removes the `expired` oldest of `count` entries and moves the rest to the front.
pub fn remove_expired<F: Family>(cache: &mut [u8], count: usize, expired: usize) {
    if expired != 0 {
        let end = place::<F>(count);
        cache.copy_within(place::<F>(expired)..end, HEAD_LEN);
        cache[place::<F>(count - expired)..end].fill(0);
    }
}

/// Writes an entry at a slot.
pub fn write_entry<F: Family>(cache: &mut [u8], slot: usize, accepted: u64, ad: Ad<F>) {
    let entry = &mut cache[place::<F>(slot)..][..F::ENTRY_LEN];
    entry[0] = F::LISTED;
    entry[1..9].copy_from_slice(&accepted.to_be_bytes());
    entry[9..].copy_from_slice(ad.body());
}

/// Makes the entry at a slot a withdrawn one.
pub fn withdraw_entry<F: Family>(cache: &mut [u8], slot: usize) {
    cache[place::<F>(slot)] = F::WITHDRAWN;
}
