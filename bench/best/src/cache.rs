//! The cache in one walk, which checks the entries and lets each live one be seen.
use plain::cache::{accepted, address, peer, service, Head, HEAD_LEN};
use plain::family::{Family, Record};
use plain::{Ad, Refusal, LIFETIME};

/// A cache whose length and head are right. What is behind the head has not been looked at.
pub struct Cache<'a, F: Family> {
    pub head: Head,
    pub entries: &'a [F::Entry],
    rest: &'a [u8],
}

impl<'a, F: Family> Cache<'a, F> {
    /// Refusal 1, as far as the length and the head tell.
    pub fn read(bytes: &'a [u8]) -> Result<Self, Refusal> {
        let head = Head::checked::<F>(bytes).ok_or(Refusal(1))?;
        let (held, rest) = bytes[HEAD_LEN..].split_at(head.count * F::ENTRY_LEN);
        let entries = F::Entry::all(held);
        Ok(Cache {
            head,
            entries,
            rest,
        })
    }

    /// The rest of refusal 1, in one walk in which every entry that is live at the clock is seen with its slot; how many have expired.
    #[inline(always)]
    pub fn walk(
        &self,
        clock: u64,
        mut see: impl FnMut(usize, &F::Entry),
    ) -> Result<usize, Refusal> {
        let (mut last, mut expired) = (0, 0);
        for entry in self.entries {
            if clock.saturating_sub(accepted(entry)) < LIFETIME {
                break;
            }
            last = in_order::<F>(entry, last)?;
            expired += 1;
        }
        for (entry, slot) in self.entries[expired..].iter().zip(expired..) {
            last = in_order::<F>(entry, last)?;
            see(slot, entry);
        }
        self.ends(last).map(|()| expired)
    }

    /// The entries that are live; those that have expired are the oldest, and mostly few.
    pub fn live(&self, clock: u64) -> &'a [F::Entry] {
        let expired = |entry: &&F::Entry| clock - accepted(*entry) >= LIFETIME;
        &self.entries[self.entries.iter().take_while(expired).count()..]
    }

    /// The rest of refusal 1 alone.
    pub fn check(&self) -> Result<(), Refusal> {
        let mut last = 0;
        let (fours, rest) = self.entries.as_chunks::<4>();
        for four in fours {
            let [a, b, c, d] = four.each_ref().map(accepted);
            let fall = (a < last) | (b < a) | (c < b) | (d < c);
            let listed = four.iter().all(|entry| entry.as_ref()[0] == F::LISTED);
            if fall || !(listed || four.iter().all(|entry| F::is_entry(entry.as_ref()[0]))) {
                return Err(Refusal(1));
            }
            last = d;
        }
        for entry in rest {
            last = in_order::<F>(entry, last)?;
        }
        self.ends(last)
    }

    /// What is asked behind the last entry, which was accepted then.
    fn ends(&self, last: u64) -> Result<(), Refusal> {
        if last <= self.head.clock && zero(self.rest) {
            Ok(())
        } else {
            Err(Refusal(1))
        }
    }

    /// The rest of refusal 1, and what the live entries are to a newcomer.
    #[inline(always)]
    pub fn count(&self, clock: u64, ad: Ad<F>) -> Result<Counts, Refusal> {
        let (wanted, newcomer) = (begins(ad.service()), ad.address());
        let (mut same_service, mut twin) = (0, false);
        // How many share all but exactly so many bits of the address.
        let mut unshared = [0u16; 256];
        let expired = self.walk(clock, |_, entry| {
            let own = service(entry);
            if begins(own) == wanted && own == ad.service() {
                twin |= peer(entry) == ad.peer();
                same_service += 1;
            }
            unshared[usize::from(unshared_bits::<F>(address::<F>(entry), newcomer))] += 1;
        })?;
        let live = self.entries.len() - expired;
        Ok(Counts {
            expired,
            same_service,
            twin,
            similarity: points(&unshared, F::BITS, live as u64),
        })
    }
}

/// When an entry was accepted whose kind is right and which was not accepted before the last.
#[inline(always)]
fn in_order<F: Family>(entry: &F::Entry, last: u64) -> Result<u64, Refusal> {
    let time = accepted(entry);
    if !F::is_entry(entry.as_ref()[0]) || time < last {
        return Err(Refusal(1));
    }
    Ok(time)
}

/// What the wait and refusal 6 depend on.
pub struct Counts {
    pub expired: usize,
    pub same_service: u64,
    /// Whether a live entry has the newcomer's service and peer.
    pub twin: bool,
    /// The similarity score times the number of an address's bits, document 01's points.
    pub similarity: u64,
}

/// The first eight bytes, which mostly tell two services apart.
#[inline(always)]
pub fn begins(service: &[u8; 32]) -> u64 {
    u64::from_le_bytes(*service.first_chunk().unwrap())
}

/// How many bits of an address are behind those that two share, from 0 to 128.
#[inline(always)]
fn unshared_bits<F: Family>(one: &F::Address, other: &F::Address) -> u8 {
    let (one, other) = (one.as_ref(), other.as_ref());
    if F::ADDRESS_LEN == 4 {
        let word = |address: &[u8]| u32::from_be_bytes(*address.first_chunk().unwrap());
        let differ = u64::from(word(one) ^ word(other));
        return (2 * differ + 1).ilog2() as u8;
    }
    let half = |address: &[u8], at| u64::from_be_bytes(*address[at..].first_chunk().unwrap());
    let high = half(one, 0) ^ half(other, 0);
    if high != 0 {
        return 65 + high.ilog2() as u8;
    }
    let low = half(one, 8) ^ half(other, 8);
    low.checked_ilog2().map_or(0, |at| 1 + at as u8)
}

/// At how many levels too many share, of `count` live entries.
fn points(unshared: &[u16; 256], bits: usize, count: u64) -> u64 {
    // Of at most 1,000, one that shares is too many from level 10 on.
    let deep = &unshared[..=bits - 10];
    let mut at_least: u64 = deep.iter().map(|exactly| u64::from(*exactly)).sum();
    let deepest = deep.iter().position(|exactly| *exactly != 0);
    let mut points = deepest.map_or(0, |unshared| bits - unshared - 9) as u64;
    for level in (1..10).rev() {
        at_least += u64::from(unshared[bits - level]);
        points += u64::from(at_least << level > count);
    }
    points
}

/// Whether all bytes are zero, a KiB at a time: with the widest registers that plain x86-64 has, faster than to compare the bytes with
/// themselves by one place further on, which is the C library's `memcmp`.
pub fn zero(bytes: &[u8]) -> bool {
    fn none<const N: usize>(bytes: &[u8; N]) -> bool {
        bytes.iter().fold(0, |seen, byte| seen | byte) == 0
    }
    let (large, rest) = bytes.as_chunks::<1024>();
    let (small, rest) = rest.as_chunks::<64>();
    large.iter().all(none) && small.iter().all(none) && rest.iter().all(|byte| *byte == 0)
}
