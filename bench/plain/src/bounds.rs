//! Lower bounds on waits as lent bytes: records of kind 17 in order of entry, each pair of service and address once, then zeros.
//!
//! That each pair stands once is seen in one walk, by chains of records that share a keyed hash. The ad's own record is found by the same chains.
use std::hint::cold_path;

use crate::family::{Family, Record};
use crate::record::Ad;
use crate::sha256::sha256;
use crate::{be64, Refusal, CLOCK_MAX, LIFETIME};

pub const BOUND: u8 = 17;
pub const MOST_PLACES: usize = 1_000;
pub const UNTIL_MAX: u64 = CLOCK_MAX + LIFETIME;
/// Service and address of an IPv6 record have so many words of 32 bits.
const WORDS: usize = 12;
/// Chains of records; a hash has so many bits.
const HASH_BITS: u32 = 12;

/// What a walk over well-formed bounds finds.
pub struct Found {
    pub places: usize,
    pub in_use: usize,
    /// The least until, so that all are in force before it.
    pub least: u64,
    /// The place of the ad's own record, and its until.
    pub own: Option<(usize, u64)>,
}

pub fn until<F: Family>(record: &F::Bound) -> u64 {
    be64(record.as_ref(), F::BOUND_LEN - 8)
}

pub fn pair<F: Family>(record: &F::Bound) -> &[u8] {
    &record.as_ref()[1..F::BOUND_LEN - 8]
}

/// The kind, the service and the address of the ad, of whatever bytes it is made up; the until is left 0.
pub fn wanted<F: Family>(ad: &[u8]) -> Option<F::Bound> {
    let ad = F::Ad::exactly(ad)?.as_ref();
    let mut record = F::NO_BOUND;
    let bytes = record.as_mut();
    bytes[0] = BOUND;
    bytes[1..33].copy_from_slice(&ad[1..33]);
    bytes[33..][..F::ADDRESS_LEN].copy_from_slice(&ad[65..][..F::ADDRESS_LEN]);
    Some(record)
}

/// Checks that the bytes are bounds of the family: refusal 18. The ad may have any form; an own record is looked for where it has its length.
pub fn read<F: Family>(bytes: &[u8], key: &[u8], ad: &[u8]) -> Result<Found, Refusal> {
    let places = bytes.len() / F::BOUND_LEN;
    if bytes.len() % F::BOUND_LEN != 0 || !(1..=MOST_PLACES).contains(&places) {
        return Err(Refusal(18));
    }
    let records = F::Bound::all(bytes);
    let used = |place: usize| records.get(place).is_some_and(|r| r.as_ref()[0] == BOUND);
    let wanted = wanted::<F>(ad);
    let found = if used(1) && used(0) {
        many::<F>(records, key, wanted)
    } else {
        few::<F>(&records[..usize::from(used(0))], places, wanted)
    };
    found
        .filter(|found| zero(&bytes[F::BOUND_LEN * found.in_use..]))
        .ok_or(Refusal(18))
}

/// Whether all bytes are zero; where few places are in use there are many.
fn zero(bytes: &[u8]) -> bool {
    let none = |bytes: &[u8]| bytes.iter().fold(0, |seen, byte| seen | byte) == 0;
    let (chunks, rest) = bytes.as_chunks::<256>();
    chunks.iter().all(|chunk| none(chunk)) && none(rest)
}

/// None or one, which need no seed.
fn few<F: Family>(records: &[F::Bound], places: usize, wanted: Option<F::Bound>) -> Option<Found> {
    let mut found = Found {
        places,
        in_use: records.len(),
        least: u64::MAX,
        own: None,
    };
    if let Some(record) = records.first() {
        found.least = until::<F>(record);
        if wanted.is_some_and(|wanted| pair::<F>(&wanted) == pair::<F>(record)) {
            found.own = Some((0, found.least));
        }
    }
    (found.in_use == 0 || found.least <= UNTIL_MAX).then_some(found)
}

/// For each hash the last record that has it, and for each record the one before it in its chain, counted from 1.
struct Chains {
    last: [u16; 1 << HASH_BITS],
    before: [u16; MOST_PLACES + 1],
}

impl Chains {
    /// The place of the pair in a chain, which is walked by falling index.
    #[inline(always)]
    fn find<F: Family>(&self, records: &[F::Bound], hash: usize, wanted: &[u8]) -> Option<usize> {
        let mut at = usize::from(self.last[hash]);
        while at != 0 {
            cold_path();
            if pair::<F>(&records[at - 1]) == wanted {
                return Some(at - 1);
            }
            at = usize::from(self.before[at]);
        }
        None
    }
}

#[inline(never)]
fn many<F: Family>(records: &[F::Bound], key: &[u8], wanted: Option<F::Bound>) -> Option<Found> {
    let seed = seed(key);
    let mut chains = Chains {
        last: [0; 1 << HASH_BITS],
        before: [0; MOST_PLACES + 1],
    };
    let (mut in_use, mut least, mut most) = (0, u64::MAX, 0);
    for record in records {
        if record.as_ref()[0] != BOUND {
            break;
        }
        let time = until::<F>(record);
        (least, most) = (least.min(time), most.max(time));
        let pair = pair::<F>(record);
        let hash = hash::<F>(pair, &seed);
        if chains.find::<F>(records, hash, pair).is_some() {
            return None;
        }
        in_use += 1;
        chains.before[in_use] = chains.last[hash];
        chains.last[hash] = in_use as u16;
    }
    let own = wanted.and_then(|wanted| {
        let wanted = pair::<F>(&wanted);
        chains.find::<F>(records, hash::<F>(wanted, &seed), wanted)
    });
    (most <= UNTIL_MAX).then(|| Found {
        places: records.len(),
        in_use,
        least,
        own: own.map(|place| (place, until::<F>(&records[place]))),
    })
}

/// Eight bytes of the digest of a key of 32 bytes, spread over the words (splitmix64); with another key the call is refused in any case.
fn seed(key: &[u8]) -> [u32; WORDS] {
    let mut state = match key.len() {
        32 => be64(&sha256(key), 0),
        _ => 0,
    };
    let mut words = [0; WORDS];
    for two in words.as_chunks_mut::<2>().0 {
        state = state.wrapping_add(0x9e37_79b9_7f4a_7c15);
        let z = (state ^ (state >> 30)).wrapping_mul(0xbf58_476d_1ce4_e5b9);
        let z = (z ^ (z >> 27)).wrapping_mul(0x94d0_49bb_1331_11eb);
        let z = z ^ (z >> 31);
        *two = [z as u32, (z >> 32) as u32];
    }
    words
}

/// The sum of (w₂ᵢ + k₂ᵢ)·(w₂ᵢ₊₁ + k₂ᵢ₊₁) over the pair's words, folded.
#[inline(always)]
fn hash<F: Family>(pair: &[u8], seed: &[u32; WORDS]) -> usize {
    let words = pair.as_chunks::<4>().0;
    let word = |i: usize| {
        let own = words.get(i).map_or(0, |bytes| u32::from_le_bytes(*bytes));
        u64::from(own.wrapping_add(seed[i]))
    };
    let mut sum = 0u64;
    for i in 0..words.len().div_ceil(2) {
        sum = sum.wrapping_add(word(2 * i).wrapping_mul(word(2 * i + 1)));
    }
    let sum = sum ^ (sum >> 32);
    (sum.wrapping_mul(0x9e37_79b9_7f4a_7c15) >> (64 - HASH_BITS)) as usize
}

impl Found {
    /// The larger of a wait and what is left of the ad's own bound.
    pub fn used(&self, wait: u64, clock: u64) -> u64 {
        let until = self.own.map_or(0, |(_, until)| until);
        wait.max(until.saturating_sub(clock))
    }

    /// Whether a new bound finds no place: refusal 19 where a ticket would be issued.
    pub fn crowded(&self, clock: u64) -> bool {
        self.own.is_none() && self.in_use == self.places && self.least > clock
    }

    /// Drops the bounds past their time, and writes the ad's own in its place or behind the others.
    pub fn enter<F: Family>(&self, bytes: &mut [u8], clock: u64, ad: Ad<F>, until: u64) {
        let records = F::Bound::all_mut(bytes);
        let (mut kept, mut own) = (self.in_use, self.own.map(|(place, _)| place));
        if self.least <= clock {
            (kept, own) = drop_past::<F>(&mut records[..self.in_use], clock, own);
        }
        let record = records[own.unwrap_or(kept)].as_mut();
        if own.is_none() {
            record[0] = BOUND;
            record[1..33].copy_from_slice(ad.service());
            record[33..][..F::ADDRESS_LEN].copy_from_slice(ad.address().as_ref());
        }
        record[F::BOUND_LEN - 8..].copy_from_slice(&until.to_be_bytes());
    }
}

/// Moves the records in force to the front and makes the rest zeros; how many there are, and where the own one is now.
fn drop_past<F: Family>(
    records: &mut [F::Bound],
    clock: u64,
    own: Option<usize>,
) -> (usize, Option<usize>) {
    let (mut kept, mut own_now) = (0, None);
    for place in 0..records.len() {
        let record = records[place];
        if until::<F>(&record) > clock {
            if own == Some(place) {
                own_now = Some(kept);
            }
            records[kept] = record;
            kept += 1;
        }
    }
    records[kept..].fill(F::NO_BOUND);
    (kept, own_now)
}
