//! The check of lower bounds in one walk. That each pair stands once is seen by a set of bits, one for each keyed hash of 17 bits; where
//! a bit is there already, which is rare, the pairs that have it are compared.
use plain::bounds::{pair, until, wanted, Found, BOUND, MOST_PLACES, UNTIL_MAX};
use plain::family::{Family, Record};
use plain::Refusal;

use crate::cache::zero;

/// The words of an IPv6 pair, and so many of a seed.
const WORDS: usize = 6;

/// Checks that the bytes are bounds of the family: refusal 18. The ad may have any form; an own record is looked for where it has its length.
pub fn read<F: Family>(bytes: &[u8], secret: u64, ad: &[u8]) -> Result<Found, Refusal> {
    let places = bytes.len() / F::BOUND_LEN;
    if !bytes.len().is_multiple_of(F::BOUND_LEN) || !(1..=MOST_PLACES).contains(&places) {
        return Err(Refusal(18));
    }
    let records = F::Bound::all(bytes);
    if records[0].as_ref()[0] != BOUND {
        let none = Found {
            places,
            in_use: 0,
            least: u64::MAX,
            own: None,
        };
        return zero(bytes).then_some(none).ok_or(Refusal(18));
    }
    walk::<F>(records, &seed(secret), wanted::<F>(ad))
        .filter(|found| zero(&bytes[F::BOUND_LEN * found.in_use..]))
        .ok_or(Refusal(18))
}

/// A hash has so many bits.
const HASH_BITS: u32 = 17;

/// A bit for each hash of the records so far, and the lower half of each of these hashes.
struct Seen {
    bits: [u64; 1 << (HASH_BITS - 6)],
    hashes: [u16; MOST_PLACES],
    count: usize,
}

impl Seen {
    fn has(&self, hash: usize) -> bool {
        self.bits[hash >> 6] >> (hash & 63) & 1 != 0
    }

    /// The place of the pair among the records so far, some of which has its hash.
    #[cold]
    #[inline(never)]
    fn find<F: Family>(&self, records: &[F::Bound], hash: usize, wanted: &[u8]) -> Option<usize> {
        let hash = hash as u16;
        let hashes = self.hashes[..self.count].chunks(64);
        for (start, some) in (0..).step_by(64).zip(hashes) {
            if some.iter().fold(false, |seen, own| seen | (*own == hash)) {
                let same = |i: &usize| some[*i] == hash && pair::<F>(&records[start + i]) == wanted;
                if let Some(i) = (0..some.len()).find(same) {
                    return Some(start + i);
                }
            }
        }
        None
    }
}

#[inline(never)]
fn walk<F: Family>(
    records: &[F::Bound],
    seed: &[u64; WORDS],
    wanted: Option<F::Bound>,
) -> Option<Found> {
    let mut seen = Seen {
        bits: [0; 1 << (HASH_BITS - 6)],
        hashes: [0; MOST_PLACES],
        count: 0,
    };
    let (mut least, mut most) = (u64::MAX, 0);
    for (record, own) in records.iter().zip(0..MOST_PLACES) {
        if record.as_ref()[0] != BOUND {
            break;
        }
        let time = until::<F>(record);
        (least, most) = (least.min(time), most.max(time));
        let hash = hash(pair::<F>(record), seed);
        if seen.has(hash) && seen.find::<F>(records, hash, pair::<F>(record)).is_some() {
            return None;
        }
        seen.bits[hash >> 6] |= 1 << (hash & 63);
        seen.hashes[own] = hash as u16;
        seen.count = own + 1;
    }
    let own = wanted.and_then(|wanted| {
        let hash = hash(pair::<F>(&wanted), seed);
        let there = seen.has(hash);
        there.then(|| seen.find::<F>(records, hash, pair::<F>(&wanted)))?
    });
    (most <= UNTIL_MAX).then(|| Found {
        places: records.len(),
        in_use: seen.count,
        least,
        own: own.map(|place| (place, until::<F>(&records[place]))),
    })
}

/// A secret of eight bytes, spread over the words (splitmix64).
fn seed(secret: u64) -> [u64; WORDS] {
    let mut state = secret;
    std::array::from_fn(|_| {
        state = state.wrapping_add(0x9e37_79b9_7f4a_7c15);
        let z = (state ^ (state >> 30)).wrapping_mul(0xbf58_476d_1ce4_e5b9);
        let z = (z ^ (z >> 27)).wrapping_mul(0x94d0_49bb_1331_11eb);
        z ^ (z >> 31)
    })
}

/// The sum of (w₂ᵢ + k₂ᵢ)·(w₂ᵢ₊₁ + k₂ᵢ₊₁) over the pair's words of 64 bits, folded. The last word of an IPv4 pair is its last eight
/// bytes, and the sixth is none.
#[inline(always)]
fn hash(pair: &[u8], seed: &[u64; WORDS]) -> usize {
    let word = |i: usize| {
        let at = (8 * i).min(pair.len() - 8);
        let own = match pair.get(at..at + 8) {
            Some(bytes) if 8 * i < pair.len() => u64::from_le_bytes(bytes.try_into().unwrap()),
            _ => 0,
        };
        own.wrapping_add(seed[i])
    };
    let product = |i| u128::from(word(i)) * u128::from(word(i + 1));
    let sum = product(0).wrapping_add(product(2)).wrapping_add(product(4));
    let sum = sum as u64 ^ (sum >> 64) as u64;
    (sum.wrapping_mul(0x9e37_79b9_7f4a_7c15) >> (64 - HASH_BITS)) as usize
}
