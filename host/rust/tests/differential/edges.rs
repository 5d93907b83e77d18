//! IPv6's own edges. The waits are document 01's recipe over p/128, worked out by hand: the tables have them as numbers, which the oracle and
//! the implementation are both held to.
use super::calls::Calls;
use super::compare::Compare;
use super::inputs::{address, id, unwritten, KEY};
use crate::oracle::cache::{Cache, Entry};
use crate::oracle::family::Family;
use crate::oracle::record::{Ad, Ticket};
use crate::oracle::{CLOCK_MAX, LIFETIME, USUAL_WINDOW};

/// The wait of a full cache, and of a working that reaches 2^53 grains.
const LONGEST: u64 = 1 << 40;

/// The numbers of leading bits that are tried: none, one, both sides of half of the address, all but the last, and all.
const BITS: [usize; 7] = [0, 1, 63, 64, 65, 127, 128];

/// The entries' address, 2001:db8::1, or one that shares exactly so many bits with it and all that follow the first other one.
fn sharing(bits: usize) -> Vec<u8> {
    let mut address = address(Family::V6, 1);
    if bits < 128 {
        address[bits / 8] ^= 0x80 >> (bits % 8);
    }
    address
}

fn ad(service: u64, peer: u64, address: Vec<u8>) -> Ad {
    Ad {
        service: id(service),
        peer: id(peer),
        address,
        port: 443,
        stamp: 0,
        signature: vec![0; 64],
    }
}

/// A cache at the last clock whose live entries share so many bits with 2001:db8::1; the first `s` are of the newcomer's service.
fn held(capacity: usize, s: usize, bits: &[usize]) -> Cache {
    let entries = bits.iter().enumerate().map(|(slot, bits)| {
        let service = u64::from(slot >= s);
        Entry::new(CLOCK_MAX, ad(service, 1_000 + slot as u64, sharing(*bits)))
    });
    Cache::holding(Family::V6, capacity, CLOCK_MAX, entries.collect())
}

/// A newcomer has this wait: its first request is told it, at most a lifetime of it; who has stayed a millisecond less is told to wait one
/// more, and who has stayed as long is confirmed, where the clock goes as far.
fn waits<C: Calls>(both: &Compare<C>, cache: &Cache, newcomer: &Ad, wait: u64) {
    let load = cache.load(CLOCK_MAX, newcomer);
    assert_eq!(load.wait(), wait, "{load:?}");
    let called = |ticket: &[u8]| {
        let (mut bytes, mut reply) = (cache.bytes(), unwritten(89));
        let record = newcomer.record();
        let window = USUAL_WINDOW;
        both.register(
            &mut bytes, &KEY, window, CLOCK_MAX, &record, 1, ticket, &mut reply,
        )
    };
    assert_eq!(called(&[]), wait.min(LIFETIME) as i64, "{load:?}");
    let stayed = |stayed: u64| {
        let ticket = Ticket {
            ad_hash: newcomer.hash(),
            first: CLOCK_MAX - stayed,
            issued: CLOCK_MAX - 1,
            wait: 1,
        };
        called(&ticket.record(&KEY))
    };
    if wait > 1 {
        assert_eq!(stayed(wait - 1), 1, "{load:?}");
    }
    if wait <= CLOCK_MAX {
        assert_eq!(stayed(wait), 0, "{load:?}");
    }
}

/// One live entry, of another service and of the newcomer's, and a newcomer that shares each number of bits with it.
pub fn shared_bits<C: Calls>(calls: &C) {
    let both = Compare(calls);
    let table: [(usize, usize, [u64; 7]); 8] = [
        (1, 0, [LONGEST; 7]),
        (1, 1, [LONGEST; 7]),
        (
            2,
            0,
            [
                93,
                7_200_093,
                453_600_093,
                460_800_093,
                468_000_093,
                914_400_093,
                921_600_093,
            ],
        ),
        (
            2,
            1,
            [
                460_800_093,
                468_000_093,
                914_400_093,
                921_600_093,
                928_800_093,
                1_375_200_093,
                1_382_400_093,
            ],
        ),
        (
            3,
            0,
            [
                6, 405_463, 25_543_816, 25_949_273, 26_354_731, 51_493_084, 51_898_541,
            ],
        ),
        (
            3,
            1,
            [
                17_299_517, 17_704_975, 42_843_328, 43_248_785, 43_654_242, 68_792_595, 69_198_053,
            ],
        ),
        (
            1000,
            0,
            [1, 7_103, 447_423, 454_525, 461_627, 901_948, 909_050],
        ),
        (
            1000,
            1,
            [910, 8_012, 448_333, 455_434, 462_536, 902_857, 909_959],
        ),
    ];
    for (capacity, s, expected) in table {
        let cache = held(capacity, s, &[128]);
        for (bits, wait) in BITS.into_iter().zip(expected) {
            let newcomer = ad(0, 7, sharing(bits));
            assert_eq!(cache.load(CLOCK_MAX, &newcomer).p, bits as u64);
            waits(&both, &cache, &newcomer, wait);
        }
    }
}

/// c = 0: the wait is 1, whatever the address, in an empty cache and in one whose entries have all expired.
pub fn empty<C: Calls>(calls: &C) {
    let both = Compare(calls);
    for capacity in [1, 2, 1000] {
        let mut expired = held(capacity, capacity, &vec![128; capacity]);
        for entry in &mut expired.entries {
            entry.accepted = CLOCK_MAX - LIFETIME;
        }
        for cache in [held(capacity, 0, &[]), expired] {
            for bits in BITS {
                waits(&both, &cache, &ad(0, 7, sharing(bits)), 1);
            }
        }
    }
}

/// c = C: the wait is 2^40, whatever the address, and a millisecond less than a lifetime old is still live.
pub fn full<C: Calls>(calls: &C) {
    let both = Compare(calls);
    for capacity in [1, 2, 1000] {
        for shared in [0, 64, 128] {
            let mut cache = held(capacity, 0, &vec![shared; capacity]);
            for entry in &mut cache.entries {
                entry.accepted = CLOCK_MAX - LIFETIME + 1;
            }
            for bits in BITS {
                waits(&both, &cache, &ad(0, 7, sharing(bits)), LONGEST);
            }
        }
    }
}

/// Many live entries: so many that share so many bits, and others that share none; the points, and the wait.
pub fn points_of_many<C: Calls>(calls: &C) {
    let both = Compare(calls);
    let table = [
        // One in c shares enough for a point at i where 2^i > c: from 9 on where c is 500 or 511, from 10 on where it is 512.
        (1000, (1, 128), 500, 120, 864_000_093),
        (1000, (1, 64), 500, 56, 403_200_093),
        (1000, (1, 128), 511, 120, 1_079_257_912),
        (1000, (1, 128), 512, 119, 1_092_399_086),
        // A half is not more than the half.
        (1000, (250, 1), 500, 0, 93),
        (1000, (251, 1), 500, 1, 7_200_093),
        (1000, (500, 63), 500, 63, 453_600_093),
        (1000, (500, 65), 500, 65, 468_000_093),
        (1000, (4, 64), 128, 59, 1_631_999),
        (64, (4, 64), 32, 61, 439_200_093),
        (1000, (1, 128), 999, 119, LONGEST),
        (1000, (999, 128), 999, 128, LONGEST),
        (1000, (1000, 128), 1000, 128, LONGEST),
    ];
    for (capacity, (near, bits), c, points, wait) in table {
        let mut shared = vec![0; c];
        shared[..near].fill(bits);
        let cache = held(capacity, 0, &shared);
        let newcomer = ad(0, 7, sharing(128));
        assert_eq!(cache.load(CLOCK_MAX, &newcomer).p, points);
        waits(&both, &cache, &newcomer, wait);
    }
}
