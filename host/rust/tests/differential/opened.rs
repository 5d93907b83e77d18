//! Opening, and caches that no call of ours made: well formed, with a single defect, with any bit changed.
use super::calls::Calls;
use super::compare::Compare;
use super::inputs::{ad, address, cache, clock, id, ticket_for, unwritten, CAPACITIES, KEY};
use super::random::Random;
use crate::oracle::cache::Cache;
use crate::oracle::family::Family;
use crate::oracle::{CLOCK_MAX, LIFETIME, RECORDED_WINDOW, USUAL_WINDOW, WINDOWS};

pub fn every_length<C: Calls>(calls: &C, family: Family) {
    let both = Compare(calls);
    let mut random = Random::new(7);
    let open = |bytes: &mut [u8]| both.open(bytes, family.number());
    let length_of = |capacity| family.cache_len(capacity);
    for length in 0..=700 {
        let opens = (1..=4).any(|capacity| length == length_of(capacity));
        let answer = open(&mut random.bytes(length));
        assert_eq!(answer, if opens { 0 } else { -1 }, "{length} bytes");
    }
    for capacity in (1..=1003).step_by(17).chain([999, 1000, 1001, 1002, 2000]) {
        for length in length_of(capacity) - 1..=length_of(capacity) + 1 {
            open(&mut unwritten(length));
        }
        // As long as it was before document 02's order 8.
        let old = 13 + family.entry_len() * capacity;
        assert_eq!(open(&mut unwritten(old)), -1);
    }
    // A length whose capacity would be right modulo 2^16.
    assert_eq!(open(&mut unwritten(length_of(65_536 + 4))), -1);
}

/// A first request of this family, a listing and a withdrawal on a cache, each answered alike by both.
fn used<C: Calls>(both: &Compare<C>, family: Family, cache: &[u8], now: u64) -> [i64; 3] {
    let newcomer = crate::oracle::record::Ad {
        service: id(0),
        peer: id(5_000),
        address: address(family, 1),
        port: 1,
        stamp: 2,
        signature: vec![3; 64],
    };
    let ad = newcomer.record();
    let (mut after, mut reply) = (cache.to_vec(), unwritten(89));
    [
        both.register(&mut after, &KEY, USUAL_WINDOW, now, &ad, 1, &[], &mut reply),
        both.get_ads(cache, now, &id(0), &mut unwritten(family.list_len())),
        both.withdraw(&mut cache.to_vec(), &id(0), &id(6_000), now, 1),
    ]
}

/// Every single defect of a well-formed cache gets refusal 1 from every call with a cache.
pub fn single_defects<C: Calls>(calls: &C, family: Family) {
    let both = Compare(calls);
    let mut random = Random::new(8);
    let used = |bytes: &[u8], now| used(&both, family, bytes, now);
    let length_of = |capacity| family.cache_len(capacity);
    let place = family.entry_len();
    for capacity in [1, 2, 3, 8, 64] {
        for count in [0, 1, capacity / 2, capacity - 1, capacity] {
            let now = 5_000_000;
            let mut sound = cache(&mut random, family, capacity, count, now);
            for (entry, step) in sound.entries.iter_mut().zip(0..) {
                entry.accepted = 4_200_000 + 3 * step;
            }
            // The pair that is withdrawn.
            if let Some(entry) = sound.entries.last_mut() {
                (entry.ad.service, entry.ad.peer) = (id(0), id(6_000));
                entry.withdrawn = false;
            }
            sound.clock = 4_900_000;
            let bytes = sound.bytes();
            let end = length_of(count);
            let [asked, listed, withdrawn] = used(&bytes, now);
            assert!(asked >= 0 && listed >= 0);
            assert_eq!(withdrawn, if count > 0 { 0 } else { -17 });
            let refused = |about: &str, bytes: Vec<u8>| {
                let about = format!("{about}: capacity {capacity}, count {count}");
                assert_eq!(used(&bytes, now), [-1, -1, -1], "{about}");
            };
            let with = |at: usize, new: &[u8]| {
                let mut changed = bytes.clone();
                changed[at..at + new.len()].copy_from_slice(new);
                changed
            };
            let longer = |more: usize| [bytes.clone(), vec![0; more]].concat();
            refused("a byte less", bytes[..bytes.len() - 1].to_vec());
            refused("a byte more", longer(1));
            refused("a place more", longer(place));
            refused("a place less", bytes[..bytes.len() - place].to_vec());
            refused("the head alone", bytes[..29].to_vec());
            refused("the old length", bytes[..bytes.len() - 16].to_vec());
            refused("the old head", old_cache(&bytes));
            refused("less than a head", bytes[..5].to_vec());
            refused("nothing", Vec::new());
            for kind in (0..=255).filter(|kind| *kind != family.head_kind()) {
                refused("head of another kind", with(0, &[kind]));
            }
            for other in [0, capacity - 1, capacity + 1, capacity + 256, 65_535] {
                refused("another capacity", with(1, &(other as u16).to_be_bytes()));
            }
            // Another count, with the sum as it should be for it, and with the sum as it was.
            let counted = |count: usize| {
                let mut changed = with(3, &(count as u16).to_be_bytes());
                let confirmed = sound.expired.wrapping_add(count as u64);
                changed[13..21].copy_from_slice(&confirmed.to_be_bytes());
                changed
            };
            for other in [capacity + 1, capacity + 256, 65_535] {
                refused("count above capacity", counted(other));
            }
            if count < capacity {
                refused("count one more", counted(count + 1));
                refused(
                    "one more, by the count alone",
                    with(3, &(count as u16 + 1).to_be_bytes()),
                );
            }
            if count > 0 {
                refused("count one less", counted(count - 1));
                refused(
                    "one less, by the count alone",
                    with(3, &(count as u16 - 1).to_be_bytes()),
                );
            }
            for clock in [CLOCK_MAX + 1, 1 << 63, u64::MAX] {
                refused("clock out of range", with(5, &clock.to_be_bytes()));
            }
            // The sum, off by one, by a carry and by a high byte; a pair of counters with it, exchanged.
            for more in [1, u64::MAX, 1 << 16, 1 << 32, 1 << 63] {
                let confirmed = sound.confirmed.wrapping_add(more).to_be_bytes();
                let expired = sound.expired.wrapping_sub(more).to_be_bytes();
                refused("confirmed is not the sum", with(13, &confirmed));
                refused("expired is not what is left", with(21, &expired));
                if more.wrapping_mul(2) != 0 {
                    let both_wrong = with(13, &[confirmed, expired].concat());
                    refused("both moved apart", both_wrong);
                }
            }
            if count > 0 {
                let (confirmed, expired) = (&bytes[13..21], &bytes[21..29]);
                refused("exchanged", with(13, &[expired, confirmed].concat()));
            }
            for (entry, slot) in sound.entries.iter().zip(0..) {
                let at = length_of(slot);
                let kinds = [family.entry_kind(), family.withdrawn_kind()];
                for kind in (0..=255).filter(|kind| !kinds.contains(kind)) {
                    refused("entry of another kind", with(at, &[kind]));
                }
                if slot + 1 < count {
                    let after_next = (entry.accepted + 4).to_be_bytes();
                    refused("accepted falls", with(at + 1, &after_next));
                } else {
                    let after_clock = (sound.clock + 1).to_be_bytes();
                    refused("accepted after the clock", with(at + 1, &after_clock));
                    refused(
                        "clock before accepted",
                        with(5, &(entry.accepted - 1).to_be_bytes()),
                    );
                    let huge = (entry.accepted | 1 << 63).to_be_bytes();
                    refused("accepted past the range", with(at + 1, &huge));
                }
            }
            let step = if capacity > 8 { 37 } else { 1 };
            for at in (end..bytes.len()).step_by(step).chain([bytes.len() - 1]) {
                if at >= end {
                    refused("rest not zero", with(at, &[1 << (at % 8)]));
                }
            }
        }
    }
    // A head and a length that agree on a capacity out of range.
    for capacity in [1001u16, 1002, 2000] {
        let mut bytes = vec![0; length_of(usize::from(capacity))];
        bytes[0] = family.head_kind();
        bytes[1..3].copy_from_slice(&capacity.to_be_bytes());
        assert_eq!(used(&bytes, 1), [-1, -1, -1]);
    }
    let none = [&[family.head_kind()][..], &[0; 28]].concat();
    assert_eq!(used(&none, 1), [-1, -1, -1]);
}

/// The same entries in a cache as it was before document 02's order 8: a head of kind 4 that ends with the clock.
fn old_cache(bytes: &[u8]) -> Vec<u8> {
    [&[4], &bytes[1..13], &bytes[29..]].concat()
}

/// Document 02's own case of the sum, and those beside it: confirmed 0, expired 2^64 − 1 and count 1 are well formed.
pub fn sums<C: Calls>(calls: &C, family: Family) {
    let both = Compare(calls);
    let mut random = Random::new(22);
    let mut held = cache(&mut random, family, 1, 1, 5_000_000);
    (held.entries[0].accepted, held.clock) = (4_500_000, 4_500_000);
    for (confirmed, expired) in [
        (0, u64::MAX),
        (1, 0),
        (u64::MAX, u64::MAX - 1),
        (1 << 63, (1 << 63) - 1),
    ] {
        for off in [0, 1, u64::MAX] {
            (held.confirmed, held.expired) = (confirmed, expired.wrapping_add(off));
            let [asked, listed, withdrawn] = used(&both, family, &held.bytes(), 5_000_000);
            if off == 0 {
                assert!(asked > 0 && listed >= 0 && withdrawn == -17);
            } else {
                assert_eq!([asked, listed, withdrawn], [-1, -1, -1]);
            }
        }
    }
}

/// Every bit of a small cache changed by itself.
pub fn every_bit<C: Calls>(calls: &C, family: Family) {
    let both = Compare(calls);
    let mut random = Random::new(9);
    for count in 0..=3 {
        let now = 3_000_000;
        let bytes = cache(&mut random, family, 3, count, now).bytes();
        for bit in 0..bytes.len() * 8 {
            let mut changed = bytes.clone();
            changed[bit / 8] ^= 1 << (bit % 8);
            used(&both, family, &changed, now);
        }
    }
}

/// Well-formed caches of every shape: first requests, returns, listings and withdrawals.
pub fn not_made_by_our_calls<C: Calls>(calls: &C, family: Family) {
    let both = Compare(calls);
    let mut random = Random::new(10);
    let mut answered = [0; 3];
    for capacity in CAPACITIES {
        let turns = if capacity > 300 { 150 } else { 600 };
        for _ in 0..turns {
            let now = clock(&mut random);
            let any = random.index(capacity + 1);
            let count = random.pick(&[0, 1, capacity - 1, capacity, any]);
            let held = cache(&mut random, family, capacity, count, now);
            let mut newcomer = ad(&mut random, family, 3, 4_000);
            if let (true, Some(entry)) = (random.chance(20), held.entries.first()) {
                newcomer.service = entry.ad.service.clone();
                newcomer.peer = entry.ad.peer.clone();
            }
            let wait = held.load(now, &newcomer).wait();
            let stayed = random.pick(&[0, 1, wait - 1, wait, wait + 1, LIFETIME, CLOCK_MAX]);
            let ticket = ticket_for(&mut random, &newcomer, now, stayed).record(&KEY);
            let mut bytes = held.bytes();
            let brought = if random.chance(70) { &ticket[..] } else { &[] };
            let window = random.pick(&[1, RECORDED_WINDOW, USUAL_WINDOW, *WINDOWS.end()]);
            let answer = both.register(
                &mut bytes,
                &KEY,
                window,
                now,
                &newcomer.record(),
                1,
                brought,
                &mut unwritten(89),
            );
            answered[(answer.signum() + 1) as usize] += 1;
            assert!(Cache::read(&bytes).is_some());
            let service = id(random.below(5));
            let later = now + random.pick(&[0, 0, 1, 10_000]);
            both.get_ads(&bytes, later, &service, &mut unwritten(family.list_len()));
            both.withdraw(&mut bytes, &newcomer.service, &newcomer.peer, later, 1);
            assert!(Cache::read(&bytes).is_some());
        }
    }
    // Refusals, confirmations and waits were all seen.
    assert!(answered.iter().all(|seen| *seen > 100), "{answered:?}");
}

/// Listings of fewer than ten, of ten and of more, with expired entries and other services between.
pub fn listings<C: Calls>(calls: &C, family: Family) {
    let both = Compare(calls);
    let mut random = Random::new(11);
    let mut counts = [0; 11];
    for turn in 0..2_000 {
        let capacity = random.pick(&[1, 2, 9, 10, 11, 12, 25, 40]);
        let now = 10_000_000 + turn;
        let count = random.index(capacity + 1);
        let held = cache(&mut random, family, capacity, count, now);
        let mut list = random.bytes(family.list_len());
        let listed = both.get_ads(&held.bytes(), now, &id(random.below(2)), &mut list);
        counts[listed as usize] += 1;
    }
    assert!(counts.iter().all(|seen| *seen > 0), "{counts:?}");
}
