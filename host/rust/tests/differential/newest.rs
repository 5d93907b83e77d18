//! The newest advertisement in two caches, of one family or of two: which cache and which place, at equal times too, and whose refusal is
//! told.
use super::calls::Calls;
use super::compare::Compare;
use super::inputs::{address, cache, clock, id, CAPACITIES};
use super::random::Random;
use crate::oracle::cache::{Cache, Entry};
use crate::oracle::family::Family;
use crate::oracle::record::Ad;
use crate::oracle::{CLOCK_MAX, LIFETIME};

const NOW: u64 = 7_000_000;

/// Every two families.
const PAIRS: [(Family, Family); 4] = [
    (Family::V4, Family::V4),
    (Family::V4, Family::V6),
    (Family::V6, Family::V4),
    (Family::V6, Family::V6),
];

/// Where the body of the entry in this slot begins.
fn body_at(family: Family, slot: usize) -> u64 {
    let entry = match family {
        Family::V4 => 151,
        Family::V6 => 163,
    };
    (29 + entry * slot + 9) as u64
}

fn entry(family: Family, accepted: u64, service: u64, withdrawn: bool, stamp: u64) -> Entry {
    let ad = Ad {
        service: id(service),
        peer: id(stamp),
        address: address(family, stamp as u8),
        port: 30303,
        stamp,
        signature: vec![0xee; 64],
    };
    Entry {
        accepted,
        withdrawn,
        ad,
    }
}

/// Every cache of up to three entries whose times are one of expired, old and new, each wanted, withdrawn or of another service.
fn small_caches(family: Family) -> Vec<Vec<u8>> {
    let times = [NOW - LIFETIME, NOW - LIFETIME + 1, NOW - 5];
    let mut caches = Vec::new();
    for count in 0..=3u32 {
        for pattern in 0..9usize.pow(count) {
            let sort = |slot: u32| pattern / 9usize.pow(slot) % 9;
            let accepted: Vec<u64> = (0..count).map(|slot| times[sort(slot) / 3]).collect();
            if !accepted.is_sorted() {
                continue;
            }
            let entries = (0..count).map(|slot| {
                let service = if sort(slot) % 3 == 2 { 4 } else { 1 };
                let accepted = accepted[slot as usize];
                entry(family, accepted, service, sort(slot) % 3 == 1, slot.into())
            });
            let held = Cache::holding(family, 3, NOW - 1, entries.collect());
            caches.push(held.bytes());
        }
    }
    caches
}

/// Every two of them.
pub fn every_small_pair<C: Calls>(calls: &C) {
    let both = Compare(calls);
    for (one, other) in PAIRS {
        let (firsts, seconds) = (small_caches(one), small_caches(other));
        let mut answers = [0; 3];
        for first in &firsts {
            for second in seconds.iter().step_by(3) {
                let (answer, _) = both.newest(first, second, NOW, &id(1));
                answers[answer as usize] += 1;
            }
        }
        assert!(answers.iter().all(|count| *count > 0));
    }
}

/// Well-formed caches of every capacity, and the same with a bit changed, for the services of their entries and for others. Where one is
/// answered, what the lent number tells is a body of that service.
pub fn any_caches<C: Calls>(calls: &C) {
    let both = Compare(calls);
    let mut random = Random::new(9_001);
    let mut found = [[0; 2]; 2];
    for _ in 0..1_200 {
        let now = clock(&mut random).max(LIFETIME);
        let one = |random: &mut Random| {
            let capacity = random.pick(&CAPACITIES);
            let count = random.below(capacity as u64 + 1) as usize;
            let family = random.pick(&Family::BOTH);
            cache(random, family, capacity, count, now)
        };
        let (first, second) = (one(&mut random), one(&mut random));
        let entries = first.entries.iter().chain(&second.entries);
        let mut services: Vec<Vec<u8>> = entries.map(|entry| entry.ad.service.clone()).collect();
        services.push(id(77));
        let service = services[random.below(services.len() as u64) as usize].clone();
        let families = [first.family, second.family];
        let (mut first, second) = (first.bytes(), second.bytes());
        let (answer, at) = both.newest(&first, &second, now, &service);
        if answer > 0 {
            let which = answer as usize - 1;
            found[usize::from(families[0] != families[1])][which] += 1;
            let (holder, at) = ([&first, &second][which], at as usize);
            let body = &holder[at..at + families[which].body_len()];
            assert_eq!(Ad::of_body(families[which], body).service, service);
        }
        both.newest(&second, &first, now, &service);
        let bit = random.below(8 * first.len() as u64) as usize;
        first[bit / 8] ^= 1 << (bit % 8);
        both.newest(&first, &second, now, &service);
        both.newest(&second, &first, now, &service);
    }
    let seen = found.as_flattened();
    assert!(seen.iter().all(|count| *count > 20), "{found:?}");
}

/// One slice as both caches: the first is answered. Of equal times the later place, past ten of them too.
pub fn one_slice<C: Calls>(calls: &C) {
    let both = Compare(calls);
    for (family, count) in Family::BOTH
        .into_iter()
        .flat_map(|family| (1..=30).map(move |count| (family, count)))
    {
        let entries = (0..count)
            .map(|slot| entry(family, NOW - 9, 1, false, slot))
            .collect();
        let mut held = Cache::holding(family, 30, NOW - 1, entries);
        let last = count as usize - 1;
        assert_eq!(
            both.newest_of_one(&held.bytes(), NOW, &id(1)),
            (1, body_at(family, last))
        );
        held.entries[last].withdrawn = true;
        let (answer, told) = both.newest_of_one(&held.bytes(), NOW, &id(1));
        assert_eq!(answer, i64::from(count > 1));
        assert!(count == 1 || told == body_at(family, last - 1));
    }
}

/// At equal times in both caches the first is answered, and of the two the newer, whatever their families.
pub fn equal_times<C: Calls>(calls: &C) {
    let both = Compare(calls);
    for (one, other) in PAIRS {
        let held = |family, accepted| {
            let entries = [1, 2].map(|stamp| entry(family, accepted, 1, false, stamp));
            Cache::holding(family, 3, NOW - 1, entries.to_vec()).bytes()
        };
        for (first, second, answer) in [(9, 9, 1), (9, 10, 1), (10, 9, 2)] {
            let (first, second) = (held(one, NOW - first), held(other, NOW - second));
            let place = body_at(if answer == 1 { one } else { other }, 1);
            let told = both.newest(&first, &second, NOW, &id(1));
            assert_eq!(told, (answer, place), "{one:?}, {other:?}");
        }
    }
}

/// A good cache at the clock, one that is ahead of it, one of zeros, and one that says it is of the other family.
fn good_and_not(family: Family) -> [Vec<u8>; 4] {
    let held = |clock| {
        let entries = vec![entry(family, clock, 1, false, 0)];
        Cache::holding(family, 2, clock, entries).bytes()
    };
    let mut other = held(NOW);
    other[0] = family.other().head_kind();
    let zeros = vec![0; family.cache_len(1)];
    [held(NOW), held(NOW + 1), zeros, other]
}

/// All of the first cache's refusals, then all of the second's; the lent number stays.
pub fn refused<C: Calls>(calls: &C) {
    let both = Compare(calls);
    for (one, other) in PAIRS {
        let [good, late, broken, turned] = good_and_not(one);
        let [good_too, late_too, broken_too, turned_too] = good_and_not(other);
        let empty = Vec::new();
        for (first, second, now, service, refusal) in [
            (&broken, &good_too, NOW, id(1), 1),
            (&good, &broken_too, NOW, id(1), 1),
            (&turned, &good_too, NOW, id(1), 1),
            (&good, &turned_too, NOW, id(1), 1),
            (&empty, &good_too, NOW, id(1), 1),
            (&good, &empty, NOW, id(1), 1),
            (&late, &broken_too, NOW, id(1), 3),
            (&late, &turned_too, NOW, id(1), 3),
            (&broken, &late_too, NOW, id(1), 1),
            (&good, &late_too, NOW, id(1), 3),
            (&late, &good_too, NOW, id(1), 3),
            (&good, &broken_too, NOW, vec![0x1d; 31], 2),
            (&late, &broken_too, NOW, vec![], 2),
            (&good, &good_too, NOW - 1, id(1), 3),
            (&good, &good_too, CLOCK_MAX + 1, id(1), 3),
            (&good, &good_too, CLOCK_MAX, id(1), 0),
            (&good, &good_too, NOW, id(2), 0),
        ] {
            let (answer, told) = both.newest(first, second, now, &service);
            assert_eq!(answer, -refusal);
            assert_eq!(told, 0x5a5a_5a5a_5a5a_5a5a);
        }
    }
}
