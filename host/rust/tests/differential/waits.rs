//! Waits, seen through REGISTER: the last time stayed that waits and the first that is confirmed, and demand 3 by exact fractions.
use super::calls::Calls;
use super::compare::Compare;
use super::inputs::{address_sharing, id, unwritten, KEY};
use super::random::Random;
use crate::oracle::cache::{Cache, Entry};
use crate::oracle::family::Family;
use crate::oracle::record::{Ad, Ticket};
use crate::oracle::{CLOCK_MAX, LIFETIME, USUAL_WINDOW};

/// The newcomer's address.
fn newcomers(family: Family) -> Vec<u8> {
    [172, 16, 254, 3].repeat(family.address_len() / 4)
}

fn ad(service: u64, peer: u64, address: Vec<u8>) -> Ad {
    Ad {
        service: id(service),
        peer: id(peer),
        address,
        port: 9,
        stamp: 0,
        signature: vec![0; 64],
    }
}

/// A cache at the last clock with c live entries, s of them of service 0, and addresses that share these many bits with the newcomer's. Some
/// are withdrawn, which makes no difference.
fn loaded(random: &mut Random, family: Family, capacity: usize, s: usize, bits: &[u32]) -> Cache {
    let c = bits.len() as u64;
    let entries = (bits.iter().zip(0..))
        .map(|(bits, slot)| {
            let service = u64::from(slot >= s as u64);
            let address = address_sharing(random, &newcomers(family), *bits);
            Entry {
                accepted: CLOCK_MAX - (LIFETIME - 1) * (c - slot) / c,
                withdrawn: random.chance(20),
                ad: ad(service, 1_000 + slot, address),
            }
        })
        .collect();
    Cache::holding(family, capacity, CLOCK_MAX, entries)
}

/// The least number of milliseconds, to 2^40 at most, that passes the test; larger ones pass too.
fn least(passes: impl Fn(u64) -> bool) -> u64 {
    let (mut low, mut high) = (1, 1 << 40);
    while low < high {
        let middle = (low + high) / 2;
        if passes(middle) {
            high = middle;
        } else {
            low = middle + 1;
        }
    }
    low
}

/// A first request, and returns that have stayed just less than the wait and just as long, and at the edges of demand 3.
fn judged<C: Calls>(both: &Compare<C>, cache: &Cache) {
    let newcomer = ad(0, 7, newcomers(cache.family));
    let load = cache.load(CLOCK_MAX, &newcomer);
    let full = load.c == load.capacity;
    let wait = load.wait();
    let (bytes, record) = (cache.bytes(), newcomer.record());
    let called = |ticket: &[u8]| {
        let (mut after, mut reply) = (bytes.clone(), unwritten(89));
        let window = USUAL_WINDOW;
        both.register(
            &mut after, &KEY, window, CLOCK_MAX, &record, 1, ticket, &mut reply,
        )
    };
    assert_eq!(called(&[]), wait.min(LIFETIME) as i64, "{load:?}");
    let mut stays = vec![wait - 1, wait, wait + 1];
    if !full {
        let exact = least(|millis| load.reaches_exact(millis));
        let bound = least(|millis| load.reaches_bound(millis));
        stays.extend([exact - 1, exact, bound - 1, bound]);
    }
    stays.sort();
    stays.dedup();
    for stayed in stays {
        if !(1..=CLOCK_MAX).contains(&stayed) {
            continue;
        }
        let ticket = Ticket {
            ad_hash: newcomer.hash(),
            first: CLOCK_MAX - stayed,
            issued: CLOCK_MAX - stayed.min(LIFETIME),
            wait: stayed.min(LIFETIME),
        };
        let answer = called(&ticket.record(&KEY));
        let about = format!("{load:?}, wait {wait}, stayed {stayed}: {answer}");
        assert_eq!(answer == 0, stayed >= wait, "{about}");
        if full || !load.reaches_exact(stayed) {
            assert!(answer > 0, "too early: {about}");
        }
        if !full && load.reaches_bound(stayed) {
            assert_eq!(answer, 0, "too late: {about}");
        }
    }
}

/// All C ≤ 12, all c and s, and one address that shares each number of bits.
pub fn every_small_capacity<C: Calls>(calls: &C, family: Family) {
    let both = Compare(calls);
    let mut random = Random::new(15);
    for capacity in 1..=12 {
        for c in 0..=capacity {
            for s in 0..=c {
                for near in 0..=family.bits() {
                    let others = random.pick(&[0, 0, 0, 1, 2, 16, near]);
                    let mut bits = vec![others; c];
                    if let Some(last) = bits.last_mut() {
                        *last = near;
                    }
                    judged(&both, &loaded(&mut random, family, capacity, s, &bits));
                    if c == 0 {
                        break;
                    }
                }
            }
        }
    }
}

pub fn random_capacities<C: Calls>(calls: &C, family: Family) {
    let both = Compare(calls);
    let mut random = Random::new(16);
    let all = family.bits();
    for turn in 0..1_000 {
        let capacity = if turn % 10 == 0 {
            1000
        } else {
            13 + random.index(988)
        };
        let c = match random.below(4) {
            0 => capacity - random.index(capacity / 10),
            1 => capacity - random.index(3),
            _ => random.index(capacity + 1),
        };
        let s = random.pick(&[0, 1, c / 2, c]).min(c);
        let shape = random.below(4);
        let bits: Vec<u32> = (0..c)
            .map(|_| match shape {
                0 => random.below(u64::from(all) + 1) as u32,
                1 => random.next().leading_zeros().min(all),
                2 => 0,
                _ => random.pick(&[0, 0, all / 4, all / 2, all]),
            })
            .collect();
        judged(&both, &loaded(&mut random, family, capacity, s, &bits));
    }
}

/// A full cache has wait 2^40: even the longest stay is told to wait 1 ms more.
pub fn at_the_last_clock<C: Calls>(calls: &C, family: Family) {
    let both = Compare(calls);
    let mut random = Random::new(17);
    for capacity in [1, 2, 3, 64, 1000] {
        let cache = loaded(&mut random, family, capacity, 0, &vec![0; capacity]);
        let newcomer = ad(0, 7, newcomers(family));
        let ticket = Ticket {
            ad_hash: newcomer.hash(),
            first: 0,
            issued: CLOCK_MAX - USUAL_WINDOW - 1,
            wait: 1,
        };
        let mut bytes = cache.bytes();
        let answer = both.register(
            &mut bytes,
            &KEY,
            USUAL_WINDOW,
            CLOCK_MAX,
            &newcomer.record(),
            1,
            &ticket.record(&KEY),
            &mut unwritten(89),
        );
        assert_eq!(answer, 1);
    }
}
