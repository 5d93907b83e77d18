//! Withdrawing, and that it changes nothing for anybody else: which entry is taken, who is refused, what is listed and counted.
use super::calls::Calls;
use super::compare::Compare;
use super::inputs::{
    ad, address, cache, clock, counter, id, ticket_for, unwritten, CAPACITIES, KEY,
};
use super::random::Random;
use crate::oracle::cache::{Cache, Entry};
use crate::oracle::family::Family;
use crate::oracle::record::Ad;
use crate::oracle::{CLOCK_MAX, LIFETIME, USUAL_WINDOW};

const NOW: u64 = 7_000_000;

/// An advertisement of this service and peer; its stamp tells it from others of the pair.
fn ad_of(family: Family, service: u64, peer: u64, stamp: u64) -> Ad {
    Ad {
        service: id(service),
        peer: id(peer),
        address: address(family, stamp as u8),
        port: 30303,
        stamp,
        signature: vec![0xee; 64],
    }
}

/// A first request; its answer, what moved, the reply and the cache that it leaves.
fn asked<C: Calls>(
    both: &Compare<C>,
    cache: &[u8],
    now: u64,
    ad: &Ad,
    ticket: &[u8],
) -> (i64, u64, Vec<u8>, Vec<u8>) {
    let (mut after, mut reply) = (cache.to_vec(), unwritten(89));
    let window = USUAL_WINDOW;
    let record = ad.record();
    let (answer, moves) = both.register_moving(
        &mut after, &KEY, window, now, &record, 1, ticket, &mut reply,
    );
    (answer, moves, reply, after)
}

/// The bytes with no entry of a withdrawn kind: what is left when kinds make no difference.
fn unquiet(bytes: &[u8]) -> Vec<u8> {
    let mut cache = Cache::read(bytes).unwrap();
    for entry in &mut cache.entries {
        entry.withdrawn = false;
    }
    cache.bytes()
}

/// Every cache of up to four entries, each expired or live, withdrawn or not, of the pair or of another peer, service or both: the first
/// live one of the pair that is not withdrawn is taken, nothing else of it or of the others changes, and the expired ones leave.
pub fn every_small_cache<C: Calls>(calls: &C, family: Family) {
    let both = Compare(calls);
    let pairs = [(1, 2), (1, 3), (4, 2), (4, 3)];
    for count in 0..=4u32 {
        for pattern in 0..8usize.pow(count) {
            let sort = |slot: u32| pattern / 8usize.pow(slot) % 8;
            for expired in 0..=count {
                let entry = |slot: u32| {
                    let (service, peer) = pairs[sort(slot) / 2];
                    let accepted = if slot < expired {
                        NOW - LIFETIME
                    } else {
                        NOW - LIFETIME + 1
                    };
                    Entry {
                        accepted,
                        withdrawn: sort(slot) % 2 == 1,
                        ad: ad_of(family, service, peer, slot.into()),
                    }
                };
                let entries = (0..count).map(entry).collect();
                let mut expected = Cache::holding(family, 4, NOW - 1, entries);
                let before = expected.bytes();
                let taken = (expired..count).find(|slot| sort(*slot) == 0);
                if let Some(slot) = taken {
                    expected.entries[slot as usize].withdrawn = true;
                    expected.entries.drain(..expired as usize);
                    expected.expired += u64::from(expired);
                    expected.clock = NOW;
                }
                let mut after = before.clone();
                let answer = both.withdraw(&mut after, &id(1), &id(2), NOW, 1);
                assert_eq!(answer, if taken.is_some() { 0 } else { -17 });
                assert_eq!(after, expected.bytes());
            }
        }
    }
}

/// Well-formed caches of every shape, and the same with a bit changed, for the pairs of their entries and for others.
pub fn any_cache<C: Calls>(calls: &C, family: Family) {
    let both = Compare(calls);
    let mut random = Random::new(23);
    let mut answered = [0; 3];
    for capacity in CAPACITIES {
        let turns = if capacity > 300 { 150 } else { 600 };
        for _ in 0..turns {
            let last = clock(&mut random);
            let any = random.index(capacity + 1);
            let count = random.pick(&[0, 1, capacity - 1, capacity, any]);
            let held = cache(&mut random, family, capacity, count, last);
            let mut pair = ad(&mut random, family, 3, 4_000);
            if let (true, 1..) = (random.chance(80), count) {
                pair = held.entries[random.index(count)].ad.clone();
            }
            let now = last + random.pick(&[0, 0, 1, 10_000, LIFETIME]);
            let vouched = random.pick(&[1, 1, 1, 1, 0, 2, 255]);
            let mut bytes = held.bytes();
            let answer = both.withdraw(&mut bytes, &pair.service, &pair.peer, now, vouched);
            match answer {
                0 => answered[0] += 1,
                -17 => answered[1] += 1,
                _ => answered[2] += 1,
            }
            assert!(Cache::read(&bytes).is_some());
            let bit = random.index(bytes.len() * 8);
            bytes[bit / 8] ^= 1 << (bit % 8);
            both.withdraw(&mut bytes, &pair.service, &pair.peer, now, 1);
        }
    }
    assert!(answered.iter().all(|seen| *seen > 100), "{answered:?}");
}

/// Several live entries of a pair are withdrawn one after the other, oldest first; then the call is refused.
pub fn until_none_is_left<C: Calls>(calls: &C, family: Family) {
    let both = Compare(calls);
    let mut random = Random::new(24);
    for count in 1..=40u64 {
        let entries: Vec<Entry> = (0..count)
            .map(|slot| {
                let peer = 2 + u64::from(!random.chance(60));
                Entry::new(NOW - count + slot, ad_of(family, 1, peer, slot))
            })
            .collect();
        let mut expected = Cache::holding(family, 40, NOW, entries);
        let mut bytes = expected.bytes();
        for slot in 0..count as usize {
            if expected.entries[slot].ad.peer == id(2) {
                expected.entries[slot].withdrawn = true;
                assert_eq!(both.withdraw(&mut bytes, &id(1), &id(2), NOW, 1), 0);
                assert_eq!(bytes, expected.bytes());
            }
        }
        for clock in [NOW, NOW + 1, NOW + LIFETIME] {
            assert_eq!(both.withdraw(&mut bytes, &id(1), &id(2), clock, 1), -17);
            assert_eq!(bytes, expected.bytes());
        }
    }
}

/// Leaving and returning gains nothing: whoever was admitted and withdraws is refused by 6 until the entry expires, and then asks afresh.
pub fn still_refused<C: Calls>(calls: &C, family: Family) {
    let both = Compare(calls);
    let mut random = Random::new(25);
    for _ in 0..200 {
        let capacity = random.pick(&[1, 2, 64, 256]);
        let newcomer = ad(&mut random, family, 3, 50);
        let (service, peer) = (&newcomer.service, &newcomer.peer);
        let start = random.below(1 << 30);
        let opened = Cache::empty(family, capacity).bytes();
        let (wait, _, ticket, mut bytes) = asked(&both, &opened, start, &newcomer, &[]);
        let accepted = start + wait as u64;
        let (answer, _, _, confirmed) = asked(&both, &bytes, accepted, &newcomer, &ticket);
        assert_eq!(answer, 0);
        bytes = confirmed;
        let left = accepted + random.below(LIFETIME);
        assert_eq!(both.withdraw(&mut bytes, service, peer, left, 1), 0);
        assert_eq!(both.withdraw(&mut bytes, service, peer, left, 1), -17);
        let listed = both.get_ads(&bytes, left, service, &mut unwritten(family.list_len()));
        assert_eq!(listed, 0);
        let other = Ad {
            stamp: newcomer.stamp ^ 1,
            ..newcomer.clone()
        };
        for back in [left, left + 1, accepted + LIFETIME - 1] {
            if back < accepted + LIFETIME {
                let stayed = ticket_for(&mut random, &newcomer, back, back).record(&KEY);
                for (ad, ticket) in [(&newcomer, &[][..]), (&newcomer, &stayed), (&other, &[])] {
                    let (answer, _, _, after) = asked(&both, &bytes, back, ad, ticket);
                    assert_eq!((answer, &after), (-6, &bytes));
                }
            }
        }
        let gone = accepted + LIFETIME;
        let (answer, _, _, after) = asked(&both, &bytes, gone, &newcomer, &[]);
        let after = Cache::read(&after).unwrap();
        assert_eq!((answer, after.entries.len()), (1, 0));
        assert_eq!((after.confirmed, after.expired), (1, 1));
    }
}

/// Two caches that differ in nothing but the kinds of their entries, withdrawn or not: every REGISTER has the same answer, moves and reply, and leaves caches that differ
/// in nothing else.
pub fn kinds_make_no_difference<C: Calls>(calls: &C, family: Family) {
    let both = Compare(calls);
    let mut random = Random::new(26);
    let mut answered = [0; 3];
    for turn in 0..3_000 {
        let capacity = random.pick(&[1, 2, 3, 16, 64]);
        let now = NOW + turn;
        let count = random.index(capacity + 1);
        let held = cache(&mut random, family, capacity, count, now);
        let mut other = held.clone();
        for entry in &mut other.entries {
            entry.withdrawn = random.chance(50);
        }
        let mut newcomer = ad(&mut random, family, 3, 50);
        if let (true, Some(entry)) = (random.chance(20), held.entries.last()) {
            newcomer = entry.ad.clone();
            newcomer.port = 1;
        }
        let wait = held.load(now, &newcomer).wait();
        let stayed = random.pick(&[0, wait - 1, wait, wait + 1, CLOCK_MAX]);
        let ticket = ticket_for(&mut random, &newcomer, now, stayed).record(&KEY);
        let brought = if random.chance(70) { &ticket[..] } else { &[] };
        let [one, another] = [held, other].map(|held| {
            let (answer, moves, reply, after) =
                asked(&both, &held.bytes(), now, &newcomer, brought);
            (answer, moves, reply, unquiet(&after))
        });
        answered[(one.0.signum() + 1) as usize] += 1;
        assert_eq!(one, another);
    }
    assert!(answered.iter().all(|seen| *seen > 50), "{answered:?}");
}

/// Across a withdrawal that is done, c, s, points and wait stay for every newcomer from its clock on, and so does what it is answered.
pub fn waits_stay<C: Calls>(calls: &C, family: Family) {
    let both = Compare(calls);
    let mut random = Random::new(27);
    let mut done = 0;
    for turn in 0..2_000 {
        let capacity = random.pick(&[2, 3, 16, 64]);
        let now = NOW + turn;
        let count = 1 + random.index(capacity);
        let held = cache(&mut random, family, capacity, count, now);
        let pair = held.entries[random.index(count)].ad.clone();
        let before = held.bytes();
        let mut after = before.clone();
        if both.withdraw(&mut after, &pair.service, &pair.peer, now, 1) != 0 {
            continue;
        }
        done += 1;
        let left = Cache::read(&after).unwrap();
        for later in [0, 1, 1_000, LIFETIME - 1, LIFETIME].map(|more| now + more) {
            let newcomer = ad(&mut random, family, 3, 50);
            assert_eq!(held.load(later, &newcomer), left.load(later, &newcomer));
            let [one, another] = [&before, &after].map(|cache| {
                let (answer, _, reply, after) = asked(&both, cache, later, &newcomer, &[]);
                let after = (answer > 0).then(|| unquiet(&after));
                (answer, reply, after)
            });
            assert_eq!(one, another);
        }
    }
    assert!(done > 500, "{done} withdrawals");
}

/// A listing goes past withdrawn entries and gives ten of the others: more than ten of the service, withdrawn ones between and before them.
pub fn listed_past_ten<C: Calls>(calls: &C, family: Family) {
    let both = Compare(calls);
    let mut random = Random::new(28);
    let mut counts = [0; 11];
    for turn in 0..2_000 {
        let quiet = random.pick(&[0, 10, 50, 90, 100]);
        let count = random.below(41);
        let entries: Vec<Entry> = (0..count)
            .map(|slot| Entry {
                accepted: NOW - LIFETIME + 1 + slot,
                withdrawn: random.chance(quiet),
                ad: ad_of(family, random.below(2), slot, slot),
            })
            .collect();
        let mut held = Cache::holding(family, 40, NOW, entries);
        (held.confirmed, held.expired) = (count.wrapping_add(turn), turn);
        let listed: Vec<_> = (held.entries.iter())
            .filter(|entry| entry.ad.service == id(1) && !entry.withdrawn)
            .map(|entry| entry.ad.record())
            .take(10)
            .collect();
        let mut list = random.bytes(family.list_len());
        let rest = list.split_off(listed.concat().len());
        let expected = [listed.concat(), rest.clone()].concat();
        list.extend(rest);
        let answer = both.get_ads(&held.bytes(), NOW, &id(1), &mut list);
        assert_eq!((answer as usize, &list), (listed.len(), &expected));
        counts[listed.len()] += 1;
    }
    assert!(counts.iter().all(|seen| *seen > 0), "{counts:?}");
}

/// Both counters are kept modulo 2^64, by WITHDRAW and by either answer of REGISTER.
pub fn counters_wrap<C: Calls>(calls: &C, family: Family) {
    let both = Compare(calls);
    let mut random = Random::new(29);
    for turn in 0..400 {
        let gone = random.below(5);
        let entries: Vec<Entry> = (0..gone + 1)
            .map(|slot| {
                let accepted = if slot < gone { slot } else { NOW };
                Entry::new(accepted, ad_of(family, 1, 2 + slot, slot))
            })
            .collect();
        let mut held = Cache::holding(family, 64, NOW, entries);
        held.expired = match turn % 2 {
            0 => 0u64.wrapping_sub(random.below(7)),
            _ => counter(&mut random),
        };
        held.confirmed = held.expired.wrapping_add(gone + 1);
        let counters = |bytes: &[u8]| {
            let cache = Cache::read(bytes).unwrap();
            (cache.confirmed, cache.expired)
        };
        let expired = held.expired.wrapping_add(gone);
        let before = held.bytes();
        let mut after = before.clone();
        assert_eq!(both.withdraw(&mut after, &id(1), &id(2 + gone), NOW, 1), 0);
        assert_eq!(counters(&after), (held.confirmed, expired));
        let newcomer = ad_of(family, 9, 9, 200);
        let (answer, moves, _, after) = asked(&both, &before, NOW, &newcomer, &[]);
        assert!(answer > 0);
        assert_eq!(moves, u64::from(gone > 0));
        assert_eq!(counters(&after), (held.confirmed, expired));
        let ticket = ticket_for(&mut random, &newcomer, NOW, NOW).record(&KEY);
        let (answer, _, _, after) = asked(&both, &before, NOW, &newcomer, &ticket);
        assert_eq!(answer, 0);
        let confirmed = held.confirmed.wrapping_add(1);
        assert_eq!(counters(&after), (confirmed, expired));
    }
}
