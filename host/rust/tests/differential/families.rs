//! What tells the families apart: the number at opening, then the head's kind and never a length; and that nothing of one family passes
//! for the other's.
use super::calls::Calls;
use super::compare::Compare;
use super::inputs::{ad, address, cache, id, unread_ad, unwritten, KEY};
use super::random::Random;
use crate::oracle::cache::{Cache, Entry};
use crate::oracle::family::Family;
use crate::oracle::record::Ad;
use crate::oracle::USUAL_WINDOW;

const NOW: u64 = 5_000_000;

/// The lengths that fit both families, with the capacities of an IPv4 and of an IPv6 cache.
const OF_BOTH: [(usize, usize, usize); 6] = [
    (24_642, 163, 151),
    (49_255, 326, 302),
    (73_868, 489, 453),
    (98_481, 652, 604),
    (123_094, 815, 755),
    (147_707, 978, 906),
];

/// An advertisement of service 1.
fn ad_by(family: Family, peer: u64) -> Ad {
    Ad {
        service: id(1),
        peer: id(peer),
        address: address(family, 1),
        port: 443,
        stamp: 0,
        signature: vec![0xee; 64],
    }
}

/// A cache of this family with one live entry, of service 1 and peer 2.
fn held(family: Family, capacity: usize) -> Cache {
    let entries = vec![Entry::new(NOW - 1, ad_by(family, 2))];
    Cache::holding(family, capacity, NOW - 1, entries)
}

/// What every call with a cache answers: a first request of this family, a listing and a withdrawal, and the newest of it and of a good cache,
/// on either side.
fn used<C: Calls>(both: &Compare<C>, family: Family, bytes: &[u8]) -> [i64; 5] {
    let record = ad_by(family, 3).record();
    let (mut after, mut list) = (bytes.to_vec(), unwritten(family.list_len()));
    let (mut reply, window) = (unwritten(89), USUAL_WINDOW);
    let good = Cache::empty(family, 1).bytes();
    [
        both.register(&mut after, &KEY, window, NOW, &record, 1, &[], &mut reply),
        both.get_ads(bytes, NOW, &id(1), &mut list),
        both.withdraw(&mut bytes.to_vec(), &id(1), &id(2), NOW, 1),
        both.newest(bytes, &good, NOW, &id(1)).0,
        both.newest(&good, bytes, NOW, &id(1)).0,
    ]
}

/// Opening takes the families 4 and 6, and any other number is refused, even where the length fits.
pub fn numbers<C: Calls>(calls: &C) {
    let both = Compare(calls);
    let high = [8, 16, 32, 63].map(|bit| 1 << bit);
    let wide = high.iter().flat_map(|high| [high | 4, high | 6]);
    let others = (0..=300).filter(|number| ![4, 6].contains(number));
    let lengths = Family::BOTH.map(|family| family.cache_len(2));
    for number in others.chain(wide).chain([u64::MAX]) {
        for length in lengths.into_iter().chain([24_642, 0]) {
            assert_eq!(both.open(&mut unwritten(length), number), -1, "{number}");
        }
    }
    for family in Family::BOTH {
        let [own, other] = [family, family.other()].map(|family| family.cache_len(2));
        let mut opened = unwritten(own);
        assert_eq!(both.open(&mut opened, family.number()), 0);
        assert_eq!(opened, Cache::empty(family, 2).bytes());
        assert_eq!(both.open(&mut unwritten(other), family.number()), -1);
    }
}

/// A length that fits both families opens as either, with the capacity that the family has there. The calls go by the head's kind: with the
/// kinds 12 and 14 exchanged the cache is not well formed, since its capacity is not the other family's.
pub fn lengths_of_both<C: Calls>(calls: &C) {
    let both = Compare(calls);
    for (length, short, long) in OF_BOTH {
        for (family, capacity) in [(Family::V4, short), (Family::V6, long)] {
            let mut opened = unwritten(length);
            assert_eq!(both.open(&mut opened, family.number()), 0);
            assert_eq!(opened, Cache::empty(family, capacity).bytes());
            let bytes = held(family, capacity).bytes();
            assert_eq!(bytes.len(), length);
            let [asked, listed, withdrawn, first, second] = used(&both, family, &bytes);
            assert!(asked > 0);
            assert_eq!([listed, withdrawn, first, second], [1, 0, 1, 2]);
            let mut turned = bytes.clone();
            turned[0] = family.other().head_kind();
            for of in Family::BOTH {
                assert_eq!(used(&both, of, &turned), [-1; 5]);
            }
            // The other family's capacity too: an empty cache is then the other family's, and one with an entry is not well formed.
            let other = [long, short][(family == Family::V6) as usize];
            for bytes in [&mut opened, &mut turned] {
                bytes[0] = family.other().head_kind();
                bytes[1..3].copy_from_slice(&(other as u16).to_be_bytes());
            }
            assert_eq!(opened, Cache::empty(family.other(), other).bytes());
            let [asked, listed, withdrawn, first, second] = used(&both, family.other(), &opened);
            assert_eq!([asked, listed, withdrawn, first, second], [1, 0, -17, 0, 0]);
            assert_eq!(used(&both, family.other(), &turned), [-1; 5]);
        }
    }
}

/// A head of neither kind is refused 1 by every call, and so is no head at all, at every length that a family has.
pub fn heads_of_neither<C: Calls>(calls: &C) {
    let both = Compare(calls);
    for family in Family::BOTH {
        let other = family.other();
        for capacity in [1, 2, family.capacity_of(24_642).unwrap()] {
            let mut bytes = held(family, capacity).bytes();
            for kind in (0..=255).filter(|kind| *kind != family.head_kind()) {
                bytes[0] = kind;
                assert_eq!(used(&both, family, &bytes), [-1; 5], "kind {kind}");
            }
        }
        for length in [0, 1, 28, 29, family.cache_len(1), other.cache_len(1)] {
            for fill in [0, 0xc3] {
                assert_eq!(used(&both, family, &vec![fill; length]), [-1; 5]);
            }
        }
    }
}

/// An entry of the other family's kinds, live or withdrawn, makes a cache not well formed, at its first place and at its last.
pub fn entries_of_the_other<C: Calls>(calls: &C) {
    let both = Compare(calls);
    for family in Family::BOTH {
        let entries: Vec<Entry> = (2..6)
            .map(|peer| Entry::new(NOW - 1, ad_by(family, 10 + peer)))
            .collect();
        let bytes = Cache::holding(family, 4, NOW - 1, entries).bytes();
        assert!(used(&both, family, &bytes)[0] > 0);
        let other = family.other();
        for slot in 0..4 {
            let at = family.cache_len(slot);
            for kind in [other.entry_kind(), other.withdrawn_kind()] {
                let mut changed = bytes.clone();
                changed[at] = kind;
                assert_eq!(used(&both, family, &changed), [-1; 5], "kind {kind}");
            }
            for kind in [family.entry_kind(), family.withdrawn_kind()] {
                let mut changed = bytes.clone();
                changed[at] = kind;
                assert!(used(&both, family, &changed)[0] > 0, "kind {kind}");
            }
        }
    }
}

/// An advertisement of the other family is refused 4, whatever its kind and port, before anything else of it is asked; so is one that is read
/// by itself. One of this family's length with the other's kind is 13.
pub fn ads_of_the_other<C: Calls>(calls: &C) {
    let both = Compare(calls);
    let mut random = Random::new(30);
    for family in Family::BOTH {
        let other = family.other();
        let bytes = cache(&mut random, family, 3, 1, NOW).bytes();
        let asked = |record: &[u8], vouched: u8| {
            let (mut after, mut reply) = (bytes.clone(), unwritten(89));
            let window = USUAL_WINDOW;
            let ticket = &reply.clone();
            [&[][..], ticket].map(|ticket| {
                both.register(
                    &mut after, &KEY, window, NOW, record, vouched, ticket, &mut reply,
                )
            })
        };
        let foreign = ad(&mut random, other, 3, 50);
        for (kind, port) in (0..=255).flat_map(|kind| [(kind, 0), (kind, 443)]) {
            let portless = Ad {
                port,
                ..foreign.clone()
            };
            let mut record = portless.record();
            record[0] = kind;
            for vouched in [0, 1] {
                assert_eq!(asked(&record, vouched), [-4, -4], "kind {kind}");
            }
            assert_eq!(both.read_ad(family, &record, &mut unread_ad(family)), -4);
        }
        let mut record = ad(&mut random, family, 3, 50).record();
        record[0] = other.ad_kind();
        assert_eq!(asked(&record, 1), [-13, -13]);
        assert_eq!(both.read_ad(family, &record, &mut unread_ad(family)), -13);
    }
}

/// The other family's list buffer is refused 2, of an empty cache too, and where both capacities fit the length.
pub fn lists_of_the_other<C: Calls>(calls: &C) {
    let both = Compare(calls);
    for family in Family::BOTH {
        for capacity in [1, 12, family.capacity_of(24_642).unwrap()] {
            for cache in [Cache::empty(family, capacity), held(family, capacity)] {
                let listed = |length| {
                    let mut list = unwritten(length);
                    both.get_ads(&cache.bytes(), NOW, &id(1), &mut list)
                };
                assert_eq!(listed(family.list_len()), cache.entries.len() as i64);
                assert_eq!(listed(family.other().list_len()), -2);
            }
        }
    }
}
