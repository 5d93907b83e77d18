//! The safe functions against the oracle.
mod oracle;

use std::net::{IpAddr, Ipv4Addr, Ipv6Addr};

use oracle::registrar::{self, Request};
use unglassot::{Ad, Family, Refusal, Registered, Ticket, USUAL_WINDOW, WINDOW_MAX, WINDOW_MIN};

const KEY: [u8; 32] = [9; 32];

/// These tests are of both families.
macro_rules! of_both_families {
    ($($test:ident)*) => {
        mod v4 {
            $(#[test]
            fn $test() {
                super::$test(unglassot::Family::V4)
            })*
        }
        mod v6 {
            $(#[test]
            fn $test() {
                super::$test(unglassot::Family::V6)
            })*
        }
    };
}

of_both_families! {
    asks_waits_returns_and_is_listed moves withdrawals windows tickets_of_other_ads ads_read_back lower_bounds
    small_registrars
}

/// The address that begins with this byte and ends with 1.
fn address(family: Family, first: u8) -> IpAddr {
    match family {
        Family::V4 => Ipv4Addr::new(first, 0, 0, 1).into(),
        Family::V6 => Ipv6Addr::new(u16::from(first) << 8, 0, 0, 0, 0, 0, 0, 1).into(),
    }
}

fn ad(peer: u8, address: IpAddr) -> Ad {
    Ad {
        service: [3; 32],
        peer: [peer; 32],
        address,
        port: 443,
        stamp: 0x0102_0304_0506_0708,
        signature: [peer ^ 0xff; 64],
    }
}

fn opened(family: Family, capacity: usize) -> Vec<u8> {
    let mut cache = vec![1; unglassot::cache_len(family, capacity)];
    assert_eq!(unglassot::open(&mut cache, family), Ok(()));
    assert_eq!(unglassot::family(&cache), Some(family));
    cache
}

/// Registers with both and holds the answers and the caches to each other.
fn register(
    cache: &mut [u8],
    window: u64,
    clock: u64,
    ad: &[u8],
    vouched: bool,
    ticket: &[u8],
) -> Result<Registered, Refusal> {
    let request = Request {
        key: &KEY,
        window,
        clock,
        ad,
        vouched: u8::from(vouched),
        ticket,
        reply_len: 89,
    };
    let expected = registrar::register(cache, &request);
    let before = cache.to_vec();
    let answer = unglassot::register(cache, &KEY, window, clock, ad, vouched, ticket);
    match (&expected, answer) {
        (Err(number), Err(refusal)) => {
            assert_eq!(refusal.number(), *number);
            assert_eq!(cache, before);
        }
        (
            Ok((registrar::Registered::Confirmed(moved), after)),
            Ok(Registered::Confirmed { moves }),
        ) => {
            assert_eq!((moves, &*cache), (*moved, &after[..]))
        }
        (
            Ok((registrar::Registered::Wait(wait, bytes, moved), after)),
            Ok(Registered::Wait {
                millis,
                ticket,
                moves,
            }),
        ) => {
            assert_eq!(
                (millis, &ticket[..], moves, &*cache),
                (*wait, &bytes[..], *moved, &after[..])
            );
        }
        _ => panic!("{answer:?}, not {expected:?}"),
    }
    answer
}

fn asks_waits_returns_and_is_listed(family: Family) {
    let mut cache = opened(family, 3);
    let mut clock = 0;
    for peer in 1..=3 {
        let ad = ad(peer, address(family, peer * 60)).write().unwrap();
        let mut ticket = Vec::new();
        loop {
            match register(&mut cache, USUAL_WINDOW, clock, &ad, true, &ticket).unwrap() {
                Registered::Confirmed { .. } => break,
                Registered::Wait {
                    millis,
                    ticket: next,
                    ..
                } => {
                    clock += millis;
                    ticket = next.to_vec();
                }
            }
        }
        assert_eq!(
            register(&mut cache, USUAL_WINDOW, clock, &ad, true, &[]),
            Err(Refusal::Held)
        );
        assert_eq!(
            register(&mut cache, USUAL_WINDOW, clock, &ad, false, &[]),
            Err(Refusal::Signature)
        );
        let listed = unglassot::get_ads(&cache, clock, &[3; 32]).unwrap();
        assert_eq!(
            (listed.family(), listed.len()),
            (family, listed.ads().len())
        );
        assert_eq!(listed.ads().last(), Some(ad.bytes()));
        let list_len = 10 * family.ad_len();
        let expected = registrar::get_ads(&cache, clock, &[3; 32], list_len).unwrap();
        assert!(listed.ads().eq(expected));
    }
    assert!(unglassot::get_ads(&cache, clock, &[4; 32])
        .unwrap()
        .is_empty());
    let before = unglassot::get_ads(&cache, 0, &[3; 32]);
    assert_eq!(before, Err(Refusal::Clock));
    let neither = unglassot::get_ads(&[&[0], &cache[1..]].concat(), clock, &[3; 32]);
    assert_eq!(neither, Err(Refusal::Cache));
}

/// CONFIRMED and WAIT tell how many entries moved up: those that stay, if at least one expired.
fn moves(family: Family) {
    let mut cache = opened(family, 1000);
    let mut accepted = Vec::new();
    let mut clock = 0;
    for peer in 1..=3 {
        let ad = ad(peer, address(family, peer * 60)).write().unwrap();
        let mut ticket = Vec::new();
        while let Registered::Wait {
            millis,
            ticket: next,
            moves,
        } = register(&mut cache, USUAL_WINDOW, clock, &ad, true, &ticket).unwrap()
        {
            assert_eq!(moves, 0);
            clock += millis;
            ticket = next.to_vec();
        }
        accepted.push(clock);
    }
    let newcomer = ad(4, address(family, 240)).write().unwrap();
    let moves_at = |clock| match register(
        &mut cache.clone(),
        USUAL_WINDOW,
        clock,
        &newcomer,
        true,
        &[],
    ) {
        Ok(Registered::Wait { moves, .. }) => moves,
        answer => panic!("a first request waits: {answer:?}"),
    };
    let gone = |n: usize| accepted[n - 1] + unglassot::LIFETIME;
    assert!(accepted[2] < gone(1));
    assert_eq!(moves_at(gone(1) - 1), 0);
    assert_eq!(moves_at(gone(1)), 2);
    assert_eq!(moves_at(gone(2)), 1);
    assert_eq!(moves_at(gone(3)), 0);
}

/// The newest advertisement of two caches is a part of the cache that holds it, and no copy; its body is as long as the family of that cache
/// has it.
#[test]
fn newest_of_two() {
    for (one, other) in Family::ALL
        .into_iter()
        .flat_map(|one| Family::ALL.map(|other| (one, other)))
    {
        let mut caches = [opened(one, 3), opened(other, 1)];
        let (older, newer) = (ad(1, address(one, 10)), ad(2, address(other, 20)));
        for ((cache, ad), clock) in caches.iter_mut().zip([&older, &newer]).zip([0, 5]) {
            let record = ad.write().unwrap();
            let ticket = match register(cache, USUAL_WINDOW, clock, &record, true, &[]) {
                Ok(Registered::Wait { ticket, .. }) => ticket,
                answer => panic!("a first request waits: {answer:?}"),
            };
            let answer = register(cache, USUAL_WINDOW, clock + 1, &record, true, &ticket);
            assert!(matches!(answer, Ok(Registered::Confirmed { .. })));
        }
        let [first, second] = &caches;
        let service = older.service;
        let newest = |first, second, clock| unglassot::newest(first, second, clock, &service);
        let body = |ad: &Ad| ad.write().unwrap()[1..].to_vec();
        let within = |part: &[u8], cache: &[u8]| cache.as_ptr_range().contains(&part.as_ptr());
        let found = newest(first, second, 6).unwrap().unwrap();
        assert_eq!((found, found.len()), (&body(&newer)[..], other.body_len()));
        assert!(within(found, second));
        let found = newest(first, first, 6).unwrap().unwrap();
        assert_eq!((found, found.len()), (&body(&older)[..], one.body_len()));
        assert!(within(found, first));
        assert_eq!(unglassot::newest(first, second, 6, &[9; 32]), Ok(None));
        assert_eq!(newest(first, second, 5), Err(Refusal::Clock));
        assert_eq!(newest(first, &[], 0), Err(Refusal::Clock));
        assert_eq!(newest(&[], second, 0), Err(Refusal::Cache));
    }
}

/// One who asks afresh when the entry beside it has expired is told the rest of its time; without a place there is no ticket, and bounds of another length are
/// refused.
fn lower_bounds(family: Family) {
    let mut cache = opened(family, 3);
    let mut bounds = vec![0; unglassot::bounds_len(family, 1)];
    let [one, neighbour, other] =
        [(1, 10), (2, 10), (3, 200)].map(|(peer, first)| ad(peer, address(family, first)));
    let [one, neighbour, other] = [one, neighbour, other].map(|ad| ad.write().unwrap());
    let window = USUAL_WINDOW;
    let mut ask = |bounds: &mut [u8], clock, ad: &[u8], ticket: &[u8]| {
        unglassot::register_bounded(&mut cache, bounds, &KEY, window, clock, ad, true, ticket)
    };
    let Ok(Registered::Wait { millis, ticket, .. }) = ask(&mut bounds, 1_000, &one, &[]) else {
        panic!("a first request waits");
    };
    assert_eq!(millis, 1);
    let confirmed = ask(&mut bounds, 1_001, &one, &ticket);
    assert_eq!(confirmed, Ok(Registered::Confirmed { moves: 0 }));
    let told = ask(&mut bounds, 901_000, &neighbour, &[]);
    assert!(matches!(told, Ok(Registered::Wait { millis, .. }) if millis == unglassot::LIFETIME));
    let afresh = ask(&mut bounds, 901_001, &neighbour, &[]);
    assert!(
        matches!(afresh, Ok(Registered::Wait { millis, .. }) if millis == unglassot::LIFETIME - 1)
    );
    let until = bounds.clone();
    assert_eq!(
        ask(&mut bounds, 901_002, &other, &[]),
        Err(Refusal::NoPlace)
    );
    assert_eq!(bounds, until);
    assert_eq!(
        ask(&mut bounds[1..], 901_002, &neighbour, &[]),
        Err(Refusal::Bounds)
    );
}

/// The profile of small registrars: stamps are judged and the cache has at most 64 places; what the full calls admit is not listed when its stamp is older.
fn small_registrars(family: Family) {
    use unglassot::small::{self, CAPACITY_MAX, STAMP_AGE_MAX, WINDOW};
    let clock = 2 * STAMP_AGE_MAX;
    let of = |peer, stamp| {
        let fields = ad(peer, address(family, 60 * peer));
        Ad { stamp, ..fields }.write().unwrap()
    };
    let mut cache = vec![1; unglassot::cache_len(family, CAPACITY_MAX)];
    assert_eq!(small::open(&mut cache, family), Ok(()));
    assert_eq!(cache, opened(family, CAPACITY_MAX));
    let ask = |cache: &mut [u8], clock, ad: &[u8], ticket: &[u8]| {
        small::register(cache, &KEY, clock, ad, true, ticket)
    };
    for stamp in [0, clock - STAMP_AGE_MAX - 1, clock + 1, u64::MAX] {
        let answer = ask(&mut cache, clock, &of(1, stamp), &[]);
        assert_eq!(answer, Err(Refusal::Stamp), "{stamp}");
    }
    let one = of(1, clock - STAMP_AGE_MAX + 1);
    let Ok(Registered::Wait { ticket, .. }) = ask(&mut cache, clock, &one, &[]) else {
        panic!("a first request waits");
    };
    let late = ask(&mut cache.clone(), clock + 1 + WINDOW + 1, &one, &ticket);
    assert_eq!(late, Err(Refusal::Stamp));
    let confirmed = ask(&mut cache, clock + 1, &one, &ticket);
    assert_eq!(confirmed, Ok(Registered::Confirmed { moves: 0 }));
    let listed = |cache: &[u8], clock| small::get_ads(cache, clock, &[3; 32]).unwrap().len();
    assert_eq!([1, 2].map(|later| listed(&cache, clock + later)), [1, 0]);
    let newest = |clock| small::newest(&cache, &cache, clock, &[3; 32]).unwrap();
    assert_eq!(newest(clock + 1), Some(&one[1..]));
    assert_eq!(newest(clock + 2), None);
    let mut bounds = vec![0; unglassot::bounds_len(family, 1)];
    let bounded = small::register_bounded(
        &mut cache,
        &mut bounds,
        &KEY,
        clock + 2,
        &of(2, clock),
        true,
        &[],
    );
    assert!(matches!(bounded, Ok(Registered::Wait { .. })));
    assert_ne!(bounds[0], 0);
    assert_eq!(
        small::withdraw(&mut cache, &[3; 32], &[1; 32], clock + 2, true),
        Ok(())
    );
    let mut large = opened(family, CAPACITY_MAX + 1);
    let answer = ask(&mut large, clock, &one, &[]);
    assert_eq!(answer, Err(Refusal::Cache));
    assert_eq!(small::open(&mut large, family), Err(Refusal::Cache));
    let either = [(&large, &cache), (&cache, &large)];
    for (first, second) in either {
        let found = small::newest(first, second, clock + 2, &[3; 32]);
        assert_eq!(found, Err(Refusal::Cache));
    }
}

/// Who withdraws is off the list at once and refused until its entry expires; the counters tell confirmations and what expired.
fn withdrawals(family: Family) {
    let mut cache = opened(family, 3);
    let ad = ad(1, address(family, 10));
    let record = ad.write().unwrap();
    let withdraw = |cache: &mut [u8], peer, clock, vouched| {
        let expected =
            registrar::withdraw(cache, &ad.service, &[peer; 32], clock, u8::from(vouched));
        let before = cache.to_vec();
        let answer = unglassot::withdraw(cache, &ad.service, &[peer; 32], clock, vouched);
        assert_eq!(answer.map_err(Refusal::number), expected.clone().map(drop));
        assert_eq!(cache, expected.unwrap_or(before));
        answer
    };
    let counted = |cache: &[u8]| {
        let counters = unglassot::counters(cache).unwrap();
        (counters.confirmed, counters.expired)
    };
    assert_eq!(counted(&cache), (0, 0));
    assert_eq!(withdraw(&mut cache, 1, 5, true), Err(Refusal::NotHeld));
    let first = register(&mut cache, USUAL_WINDOW, 5, &record, true, &[]);
    let Ok(Registered::Wait { millis, ticket, .. }) = first else {
        panic!("a first request waits");
    };
    let clock = 5 + millis;
    register(&mut cache, USUAL_WINDOW, clock, &record, true, &ticket).unwrap();
    assert_eq!(counted(&cache), (1, 0));
    assert_eq!(withdraw(&mut cache, 1, 0, false), Err(Refusal::Clock));
    assert_eq!(
        withdraw(&mut cache, 1, clock, false),
        Err(Refusal::Signature)
    );
    assert_eq!(withdraw(&mut cache, 2, clock, true), Err(Refusal::NotHeld));
    assert_eq!(withdraw(&mut cache, 1, clock, true), Ok(()));
    assert_eq!(withdraw(&mut cache, 1, clock, true), Err(Refusal::NotHeld));
    assert!(unglassot::get_ads(&cache, clock, &ad.service)
        .unwrap()
        .is_empty());
    let gone = clock + unglassot::LIFETIME;
    let back = register(&mut cache, USUAL_WINDOW, gone - 1, &record, true, &[]);
    assert_eq!(back, Err(Refusal::Held));
    assert_eq!(counted(&cache), (1, 0));
    let back = register(&mut cache, USUAL_WINDOW, gone, &record, true, &[]);
    assert!(matches!(back, Ok(Registered::Wait { millis: 1, .. })));
    assert_eq!(counted(&cache), (1, 1));
    assert_eq!(unglassot::counters(&cache[..28]), None);
    let mut old = vec![0; unglassot::cache_len(family, 3) - 16];
    old[..13].copy_from_slice(&[4, 0, 3, 0, 0, 0, 0, 0, 0, 0, 0, 0, 0]);
    assert_eq!(withdraw(&mut old, 1, gone, true), Err(Refusal::Cache));
    assert_eq!(unglassot::open(&mut old, family), Err(Refusal::Cache));
}

/// A ticket is taken from when it is due to the end of the window that the call names, which is from 1 to 60,000.
fn windows(family: Family) {
    let mut cache = opened(family, 3);
    let ad = ad(1, address(family, 10)).write().unwrap();
    let first = register(&mut cache, USUAL_WINDOW, 5, &ad, true, &[]);
    let Ok(Registered::Wait { millis, ticket, .. }) = first else {
        panic!("a first request waits");
    };
    for window in [WINDOW_MIN, USUAL_WINDOW, WINDOW_MAX] {
        let late = 5 + millis + window;
        let at = |clock| register(&mut cache.clone(), window, clock, &ad, true, &ticket);
        assert_eq!(at(5), Err(Refusal::Window));
        assert_eq!(at(late), Ok(Registered::Confirmed { moves: 0 }));
        assert_eq!(at(late + 1), Err(Refusal::Window));
    }
    for window in [WINDOW_MIN - 1, WINDOW_MAX + 1, u64::MAX] {
        let answer = register(&mut cache, window, 5, &ad, true, &[]);
        assert_eq!(answer, Err(Refusal::Length));
    }
}

/// A ticket is for the very advertisement that it was written for: with any field changed it is refused, and so are tickets of
/// other lengths and of the old kind.
fn tickets_of_other_ads(family: Family) {
    let mut cache = opened(family, 3);
    let ad = ad(1, address(family, 10));
    let record = ad.write().unwrap();
    let first = register(&mut cache, USUAL_WINDOW, 5, &record, true, &[]);
    let Ok(Registered::Wait { millis, ticket, .. }) = first else {
        panic!("a first request waits");
    };
    let read = Ticket::read(&KEY, &ticket).unwrap();
    assert_eq!(read.ad_hash, unglassot::sha256(&record));
    let clock = 5 + millis;
    let (service, peer, address) = ([4; 32], [2; 32], address(family, 11));
    let (port, stamp, mut signature) = (ad.port + 1, ad.stamp + 1, ad.signature);
    signature[63] ^= 1;
    let others = [
        Ad { service, ..ad },
        Ad { peer, ..ad },
        Ad { address, ..ad },
        Ad { port, ..ad },
        Ad { stamp, ..ad },
        Ad { signature, ..ad },
    ];
    for other in others {
        let record = other.write().unwrap();
        let answer = register(&mut cache, USUAL_WINDOW, clock, &record, true, &ticket);
        assert_eq!(answer, Err(Refusal::Other), "{other:?}");
    }
    for length in [1, 88, 90, 120, 121, 122] {
        let mut cut = ticket.to_vec();
        cut.resize(length, 0);
        let answer = register(&mut cache, USUAL_WINDOW, clock, &record, true, &cut);
        assert_eq!(answer, Err(Refusal::Ticket), "{length} bytes");
    }
    let times = [5u64, 5, millis].map(u64::to_be_bytes);
    let mut old = [&[2], &record[1..65], times.as_flattened()].concat();
    old.extend(unglassot::hmac(&KEY, &old));
    assert_eq!(old.len(), 121);
    let answer = register(&mut cache, USUAL_WINDOW, clock, &record, true, &old);
    assert_eq!(answer, Err(Refusal::Ticket));
    assert_eq!(Ticket::read(&KEY, &old), Err(Refusal::Ticket));
    let answer = register(&mut cache, USUAL_WINDOW, clock, &record, true, &ticket);
    assert_eq!(answer, Ok(Registered::Confirmed { moves: 0 }));
}

fn ads_read_back(family: Family) {
    let ad = ad(5, address(family, 192));
    let record = ad.write().unwrap();
    assert_eq!((record.family(), record.len()), (family, family.ad_len()));
    let ports = family.ad_len() - 74;
    assert_eq!(record[65], 192);
    assert_eq!(record[ports - 1..ports + 2], [1, 1, 187]);
    let read = |bytes: &[u8]| Ad::read(family, bytes);
    assert_eq!(read(&record), Ok(ad));
    assert_eq!(Ad { port: 0, ..ad }.write(), Err(Refusal::AdPort));
    assert_eq!(read(&record[1..]), Err(Refusal::AdLength));
    let mut changed = record.to_vec();
    changed[ports..ports + 2].fill(0);
    assert_eq!(read(&changed), Err(Refusal::AdPort));
    changed[0] = 2;
    assert_eq!(read(&changed), Err(Refusal::AdKind));
    assert_eq!(read(&changed[1..]), Err(Refusal::AdLength));
}

/// An advertisement is of its address's family, and of no other, even where it tells an IPv4 address in the form of an IPv6 one.
#[test]
fn ads_of_the_other_family() {
    for (family, other) in [(Family::V4, Family::V6), (Family::V6, Family::V4)] {
        let record = ad(1, address(other, 10)).write().unwrap();
        assert_eq!(Ad::read(family, &record), Err(Refusal::AdLength));
        let mut cache = opened(family, 3);
        let answer = register(&mut cache, USUAL_WINDOW, 5, &record, true, &[]);
        assert_eq!(answer, Err(Refusal::AdLength));
    }
    let mapped = Ipv4Addr::new(10, 0, 0, 1).to_ipv6_mapped();
    let mapped = ad(1, mapped.into());
    let record = mapped.write().unwrap();
    assert_eq!(record.family(), Family::V6);
    assert_eq!(Ad::read(Family::V6, &record), Ok(mapped));
}

/// The family is the head's, though the length fits both; a cache of neither has none.
#[test]
fn family_of_a_cache() {
    for (family, capacity) in [(Family::V4, 163), (Family::V6, 151)] {
        assert_eq!(unglassot::cache_len(family, capacity), 24_642);
        let mut cache = opened(family, capacity);
        for kind in (0..=255).filter(|kind| ![12, 14].contains(kind)) {
            cache[0] = kind;
            assert_eq!(unglassot::family(&cache), None);
        }
    }
    assert_eq!(unglassot::family(&[]), None);
    assert_eq!(Family::ALL.map(Family::number), [4, 6]);
    assert_eq!(Family::ALL.map(Family::body_len), [142, 154]);
    let wrong = unglassot::open(&mut [0; 180], Family::V6);
    assert_eq!(wrong, Err(Refusal::Cache));
    let wrong = unglassot::open(&mut [0; 192], Family::V4);
    assert_eq!(wrong, Err(Refusal::Cache));
}

#[test]
fn tickets_read_back() {
    let ad = ad(5, address(Family::V4, 192));
    let ticket = Ticket {
        ad_hash: unglassot::sha256(&ad.write().unwrap()),
        first: 3,
        issued: 4,
        wait: 5,
    };
    let bytes = ticket.write(&KEY).unwrap();
    assert_eq!(Ticket::read(&KEY, &bytes), Ok(ticket));
    assert_eq!(Ticket::read(&[0; 32], &bytes), Err(Refusal::Tag));
    assert_eq!(Ticket::read(&KEY, &[]), Err(Refusal::Ticket));
    assert_eq!(
        Ticket { wait: 0, ..ticket }.write(&KEY),
        Err(Refusal::Times)
    );
}

#[test]
fn messages() {
    let (epoch, mut ad) = (1_767_225_600, ad(1, address(Family::V4, 10)));
    ad.stamp = 86_400_000;
    let record = ad.write().unwrap();
    let message = unglassot::write_message(&record, epoch).unwrap();
    let expected = oracle::message::write(&record, epoch, unglassot::MESSAGE_MAX).unwrap();
    assert_eq!(message.bytes(), expected);
    let read = unglassot::read_message(&expected, epoch).unwrap();
    assert_eq!(read, record.bytes());
    let cut = &expected[..expected.len() - 1];
    assert_eq!(unglassot::read_message(cut, epoch), Err(Refusal::Message));
    let late = unglassot::EPOCH_MAX + 1;
    assert_eq!(
        unglassot::read_message(&expected, late),
        Err(Refusal::NoMessage)
    );
    assert_eq!(
        unglassot::write_message(&record, late),
        Err(Refusal::NoMessage)
    );
    ad.stamp += 1;
    let odd = ad.write().unwrap();
    assert_eq!(
        unglassot::write_message(&odd, epoch),
        Err(Refusal::NoMessage)
    );
    (ad.stamp, ad.address) = (86_400_000, address(Family::V6, 10));
    let long = ad.write().unwrap();
    assert_eq!(
        unglassot::write_message(&long, epoch),
        Err(Refusal::NoMessage)
    );
}

#[test]
fn hashes_and_identifiers() {
    assert_eq!(
        unglassot::sha256(b"abc")[..],
        oracle::sha256::sha256(b"abc")
    );
    let tag = unglassot::hmac(b"key", b"message");
    assert_eq!(tag[..], oracle::sha256::hmac(b"key", b"message"));
    let id = unglassot::service_id(b"/waku/store/1.0.0").unwrap();
    assert_eq!(id, unglassot::sha256(b"/waku/store/1.0.0"));
    assert_eq!(unglassot::service_id(b""), Err(Refusal::Protocol));
    assert_eq!(unglassot::service_id(&[b'x'; 256]), Err(Refusal::Protocol));
}

#[test]
fn refusals_have_their_numbers() {
    for (refusal, number) in Refusal::ALL.into_iter().zip(1..) {
        assert_eq!(refusal.number(), number);
        assert_eq!(Refusal::from_number(number), Some(refusal));
        assert!(refusal
            .to_string()
            .starts_with(&format!("refusal {number}: ")));
    }
    assert_eq!(Refusal::from_number(0), None);
    assert_eq!(Refusal::from_number(21), None);
    assert_eq!(
        unglassot::open(&mut [0; 179], Family::V4),
        Err(Refusal::Cache)
    );
}
