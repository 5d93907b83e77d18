//! The calls on a cache, at one family and one capacity.
use std::hint::black_box;
use std::time::Duration;

use measure::{compare, each, in_a_row, row, table, Measured};
use sides::scene::{
    cache, newcomers, pairs, patient, service, Family, Request, FAMILIES, KEY, NOW, REQUESTS,
};
use sides::{Side, Sides, SIDES};

use crate::{measured, print_row, CAPACITIES};

/// What every side leaves is the same; it is given back.
fn agreed<T: PartialEq>(sides: Sides, of: impl Fn(Side) -> T) -> T {
    let [first, others @ ..] = sides.map(of);
    assert!(
        others.iter().all(|other| *other == first),
        "the implementations differ"
    );
    first
}

/// Every side's register on this cache with these requests: each answers as it should, and all leave the same bytes.
fn check(sides: Sides, start: &[u8], requests: &[Request], confirmed: bool) {
    for Request { ad, ticket } in requests {
        let after = agreed(sides, |side| {
            let (mut cache, mut reply, mut moves) = (start.to_vec(), [0; 89], 0);
            let register = side.register;
            let answer = register(&mut cache, &KEY, NOW, ad, ticket, &mut reply, &mut moves);
            (answer, moves, cache, reply)
        });
        assert_eq!(after.0 == 0, confirmed, "not the answer to measure");
    }
}

/// One side's answers to requests that are told to wait, which leaves the cache as it was but for its clock.
pub fn asking<'a>(
    side: Side,
    start: &[u8],
    requests: &'a [Request],
) -> impl FnMut(u32) -> Duration + use<'a> {
    let (mut cache, mut reply, mut moves, mut turn) = (start.to_vec(), [0; 89], 0, 0);
    let register = black_box(side.register);
    in_a_row(move || {
        let Request { ad, ticket } = &requests[turn % REQUESTS];
        turn += 1;
        let (cache, reply, moves) = (&mut cache, &mut reply, &mut moves);
        black_box(register(cache, &KEY, NOW, ad, ticket, reply, moves));
    })
}

/// The cache is put back before each.
pub fn put_back<'a>(
    side: Side,
    start: &'a [u8],
    requests: &'a [Request],
) -> impl FnMut(u32) -> Duration + use<'a> {
    let (mut reply, mut moves, mut turn) = ([0; 89], 0, 0);
    let register = black_box(side.register);
    each(
        start.to_vec(),
        |cache| cache.copy_from_slice(start),
        move |cache| {
            let Request { ad, ticket } = &requests[turn % REQUESTS];
            turn += 1;
            let (reply, moves) = (&mut reply, &mut moves);
            black_box(register(cache, &KEY, NOW, ad, ticket, reply, moves));
        },
    )
}

/// Requests that are told to wait.
fn waiting(sides: Sides, start: &[u8], requests: &[Request]) -> Measured<3> {
    check(sides, start, requests, false);
    measured(sides.map(|side| asking(side, start, requests)))
}

/// Returns that are confirmed.
fn confirmed(sides: Sides, start: &[u8], requests: &[Request]) -> Measured<3> {
    check(sides, start, requests, true);
    measured(sides.map(|side| put_back(side, start, requests)))
}

/// Withdrawals of entries; the cache is put back before each.
fn withdrawn(sides: Sides, start: &[u8], pairs: &[[u8; 64]]) -> Measured<3> {
    for pair in pairs {
        let (service, peer) = pair.split_at(32);
        let (answer, _) = agreed(sides, |side| {
            let mut cache = start.to_vec();
            ((side.withdraw)(&mut cache, service, peer, NOW), cache)
        });
        assert_eq!(answer, 0, "not the answer to measure");
    }
    measured(sides.map(|side| {
        let mut turn = 0;
        let withdraw = black_box(side.withdraw);
        each(
            start.to_vec(),
            |cache| cache.copy_from_slice(start),
            move |cache| {
                let (service, peer) = pairs[turn % REQUESTS].split_at(32);
                turn += 1;
                black_box(withdraw(cache, service, peer, NOW));
            },
        )
    }))
}

/// The services that are looked for in turns.
fn services() -> Vec<[u8; 32]> {
    (0..REQUESTS as u64).map(service).collect()
}

/// Listings of services that entries have, of each of the caches.
fn listing(sides: Sides, family: Family, caches: &[&[u8]]) -> Measured<3> {
    let len = family.list_len();
    for service in services() {
        agreed(sides, |side| {
            let list_of = |cache: &&[u8]| {
                let mut list = vec![0; len];
                ((side.get_ads)(cache, NOW, &service, &mut list), list)
            };
            caches.iter().map(list_of).collect::<Vec<_>>()
        });
    }
    measured(sides.map(|side| {
        let (mut list, mut turn, services) = (vec![0; len], 0, services());
        let get_ads = black_box(side.get_ads);
        in_a_row(move || {
            turn += 1;
            for cache in caches {
                let service = &services[turn % REQUESTS];
                black_box(get_ads(black_box(cache), NOW, service, &mut list));
            }
        })
    }))
}

/// The newest advertisement in two caches, of services that entries have.
fn newest(sides: Sides, first: &[u8], second: &[u8]) -> Measured<3> {
    for service in services() {
        agreed(sides, |side| {
            let mut offset = 0;
            let which = (side.newest)(first, second, NOW, &service, &mut offset);
            (which, offset)
        });
    }
    measured(sides.map(|side| {
        let (mut offset, mut turn, services) = (0, 0, services());
        let newest = black_box(side.newest);
        in_a_row(move || {
            turn += 1;
            let (service, offset) = (&services[turn % REQUESTS], &mut offset);
            let (first, second) = (black_box(first), black_box(second));
            black_box(newest(first, second, NOW, service, offset));
        })
    }))
}

/// Every call that has a cache.
pub fn rows(sides: Sides, family: Family, capacity: usize) {
    let most = capacity * 9 / 10;
    for live in [most, capacity - 1] {
        let print = |call: &str, measured| {
            print_row(call, Some(family), Some((capacity, live)), measured);
        };
        let mixed = cache(family, capacity, live, 0, false);
        let asks = [false, true].map(|with_ticket| newcomers(family, with_ticket));
        print("register, first ask", waiting(sides, &mixed, &asks[0]));
        print("register, return waits", waiting(sides, &mixed, &asks[1]));
        print("get_ads", listing(sides, family, &[&mixed]));
        let neighbour = cache(family, capacity, live, 0, true);
        print("newest of two caches", newest(sides, &mixed, &neighbour));
        print(
            "get_ads, twice",
            listing(sides, family, &[&mixed, &neighbour]),
        );
        let held = pairs(family, &mixed, live, 0);
        print("withdraw", withdrawn(sides, &mixed, &held));
        // With C − 1 live entries the wait is 2^40 and nobody is confirmed.
        if live == most {
            after_waiting(sides, family, capacity, live, print);
        }
    }
}

/// The calls that need a wait below 2^40, or entries that have expired.
fn after_waiting(
    sides: Sides,
    family: Family,
    capacity: usize,
    live: usize,
    print: impl Fn(&str, Measured<3>),
) {
    let patient = patient(family);
    let apart = cache(family, capacity, live, 0, true);
    print("register, confirmed", confirmed(sides, &apart, &patient));
    let expired = capacity - 1 - live;
    let aged = cache(family, capacity, capacity - 1, expired, true);
    print(
        "register, confirmed after expiry",
        confirmed(sides, &aged, &patient),
    );
    let left = pairs(family, &aged, capacity - 1, expired);
    print("withdraw after expiry", withdrawn(sides, &aged, &left));
}

/// A search of two caches of different families.
pub fn mixed_pair(capacity: usize) {
    let live = capacity * 9 / 10;
    let [v4, v6] = FAMILIES.map(|family| cache(family, capacity, live, 0, false));
    let measured = newest(SIDES, &v4, &v6);
    print_row(
        "newest, IPv4 and IPv6",
        None,
        Some((capacity, live)),
        measured,
    );
}

/// What an IPv6 ask takes beside an IPv4 one, at the largest capacity; the two take turns, as two implementations do elsewhere.
pub fn print_families() {
    let [.., capacity] = CAPACITIES;
    let name = format!("first ask at C = {capacity}");
    table(&[&name, "live"], &["IPv6 ns", "IPv4 ns", "ratio"]);
    for live in [capacity * 9 / 10, capacity - 1] {
        let scenes = [Family::V6, Family::V4].map(|family| {
            let start = cache(family, capacity, live, 0, false);
            (start, newcomers(family, false))
        });
        for side in SIDES {
            let scenes = scenes.each_ref();
            let samplers = scenes.map(|(start, requests)| asking(side, start, requests));
            row(
                &[side.name, &live.to_string()],
                &compare(samplers).numbers(),
            );
        }
    }
}
