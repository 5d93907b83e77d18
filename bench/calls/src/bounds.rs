//! REGISTER with lower bounds, of 1,000 places: none, half and all of them in force; its own two refusals; and what it takes beside REGISTER.
use std::hint::black_box;
use std::time::Duration;

use measure::{compare, each, in_a_row, row, table, Measured};
use sides::scene::{cache, id, newcomers, patient, Family, Request, FAMILIES, KEY, NOW, REQUESTS};
use sides::{Side, Sides, PROVED, SIDES, SMALL_SIDES};

use crate::{cache, measured, print_row};

const PLACES: usize = 1_000;
const CAPACITIES: [usize; 2] = [64, 1_000];

/// What is measured in a row: the cache, the bounds and the requests that take turns, and what each is answered.
struct Scene {
    cache: Vec<u8>,
    bounds: Vec<u8>,
    requests: Vec<Request>,
    answer: fn(i64) -> bool,
}

/// The pair of a request, as it stands in a bound.
fn pair(family: Family, request: &Request) -> Vec<u8> {
    [
        &request.ad[1..33],
        &request.ad[65..65 + family.address_len()],
    ]
    .concat()
}

/// So many bounds in force; where they are `own` those of the requests are among them, spread over the places.
fn bounds(family: Family, in_force: usize, requests: &[Request], own: bool) -> Vec<u8> {
    let size = 41 + family.address_len();
    let mut bytes = Vec::new();
    for place in 0..in_force {
        let turn = place * REQUESTS / in_force;
        let begins = (turn * in_force).div_ceil(REQUESTS) == place;
        bytes.push(17);
        if own && begins {
            bytes.extend(pair(family, &requests[turn]));
        } else {
            let number = id(1_000_000 + place as u64);
            bytes.extend(id(place as u64 % 50));
            bytes.extend(&number[..family.address_len()]);
        }
        bytes.extend((NOW + 1 + place as u64).to_be_bytes());
    }
    bytes.resize(PLACES * size, 0);
    bytes
}

fn check(sides: Sides, scene: &Scene) {
    for Request { ad, ticket } in &scene.requests {
        let after = sides.map(|side| {
            let (mut cache, mut bounds) = (scene.cache.clone(), scene.bounds.clone());
            let (mut reply, mut moves) = ([0; 89], 0);
            let (lent, told) = (&mut reply, &mut moves);
            let call = side.register_bounded;
            let answer = call(&mut cache, &mut bounds, &KEY, NOW, ad, ticket, lent, told);
            (answer, moves, cache, bounds, reply)
        });
        assert!(
            after.iter().all(|each| *each == after[0]),
            "the implementations differ"
        );
        assert!((scene.answer)(after[0].0), "not the answer to measure");
    }
}

/// One side's answers in a row: the bounds of the requests are there and are rewritten in place, or the call is refused.
fn in_turn(side: Side, scene: &Scene) -> impl FnMut(u32) -> Duration + use<'_> {
    let (mut cache, mut bounds) = (scene.cache.clone(), scene.bounds.clone());
    let (mut reply, mut moves, mut turn) = ([0; 89], 0, 0);
    let call = black_box(side.register_bounded);
    in_a_row(move || {
        let Request { ad, ticket } = &scene.requests[turn % REQUESTS];
        turn += 1;
        let (cache, bounds, reply) = (&mut cache, &mut bounds, &mut reply);
        black_box(call(
            cache, bounds, &KEY, NOW, ad, ticket, reply, &mut moves,
        ));
    })
}

/// The cache and the bounds are put back before each.
fn put_back(side: Side, scene: &Scene) -> impl FnMut(u32) -> Duration + use<'_> {
    let (mut reply, mut moves, mut turn) = ([0; 89], 0, 0);
    let call = black_box(side.register_bounded);
    each(
        (scene.cache.clone(), scene.bounds.clone()),
        |(cache, bounds)| {
            cache.copy_from_slice(&scene.cache);
            bounds.copy_from_slice(&scene.bounds);
        },
        move |(cache, bounds)| {
            let Request { ad, ticket } = &scene.requests[turn % REQUESTS];
            turn += 1;
            let (reply, moves) = (&mut reply, &mut moves);
            black_box(call(cache, bounds, &KEY, NOW, ad, ticket, reply, moves));
        },
    )
}

/// All sides; those that leave other bounds or another cache than they found are put back.
fn measured_on(sides: Sides, scene: &Scene, changes: bool) -> Measured<3> {
    check(sides, scene);
    if changes {
        measured(sides.map(|side| put_back(side, scene)))
    } else {
        measured(sides.map(|side| in_turn(side, scene)))
    }
}

fn waits(answer: i64) -> bool {
    answer > 0
}

fn confirmed(answer: i64) -> bool {
    answer == 0
}

/// How many bounds are in force, and a word for it.
const IN_FORCE: [(usize, &str); 3] = [(0, "none"), (500, "500"), (1_000, "1000")];
const CALLS: [&str; 3] = ["first ask", "return waits", "confirmed"];

fn scene(family: Family, capacity: usize, in_force: usize, which: usize) -> Scene {
    let live = capacity * 9 / 10;
    let requests = match which {
        0 => newcomers(family, false),
        1 => newcomers(family, true),
        _ => patient(family),
    };
    Scene {
        cache: cache(family, capacity, live, 0, which == 2),
        bounds: bounds(family, in_force, &requests, true),
        requests,
        answer: if which == 2 { confirmed } else { waits },
    }
}

/// The rows of a family at a capacity, with none, half and all of the bounds in force.
fn rows_at(sides: Sides, family: Family, capacity: usize) {
    for (in_force, word) in IN_FORCE {
        for (which, call) in CALLS.into_iter().enumerate() {
            let scene = scene(family, capacity, in_force, which);
            let name = format!("bounded by {word}, {call}");
            let measured = measured_on(sides, &scene, in_force == 0 || which == 2);
            let live = capacity * 9 / 10;
            print_row(&name, Some(family), Some((capacity, live)), measured);
        }
    }
}

/// By the calls of small registrars.
pub fn small_rows(family: Family, capacity: usize) {
    rows_at(SMALL_SIDES, family, capacity);
}

/// Every row of a family.
pub fn rows(family: Family) {
    let print = |call: &str, capacity, scene: &Scene, changes| {
        let live = capacity * 9 / 10;
        let measured = measured_on(SIDES, scene, changes);
        print_row(call, Some(family), Some((capacity, live)), measured);
    };
    for capacity in CAPACITIES {
        rows_at(SIDES, family, capacity);
    }
    let (capacity, live) = (1_000, 900);
    let requests = newcomers(family, false);
    let mut refused = Scene {
        cache: cache(family, capacity, live, 0, false),
        bounds: bounds(family, PLACES, &requests, false),
        requests,
        answer: |answer| answer == -19,
    };
    print("bounded, refused by 19", capacity, &refused, false);
    // The last pair is the first one's too.
    let size = refused.bounds.len() / PLACES;
    refused.bounds.copy_within(..size, (PLACES - 1) * size);
    refused.answer = |answer| answer == -18;
    print("bounded, refused by 18", capacity, &refused, false);
}

type Sampler<'a> = Box<dyn FnMut(u32) -> Duration + 'a>;

/// What the proved call takes beside the proved REGISTER on the same cache, at the largest capacity; the two take turns.
pub fn print_beside_register() {
    let [.., capacity] = CAPACITIES;
    let name = format!("first ask at C = {capacity}");
    table(
        &[&name, "bounds"],
        &["bounded ns", "REGISTER ns", "ratio to REGISTER"],
    );
    for family in FAMILIES {
        for (in_force, _) in IN_FORCE {
            let scene = scene(family, capacity, in_force, 0);
            let (start, requests) = (&scene.cache, &scene.requests);
            let samplers: [Sampler; 2] = if in_force == 0 {
                let beside = cache::put_back(PROVED, start, requests);
                [Box::new(put_back(PROVED, &scene)), Box::new(beside)]
            } else {
                let beside = cache::asking(PROVED, start, requests);
                [Box::new(in_turn(PROVED, &scene)), Box::new(beside)]
            };
            row(
                &[family.name(), &in_force.to_string()],
                &compare(samplers).numbers(),
            );
        }
    }
}

/// What bounds take whose pairs were chosen, beside those of random pairs: a service and addresses that follow each other, and pairs that share a slot of
/// the proved call's hash under another seed.
pub fn print_chosen() {
    table(
        &["1000 bounds, first ask", "family", "by"],
        &["chosen ns", "random ns", "ratio to random"],
    );
    for family in FAMILIES {
        let random = scene(family, 64, PLACES, 0);
        let steps = [1u32, 256, 65_536].map(|step| (step.to_string(), following(step)));
        let others = [("another seed's slot".to_string(), colliding(family))];
        for (by, numbers) in steps.into_iter().chain(others) {
            let chosen = Scene {
                cache: random.cache.clone(),
                bounds: chosen(family, &random.bounds, &numbers),
                requests: newcomers(family, false),
                answer: waits,
            };
            check(SIDES, &chosen);
            for side in SIDES {
                let samplers = [&chosen, &random].map(|scene| put_back(side, scene));
                row(
                    &[side.name, family.name(), &by],
                    &compare(samplers).numbers(),
                );
            }
        }
    }
}

fn following(step: u32) -> Vec<u32> {
    (0..PLACES as u32 - 1).map(|i| i * step).collect()
}

/// Addresses of which the pairs all come to stand in the first slot under the seed 0.
fn colliding(family: Family) -> Vec<u32> {
    let mut pair = vec![SERVICE; 32 + family.address_len()];
    let found = (0..u32::MAX).filter(move |number| {
        put_address(&mut pair[32..], *number);
        slot(0, &pair) == 0
    });
    found.take(PLACES - 1).collect()
}

/// The slot of a pair, as crates/bounds/src/once.rt has it.
fn slot(seed: u64, pair: &[u8]) -> u64 {
    let next = |x: &u64| Some((x & 0xffff_ffff) * 4_294_957_665 + (x >> 32));
    let first = next(&seed.wrapping_add(0x9e37_79b9_7f4a_7c15));
    let keys: Vec<u64> = std::iter::successors(first, next).take(6).collect();
    let fold = |x: u64| (x & 0xffff_ffff) * (x >> 32);
    let product = |key: usize, at: usize| {
        let word = pair[at..at + 8].try_into().expect("eight bytes");
        fold(u64::from_le_bytes(word).wrapping_add(keys[key]))
    };
    let end = pair.len();
    let mut sum = product(5, end - 8);
    for word in 0..4 {
        sum = sum.wrapping_add(product(word, word * 8));
    }
    if end >= 48 {
        sum = sum.wrapping_add(product(4, end - 16));
    }
    fold(sum) / 67_108_864 % 4_096
}

const SERVICE: u8 = 0x5e;

fn put_address(address: &mut [u8], number: u32) {
    let at = address.len() - 4;
    address[..at].fill(0);
    address[at..].copy_from_slice(&number.to_be_bytes());
}

/// Bounds of one service from these addresses, but for the last, whose place is free.
fn chosen(family: Family, bounds: &[u8], addresses: &[u32]) -> Vec<u8> {
    let (mut bounds, size) = (bounds.to_vec(), bounds.len() / PLACES);
    for (bound, number) in bounds.chunks_exact_mut(size).zip(addresses) {
        bound[1..33].fill(SERVICE);
        put_address(&mut bound[33..33 + family.address_len()], *number);
    }
    bounds[(PLACES - 1) * size..].fill(0);
    bounds
}
