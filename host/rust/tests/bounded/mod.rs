//! REGISTER with lower bounds, an implementation against the oracle, byte for byte: the stored requests, many places, and drawn runs.
use crate::oracle::bounds::{bound_len, Bound, Bounds};
use crate::oracle::family::Family;
use crate::oracle::registrar::Request;
use crate::stored::bounds::{advertiser, asking, held, left, lines, NOW};
use crate::stored::{Call, UNTOUCHED};

/// An implementation: the cache, the bounds, the request, the reply and the moves, with the answer as C has it.
pub type Bounded = fn(&mut [u8], &mut [u8], &Request, &mut [u8], &mut u64) -> i64;

/// What a call leaves: the answer, the moves, the reply, the cache and the bounds.
type Leaves = (i64, u64, Vec<u8>, Vec<u8>, Vec<u8>);

fn leaves(call: Bounded, cache: &[u8], bounds: &[u8], request: &Request) -> Leaves {
    let (mut cache, mut bounds) = (cache.to_vec(), bounds.to_vec());
    let (mut reply, mut moves) = (vec![UNTOUCHED; request.reply_len], UNTOUCHED.into());
    let answer = call(&mut cache, &mut bounds, request, &mut reply, &mut moves);
    (answer, moves, reply, cache, bounds)
}

/// The call leaves what the oracle leaves.
fn same(call: Bounded, cache: &[u8], bounds: &[u8], request: &Request) -> Leaves {
    let left = left(cache, bounds, request);
    let untouched = vec![UNTOUCHED; request.reply_len];
    let expected = (
        left.answer,
        left.moves,
        left.reply.unwrap_or(untouched),
        left.cache,
        left.bounds,
    );
    assert_eq!(leaves(call, cache, bounds, request), expected);
    expected
}

/// Every request that is stored for `conformance`.
pub fn stored_requests(call: Bounded) {
    let mut kept = Vec::new();
    let mut calls = 0;
    for line in lines() {
        let given = &line.given;
        if !matches!(given.call, Call::RegisterBounded) {
            continue;
        }
        kept.resize(given.cache.0, 0);
        kept[..given.begins.len()].copy_from_slice(&given.begins);
        let mut bounds = given.parts[3].clone();
        bounds.resize(given.numbers[2] as usize, 0);
        let request = Request {
            key: &given.parts[0],
            window: given.numbers[0],
            clock: given.numbers[1],
            ad: &given.parts[1],
            vouched: given.vouched,
            ticket: &given.parts[2],
            reply_len: given.output.1,
        };
        same(call, &kept[..given.cache.1], &bounds, &request);
        calls += 1;
    }
    assert!(calls > 250);
}

struct Random(u64);

impl Random {
    fn below(&mut self, end: u64) -> u64 {
        self.0 = self
            .0
            .wrapping_mul(6364136223846793005)
            .wrapping_add(1442695040888963407);
        (self.0 >> 33) % end
    }
}

/// Pairs in arithmetic progression in so many places, with one more of the same at a place, or with none.
pub fn many_places(call: Bounded) {
    for family in Family::BOTH {
        let ad = advertiser(family, b'S', b'A', 200).record();
        for places in [2, 3, 64, 999, 1000] {
            let pair = |i: usize| {
                let mut bound = Bound::of(&advertiser(family, (i >> 8) as u8, 0, 10), NOW + 5);
                bound.address[2] = i as u8;
                bound.until += (i % 3) as u64 * 900;
                bound
            };
            let pairs: Vec<Bound> = (0..places).map(pair).collect();
            let whole = Bounds::holding(family, places, pairs.clone()).bytes();
            let request = asking(NOW, &ad, &[]);
            assert_eq!(same(call, &held(family), &whole, &request).0, -19);
            let later = asking(NOW + 5, &ad, &[]);
            assert!(same(call, &held(family), &whole, &later).0 > 0);
            for (one, other) in [(0, 1), (0, places - 1), (places / 2, places - 1)] {
                if one == other {
                    continue;
                }
                let mut twice = pairs.clone();
                twice[other] = twice[one].clone();
                let bytes = Bounds::holding(family, places, twice).bytes();
                assert_eq!(same(call, &held(family), &bytes, &request).0, -18);
            }
            assert_eq!(whole.len(), places * bound_len(family));
        }
    }
}

/// Runs in which some ask often, from bounds that are mostly full.
pub fn drawn_runs(call: Bounded) {
    let mut answers = [0; 4];
    for seed in 0..200 {
        let mut random = Random(seed);
        let family = Family::BOTH[(seed % 2) as usize];
        let mut cache = held(family);
        let mut bounds = vec![0; (1 + random.below(5) as usize) * bound_len(family)];
        let mut clock = NOW;
        let mut tickets: Vec<(Vec<u8>, Vec<u8>, u64)> = Vec::new();
        for _ in 0..60 {
            clock += [0, 1, 5_000, 40_000][random.below(4) as usize];
            let (service, peer) = (b'S' + random.below(3) as u8, random.below(4) as u8);
            let asked = advertiser(family, service, peer, 200 + random.below(3) as u8).record();
            let (ad, ticket) = match tickets.pop() {
                Some((ad, ticket, due)) if random.below(2) == 0 => {
                    clock = clock.max(due);
                    (ad, ticket)
                }
                _ => (asked, Vec::new()),
            };
            let request = asking(clock, &ad, &ticket);
            let (answer, _, reply, cache_after, bounds_after) =
                same(call, &cache, &bounds, &request);
            (cache, bounds) = (cache_after, bounds_after);
            if answer > 0 {
                tickets.push((ad, reply, clock + answer as u64));
            }
            answers[match answer {
                0 => 0,
                -19 => 1,
                refused if refused < 0 => 2,
                _ => 3,
            }] += 1;
        }
    }
    assert!(answers.iter().all(|count| *count > 100), "{answers:?}");
}
