//! The ordinary registrar against the oracle: runs of asks and returns on one cache, with expiry and every refusal that a run can bring.
#[path = "../../../host/rust/tests/oracle/mod.rs"]
mod oracle;

use oracle::cache::Cache;
use oracle::family::Family;
use oracle::record::Ad;
use oracle::registrar::{self, Registered, Request};
use ordinary::Registrar;
use plain::Refusal;

const KEY: [u8; 32] = [0x6b; 32];

/// A seeded source of numbers (splitmix64).
struct Random(u64);

impl Random {
    fn below(&mut self, end: u64) -> u64 {
        self.0 = self.0.wrapping_add(0x9e37_79b9_7f4a_7c15);
        let z = (self.0 ^ (self.0 >> 30)).wrapping_mul(0xbf58_476d_1ce4_e5b9);
        let z = (z ^ (z >> 27)).wrapping_mul(0x94d0_49bb_1331_11eb);
        (z ^ (z >> 31)) % end
    }
}

/// One of some services and peers, from addresses of which many share long prefixes.
fn advertiser(random: &mut Random, family: Family) -> Ad {
    let mut address = vec![10; family.address_len()];
    for byte in &mut address {
        *byte = [10, 10, 138, random.below(256) as u8][random.below(4) as usize];
    }
    Ad {
        service: vec![random.below(4) as u8; 32],
        peer: vec![random.below(40) as u8; 32],
        address,
        port: random.below(30).min(1) as u16,
        stamp: random.below(1 << 30),
        signature: vec![0x5a; 64],
    }
}

/// The ordinary registrar's answer, as the oracle has it.
fn answered<F: plain::Family>(
    registrar: &mut Registrar<F>,
    request: &Request,
) -> Result<Registered, i64> {
    let mut reply = vec![0; request.reply_len];
    let Request {
        window,
        clock,
        ad,
        vouched,
        ticket,
        ..
    } = *request;
    match registrar.register(window, clock, ad, vouched, ticket, &mut reply) {
        Err(Refusal(number)) => Err(i64::from(number)),
        Ok(plain::Registered::Confirmed { moves }) => Ok(Registered::Confirmed(moves)),
        Ok(plain::Registered::Wait { millis, moves }) => Ok(Registered::Wait(millis, reply, moves)),
    }
}

/// A run of calls; how many were refused by each number, confirmed (0) and told to wait (20).
fn run<F: plain::Family>(seed: u64, family: Family, seen: &mut [u64; 21]) {
    let mut random = Random(seed);
    let capacity = 1 + random.below(40) as usize;
    let mut cache = Cache::empty(family, capacity).bytes();
    let mut registrar = Registrar::<F>::new(capacity, &KEY);
    let mut held: Vec<(Vec<u8>, Vec<u8>, u64)> = Vec::new();
    let mut clock = random.below(1 << 20);
    for _ in 0..300 {
        clock += [0, 1, 3_000, 200_000][random.below(4) as usize];
        let (mut ad, mut ticket) = (advertiser(&mut random, family).record(), Vec::new());
        if !held.is_empty() && random.below(3) > 0 {
            let due;
            (ad, ticket, due) = held.swap_remove(random.below(held.len() as u64) as usize);
            clock = if random.below(4) > 0 {
                clock.max(due)
            } else {
                clock
            };
        }
        match random.below(60) {
            0 => ad.truncate(9),
            1 => ad[0] = 2,
            2 => ad[80] ^= 1,
            3 => ticket.push(0),
            4 if !ticket.is_empty() => ticket[60] ^= 1,
            _ => {}
        }
        let request = Request {
            key: &KEY,
            window: [10_000, 10_000, 1, 60_000, 60_001][random.below(5) as usize],
            clock: if random.below(40) == 0 { 0 } else { clock },
            ad: &ad,
            vouched: u8::from(random.below(40) > 0),
            ticket: &ticket,
            reply_len: 89,
        };
        let expected = registrar::register(&cache, &request);
        let answer = expected.map(|(answer, after)| {
            cache = after;
            answer
        });
        assert_eq!(answered(&mut registrar, &request), answer, "{seed}");
        assert_eq!(registrar.bytes(), cache, "{seed}");
        seen[match &answer {
            Err(number) => *number as usize,
            Ok(Registered::Confirmed(_)) => 0,
            Ok(Registered::Wait(..)) => 20,
        }] += 1;
        if let Ok(Registered::Wait(millis, ticket, _)) = answer {
            let due = request.clock + millis;
            held.push((ad, ticket, due));
        }
    }
    let again = Registrar::<F>::holding(&cache, &KEY).expect("no entry is withdrawn");
    assert_eq!(again.bytes(), cache);
}

#[test]
fn drawn_runs() {
    let mut seen = [0; 21];
    for seed in 0..150 {
        run::<plain::V4>(seed, Family::V4, &mut seen);
        run::<plain::V6>(seed, Family::V6, &mut seen);
    }
    for number in [0, 2, 3, 4, 5, 6, 7, 8, 10, 11, 13, 14, 20] {
        assert!(seen[number] > 20, "{number}: {seen:?}");
    }
}
