//! The newest advertisement in two caches of capacity 2 (document 02, order 9), in every two families: `unglassot_newest` with where the body begins, then
//! what the library's own two calls answer, the refusal's number and the body.
use super::{hex, run, Buffer, Call, Given, Line, Shown, UNTOUCHED};
use crate::oracle::cache::{Cache, Entry};
use crate::oracle::family::Family::{self, V4, V6};
use crate::oracle::record::Ad;
use crate::oracle::registrar;
use crate::oracle::{CLOCK_MAX, LIFETIME};

const SERVICE: u8 = 0x40;
const CLOCK: u64 = 2_000;

/// An entry of the service by a peer of this byte.
fn held(family: Family, peer: u8, accepted: u64) -> Entry {
    let ad = Ad {
        service: run(SERVICE, 32),
        peer: vec![peer; 32],
        address: run(0xc0, family.address_len()),
        port: 443,
        stamp: 0,
        signature: run(0xf0, 64),
    };
    Entry::new(accepted, ad)
}

fn holding(family: Family, entries: Vec<Entry>) -> Vec<u8> {
    Cache::holding(family, 2, CLOCK, entries).bytes()
}

/// A cache with an entry for each time, the peers counted from this byte.
fn at(family: Family, peer: u8, times: &[u64]) -> Vec<u8> {
    let peers = (peer..).zip(times);
    let entries = peers.map(|(peer, time)| held(family, peer, *time));
    holding(family, entries.collect())
}

/// What is asked: two caches, a clock and a service.
#[derive(Clone)]
struct Asked {
    first: Vec<u8>,
    second: Vec<u8>,
    clock: u64,
    service: Vec<u8>,
}

impl Asked {
    fn of(first: Vec<u8>, second: Vec<u8>) -> Asked {
        let (clock, service) = (CLOCK, run(SERVICE, 32));
        Asked {
            first,
            second,
            clock,
            service,
        }
    }

    fn line(self, name: &str) -> Line {
        let caches = [&self.first, &self.second];
        let found = registrar::newest(&self.first, &self.second, self.clock, &self.service);
        let untold = usize::from(UNTOUCHED);
        let said = match found {
            Err(refusal) => format!(" -{refusal} {untold} {refusal}"),
            Ok(None) => format!(" 0 {untold} 0"),
            Ok(Some((which, at))) => {
                let cache = caches[which as usize - 1];
                let size = Family::of_head(cache[0]).unwrap().body_len();
                format!(" {which} {at} 0 {}", hex(&cache[at..at + size]))
            }
        };
        let size = self.first.len();
        Line {
            label: format!("newest {name}:"),
            said,
            given: Given {
                call: Call::Newest,
                begins: self.first,
                cache: Buffer(size, size, Shown::Not),
                numbers: vec![self.clock],
                parts: vec![self.second, self.service],
                ..Given::default()
            },
        }
    }
}

/// Where the newest stands: in neither, the first, the second; at other and at equal times, alike in both; in the later place of one.
fn places(one: Family, two: Family, said: &str) -> Vec<Line> {
    let pairs: [(&str, &[u64], &[u64]); 9] = [
        ("none", &[], &[]),
        ("in the first alone", &[1_000], &[]),
        ("in the second alone", &[], &[1_000]),
        ("later in the first", &[1_001], &[1_000]),
        ("later in the second", &[1_000], &[1_001]),
        ("at equal times", &[1_000], &[1_000]),
        ("later in one place", &[1_000, 1_001], &[1_000]),
        ("equal in one cache", &[1_000], &[1_001, 1_001]),
        ("equal in both", &[999, 1_000], &[1_000, 1_000]),
    ];
    let line = |(name, first, second): (&str, &[u64], &[u64])| {
        Asked::of(at(one, 0x80, first), at(two, 0x90, second)).line(&format!("{said} {name}"))
    };
    pairs.map(line).into_iter().collect()
}

/// Entries that are no candidates beside an older one of the other cache: withdrawn, expired, of another service.
fn passed_over(one: Family, two: Family, said: &str) -> Vec<Line> {
    let older = at(two, 0x90, &[500]);
    let mut withdrawn = held(one, 0x80, 1_000);
    withdrawn.withdrawn = true;
    let mut other = held(one, 0x80, 1_000);
    other.ad.service[31] ^= 1;
    let asked = |entry: &Entry| Asked::of(holding(one, vec![entry.clone()]), older.clone());
    let mut lines = vec![
        asked(&withdrawn).line(&format!("{said} withdrawn")),
        asked(&other).line(&format!("{said} of another service")),
    ];
    for (name, clock) in [
        ("the second expired", 500 + LIFETIME),
        ("the first live", 999 + LIFETIME),
        ("both expired", 1_000 + LIFETIME),
    ] {
        let mut asked = asked(&held(one, 0x80, 1_000));
        asked.clock = clock;
        lines.push(asked.line(&format!("{said} {name}")));
    }
    lines
}

/// A refusal of the first cache, of the service's length, of the clock, of the second cache: "all of the first room, then of the second".
type Fault = (&'static str, fn(&mut Asked));

const FAULTS: [Fault; 5] = [
    ("1", |asked| asked.first[0] = 4),
    ("2", |asked| asked.service.truncate(31)),
    ("3", |asked| asked.first[11..13].copy_from_slice(&[7, 209])),
    ("second's 1", |asked| asked.second[0] = 4),
    ("second's 3", |asked| {
        asked.second[11..13].copy_from_slice(&[7, 209])
    }),
];

/// Each refusal alone, and each with every one that stands behind it.
fn refused(one: Family, two: Family, said: &str) -> Vec<Line> {
    let good = Asked::of(at(one, 0x80, &[1_000]), at(two, 0x90, &[1_000]));
    let mut lines = Vec::new();
    for (i, (name, fault)) in FAULTS.iter().enumerate() {
        let mut alone = good.clone();
        fault(&mut alone);
        for (next, another) in &FAULTS[i + 1..] {
            let mut both = alone.clone();
            another(&mut both);
            lines.push(both.line(&format!("{said} {name} and {next}")));
        }
        lines.push(alone.line(&format!("{said} {name}")));
    }
    for (name, clock) in [("clock", CLOCK - 1), ("past clock", CLOCK_MAX + 1)] {
        let mut asked = good.clone();
        asked.clock = clock;
        lines.push(asked.line(&format!("{said} {name}")));
    }
    lines
}

/// Heads and entries of the other family, at the length of its own.
fn strangers(family: Family, said: &str) -> Vec<Line> {
    let other = family.other();
    let kinds = [
        ("head", 0, other.head_kind()),
        ("entry", 29, other.entry_kind()),
        ("withdrawn entry", 29, other.withdrawn_kind()),
    ];
    let good = at(family, 0x80, &[1_000]);
    let line = |(name, place, kind): (&str, usize, u8)| {
        let mut bad = good.clone();
        bad[place] = kind;
        [
            Asked::of(bad.clone(), good.clone()).line(&format!("{said} the other's {name}")),
            Asked::of(good.clone(), bad).line(&format!("{said} the other's {name} second")),
        ]
    };
    kinds.into_iter().flat_map(line).collect()
}

/// Both caches alike, and the last place of the clock that both take.
fn alike(family: Family, said: &str) -> Vec<Line> {
    let cache = at(family, 0x80, &[1_000, 1_000]);
    let mut last = Asked::of(cache.clone(), cache.clone());
    last.clock = CLOCK_MAX;
    vec![
        Asked::of(cache.clone(), cache).line(&format!("{said} alike")),
        last.line(&format!("{said} at the last clock")),
    ]
}

pub fn lines() -> Vec<Line> {
    let mut lines = Vec::new();
    for (one, two) in [(V4, V4), (V6, V6), (V4, V6), (V6, V4)] {
        let said = format!("{} {}", one.number(), two.number());
        lines.extend(places(one, two, &said));
        lines.extend(passed_over(one, two, &said));
        lines.extend(refused(one, two, &said));
    }
    for family in Family::BOTH {
        let said = format!("{0} {0}", family.number());
        lines.extend(alike(family, &said));
        lines.extend(strangers(family, &said));
    }
    lines
}
