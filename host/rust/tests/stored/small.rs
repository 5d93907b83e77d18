//! The small-registrar profile (document 02, order 14): openings and caches at C = 64 and 65; each refusal of the calls, alone and with its neighbours;
//! stamps at their edges, of newcomers and of held entries; listings and searches that pass over entries that have grown older; and a day on which the
//! same cache is served by both sets of calls.
use super::bounds::{self, advertiser, begins, name, spaced};
use super::faults::Faults;
use super::visits::{left, Left};
use super::{buffer, calls, digest, hex, number, openings};
use super::{Buffer, Call, Given, Line, Shown, UNTOUCHED};
use crate::oracle::bounds::{bound_len, Bound, Bounds};
use crate::oracle::cache::{Cache, Entry};
use crate::oracle::family::Family::{self, V4, V6};
use crate::oracle::record::{Ad, Ticket};
use crate::oracle::registrar::{self, Request};
use crate::oracle::small::{self, CAPACITY_MAX, STAMP_AGE_MAX, WINDOW};
use crate::oracle::{CLOCK_MAX, LIFETIME};

const KEY: [u8; 32] = [7; 32];
/// Thirty days have passed since the epoch, and at the other not.
pub const NOW: u64 = 5_000_000_000;
pub const EARLY: u64 = 100_000_000;
const SERVICE: u8 = b'S';

/// A first request of the service by a peer of its own, with this stamp.
pub fn newcomer(family: Family, stamp: u64) -> Ad {
    let mut ad = advertiser(family, SERVICE, b'n', 10);
    ad.stamp = stamp;
    ad
}

/// A vouched request at this clock.
pub fn asking<'a>(clock: u64, ad: &'a [u8], ticket: &'a [u8]) -> Request<'a> {
    Request {
        key: &KEY,
        window: WINDOW,
        clock,
        ad,
        vouched: 1,
        ticket,
        reply_len: 89,
    }
}

/// The program's cache as requests and calls leave it, so that a request brings only what differs; and the lines.
pub struct Stage {
    kept: Vec<u8>,
    pub lines: Vec<Line>,
}

impl Stage {
    /// Opened by the full call.
    pub fn open(family: Family, capacity: usize) -> Stage {
        let length = family.cache_len(capacity);
        Stage {
            kept: registrar::open(&vec![0; length], family.number()).unwrap(),
            lines: vec![openings::told(family.number(), length)],
        }
    }

    /// What the request brings of this cache.
    fn brings(&self, cache: &[u8]) -> Vec<u8> {
        let kept = self.kept.iter();
        let last = cache.iter().zip(kept).rposition(|(new, kept)| new != kept);
        cache[..last.map_or(0, |last| last + 1)].to_vec()
    }

    fn keep(&mut self, cache: &[u8]) {
        self.kept[..cache.len()].copy_from_slice(cache);
    }

    fn given(&self, call: Call, cache: &[u8], shown: Shown) -> Given {
        Given {
            call,
            begins: self.brings(cache),
            cache: Buffer(cache.len(), cache.len(), shown),
            ..Given::default()
        }
    }

    /// One of the two REGISTERs without bounds.
    fn ask(&mut self, full: bool, label: String, cache: &[u8], request: &Request) -> Left {
        let (call, numbers, answer) = if full {
            let numbers = vec![request.window, request.clock];
            (Call::Register, numbers, registrar::register(cache, request))
        } else {
            let numbers = vec![request.clock];
            (
                Call::SmallRegister,
                numbers,
                small::register(cache, request),
            )
        };
        let left = left(cache, answer);
        let reply = left.reply.clone().unwrap_or(vec![UNTOUCHED; 89]);
        let (answer, moves, after) = (left.answer, left.moves, digest(&left.cache));
        self.lines.push(Line {
            label,
            said: format!(" {answer} {moves} {after} {}", hex(&reply)),
            given: Given {
                vouched: request.vouched,
                output: Buffer(89, 89, Shown::Bytes),
                told: true,
                numbers,
                parts: vec![
                    request.key.to_vec(),
                    request.ad.to_vec(),
                    request.ticket.to_vec(),
                ],
                ..self.given(call, cache, Shown::Digest)
            },
        });
        self.keep(&left.cache);
        left
    }

    pub fn register(&mut self, label: String, cache: &[u8], request: &Request) -> Left {
        self.ask(false, label, cache, request)
    }

    fn bounded(&mut self, label: String, cache: &[u8], bounds: &[u8], request: &Request) {
        let left = bounds::left_by(small::register_bounded, cache, bounds, request);
        let reply = left.reply.unwrap_or(vec![UNTOUCHED; 89]);
        let (answer, moves, after) = (left.answer, left.moves, digest(&left.cache));
        let bounds_after = spaced(hex(&left.bounds));
        self.lines.push(Line {
            label,
            said: format!(" {answer} {moves} {after} {}{bounds_after}", hex(&reply)),
            given: Given {
                vouched: request.vouched,
                output: Buffer(89, 89, Shown::Bytes),
                told: true,
                numbers: vec![request.clock, 0, bounds.len() as u64],
                parts: vec![
                    request.key.to_vec(),
                    request.ad.to_vec(),
                    request.ticket.to_vec(),
                    begins(bounds),
                ],
                ..self.given(Call::SmallRegisterBounded, cache, Shown::Digest)
            },
        });
        self.keep(&left.cache);
    }

    fn withdraw(&mut self, label: String, cache: &[u8], ad: &Ad, clock: u64) -> Vec<u8> {
        let answer = small::withdraw(cache, &ad.service, &ad.peer, clock, 1);
        let number = number(&answer);
        let after = answer.unwrap_or(cache.to_vec());
        self.lines.push(Line {
            label,
            said: format!(" {number} {}", digest(&after)),
            given: Given {
                vouched: 1,
                numbers: vec![clock],
                parts: vec![ad.service.clone(), ad.peer.clone()],
                ..self.given(Call::SmallWithdraw, cache, Shown::Digest)
            },
        });
        self.keep(&after);
        after
    }

    /// A listing of the service by one of the two sets.
    fn list(&mut self, full: bool, label: String, cache: &[u8], clock: u64) {
        let service = vec![SERVICE; 32];
        let size = Family::of_head(cache[0]).unwrap().list_len();
        let (call, answer) = if full {
            let answer = registrar::get_ads(cache, clock, &service, size);
            (Call::GetAds, answer)
        } else {
            let answer = small::get_ads(cache, clock, &service, size);
            (Call::SmallGetAds, answer)
        };
        let count = answer.as_ref().map_or_else(|n| -n, |ads| ads.len() as i64);
        let list = digest(&buffer(size, &answer.map(|ads| ads.concat())));
        self.lines.push(Line {
            label,
            said: format!(" {count} {list}"),
            given: Given {
                output: Buffer(size, size, Shown::Digest),
                numbers: vec![clock],
                parts: vec![service],
                ..self.given(call, cache, Shown::Not)
            },
        });
        self.keep(cache);
    }

    fn newest(&mut self, label: String, caches: [&[u8]; 2], clock: u64, service: &[u8]) {
        let [first, second] = caches;
        let untold = usize::from(UNTOUCHED);
        let said = match small::newest(first, second, clock, service) {
            Err(refusal) => format!(" -{refusal} {untold} {refusal}"),
            Ok(None) => format!(" 0 {untold} 0"),
            Ok(Some((which, at))) => {
                let cache = caches[which as usize - 1];
                let size = Family::of_head(cache[0]).unwrap().body_len();
                format!(" {which} {at} 0 {}", hex(&cache[at..at + size]))
            }
        };
        self.lines.push(Line {
            label,
            said,
            given: Given {
                numbers: vec![clock, second.len() as u64],
                parts: vec![begins(second), service.to_vec()],
                ..self.given(Call::SmallNewest, first, Shown::Not)
            },
        });
        self.keep(first);
    }
}

/// Openings by the profile's call, of every capacity's length around the largest, of both families and of none.
fn openings() -> Vec<Line> {
    let opened = |number: u64, length: usize| {
        let answer = small::open(&vec![UNTOUCHED; length], number);
        let cache = buffer(length, &answer);
        let code = self::number(&answer);
        Line {
            label: format!("small open {length} as {number}:"),
            said: format!(" {code} {}", digest(&cache)),
            given: Given {
                call: Call::SmallOpen,
                anew: true,
                cache: Buffer(length, length, Shown::Digest),
                numbers: vec![number],
                ..Given::default()
            },
        }
    };
    let mut lines = Vec::new();
    for family in Family::BOTH {
        let whole = [1, 2, 63, 64, 65, 66, 128, 1000].map(|c| family.cache_len(c));
        let broken = [
            0,
            family.cache_len(1) - 1,
            family.cache_len(1) + 1,
            family.cache_len(64) - 1,
            family.cache_len(64) + 1,
            // A capacity's of either family.
            24_642,
        ];
        for length in whole.into_iter().chain(broken) {
            lines.push(opened(family.number(), length));
        }
        for none in [0, 5, 7, (1 << 32) + family.number(), u64::MAX] {
            lines.push(opened(none, family.cache_len(64)));
        }
    }
    lines
}

/// Refusals of the calls with Faults' cache of capacity 2. Those of the window are not there: there is no such parameter.
const FAULTS: [u8; 53] = [
    0, 10, 11, 12, 13, 14, 15, 16, 17, 18, 19, 1, 2, 3, 21, 22, 23, 24, 31, 32, 41, 42, 43, 131,
    132, 141, 51, 52, 53, 201, 202, 203, 204, 205, 61, 71, 72, 73, 81, 91, 92, 93, 94, 101, 102,
    103, 105, 111, 112, 113, 114, 171, 178,
];
/// Each refusal with the next in REGISTER's order, and 20 with every other.
const PAIRS: [(u8, u8); 26] = [
    (11, 21),
    (21, 31),
    (31, 41),
    (41, 131),
    (131, 141),
    (141, 51),
    (51, 201),
    (201, 61),
    (61, 73),
    (73, 81),
    (81, 91),
    (91, 101),
    (101, 111),
    (11, 202),
    (21, 202),
    (31, 202),
    (41, 202),
    (131, 202),
    (141, 202),
    (52, 202),
    (202, 61),
    (201, 73),
    (201, 81),
    (201, 91),
    (201, 101),
    (201, 111),
];
const BOUNDED_FAULTS: [u8; 33] = [
    0, 11, 19, 180, 181, 182, 183, 184, 185, 186, 187, 21, 23, 31, 32, 41, 131, 141, 51, 201, 202,
    204, 61, 73, 81, 91, 101, 111, 112, 113, 191, 194, 195,
];
/// The same with 18 behind 1 and 19 last.
const BOUNDED_PAIRS: [(u8, u8); 22] = [
    (11, 181),
    (181, 21),
    (21, 31),
    (31, 41),
    (41, 131),
    (131, 141),
    (141, 51),
    (51, 201),
    (201, 61),
    (61, 73),
    (73, 81),
    (81, 91),
    (91, 101),
    (101, 111),
    (111, 191),
    (181, 201),
    (201, 73),
    (201, 111),
    (201, 191),
    (202, 191),
    (61, 191),
    (181, 191),
];
const WITHDRAW_FAULTS: [u8; 12] = [0, 10, 11, 19, 21, 23, 31, 32, 51, 171, 172, 176];
const WITHDRAW_PAIRS: [(u8, u8); 4] = [(11, 21), (21, 31), (31, 51), (51, 171)];
const LIST_FAULTS: [u8; 14] = [0, 10, 11, 19, 21, 22, 23, 24, 25, 31, 32, 171, 177, 202];
const LIST_PAIRS: [(u8, u8); 2] = [(11, 21), (21, 31)];

/// A call, its faults and its pairs of them.
type Faulty<'a> = (fn(Faults) -> Line, &'a [u8], &'a [(u8, u8)]);

pub fn fault_lines(family: Family) -> Vec<Line> {
    let of: [Faulty; 4] = [
        (calls::register, &FAULTS, &PAIRS),
        (bounds::fault_line, &BOUNDED_FAULTS, &BOUNDED_PAIRS),
        (calls::withdraw, &WITHDRAW_FAULTS, &WITHDRAW_PAIRS),
        (calls::get_ads, &LIST_FAULTS, &LIST_PAIRS),
    ];
    let mut lines = Vec::new();
    for (line, faults, pairs) in of {
        let alone = faults.iter().map(|fault| (*fault, 0));
        for (one, next) in alone.chain(pairs.iter().copied()) {
            lines.push(line(Faults::small(family, one, next)));
        }
    }
    lines
}

/// A cache whose clock is this, of entries of the service, the i-th accepted at the i-th time before it.
fn holding(family: Family, capacity: usize, clock: u64, entries: Vec<Entry>) -> Vec<u8> {
    Cache::holding(family, capacity, clock, entries).bytes()
}

/// An entry of the service with this stamp.
fn held(family: Family, peer: u8, accepted: u64, stamp: u64) -> Entry {
    let mut ad = advertiser(family, SERVICE, peer, 10 + peer % 8);
    ad.stamp = stamp;
    Entry::new(accepted, ad)
}

/// The clocks at which stamps are tried: below thirty days, about there, later, and the last.
pub const CLOCKS: [u64; 7] = [
    0,
    EARLY,
    STAMP_AGE_MAX - 1,
    STAMP_AGE_MAX,
    STAMP_AGE_MAX + 1,
    NOW,
    CLOCK_MAX,
];

/// Those at which the two other calls are tried.
const FEW: [u64; 3] = [EARLY, STAMP_AGE_MAX + 1, NOW];

/// The edges of stamps at a clock; what lies below 0 wraps to the end of 64 bits.
pub fn stamps(now: u64) -> Vec<u64> {
    let oldest = now.wrapping_sub(STAMP_AGE_MAX);
    let mut stamps = vec![
        now,
        now + 1,
        oldest,
        oldest.wrapping_sub(1),
        0,
        1,
        1 << 40,
        u64::MAX,
        u64::MAX - STAMP_AGE_MAX,
    ];
    stamps.sort();
    stamps.dedup();
    stamps
}

/// Newcomers with each stamp at each clock, beside an entry; by REGISTER, and at few of the clocks with bounds.
fn stamp_lines(family: Family) -> Vec<Line> {
    let mut stage = Stage::open(family, CAPACITY_MAX);
    for now in CLOCKS {
        let accepted = now.saturating_sub(5);
        let other = held(family, b'p', accepted, now);
        let cache = holding(family, CAPACITY_MAX, accepted, vec![other]);
        for stamp in stamps(now) {
            let ad = newcomer(family, stamp).record();
            let request = asking(now, &ad, &[]);
            let what = |call| format!("{}small {call}, stamp {stamp} at {now}:", name(family));
            stage.register(what("register"), &cache, &request);
            if FEW.contains(&now) {
                let bounds = vec![0; bound_len(family)];
                stage.bounded(what("register_bounded"), &cache, &bounds, &request);
            }
        }
    }
    stage.lines
}

/// A held entry with each stamp at each clock, listed, and at few of the clocks searched.
fn held_lines(family: Family) -> Vec<Line> {
    let mut stage = Stage::open(family, CAPACITY_MAX);
    for now in CLOCKS {
        for stamp in stamps(now) {
            let accepted = now.saturating_sub(5);
            let entry = held(family, b'p', accepted, stamp);
            let cache = holding(family, CAPACITY_MAX, accepted, vec![entry]);
            let what = |call| format!("{}small {call}, held {stamp} at {now}:", name(family));
            stage.list(false, what("get_ads"), &cache, now);
            if FEW.contains(&now) {
                let none = holding(family, 1, 0, vec![]);
                let label = what("newest");
                stage.newest(label, [&cache, &none], now, &[SERVICE; 32]);
            }
        }
    }
    stage.lines
}

/// 20 beside its neighbours, at both ends of the range: an entry of the pair is held or not, and the signature vouched for or not. A held pair's own stamp is
/// older or not, and it may be withdrawn: it brings 6 all the same.
fn order_lines(family: Family) -> Vec<Line> {
    let mut stage = Stage::open(family, CAPACITY_MAX);
    let older = NOW - STAMP_AGE_MAX - 1;
    let entries = |stamp, withdrawn| {
        let mut entry = Entry::new(NOW - 5, newcomer(family, stamp));
        entry.withdrawn = withdrawn;
        vec![entry]
    };
    let caches = [
        ("none held", vec![]),
        ("held", entries(NOW - 5, false)),
        ("an older held", entries(older, false)),
        ("an older held, withdrawn", entries(older, true)),
    ];
    for (held, entries) in caches {
        let cache = holding(family, CAPACITY_MAX, NOW - 5, entries);
        for (when, stamp) in [
            ("older", older),
            ("thirty days old", older + 1),
            ("of now", NOW),
            ("later", NOW + 1),
        ] {
            let ad = newcomer(family, stamp).record();
            for vouched in [1, 0] {
                let mut request = asking(NOW, &ad, &[]);
                request.vouched = vouched;
                let by = if vouched == 1 {
                    ""
                } else {
                    ", not vouched for"
                };
                let label = format!("{}small register, {when}, {held}{by}:", name(family));
                stage.register(label, &cache, &request);
                let bounds = full_bounds(family);
                let label = format!(
                    "{}small register_bounded, {when}, {held}{by}:",
                    name(family)
                );
                stage.bounded(label, &cache, &bounds, &request);
            }
        }
    }
    stage.lines
}

/// One place, in force for another service: whoever is not refused otherwise is refused by 19.
fn full_bounds(family: Family) -> Vec<u8> {
    let other = advertiser(family, b'T', b'n', 10);
    Bounds::holding(family, 1, vec![Bound::of(&other, NOW + 1)]).bytes()
}

/// Every call on well-formed caches of 64 and of 65 places, and on caches whose head or length says one and the other; 65 comes before all else that is wrong.
fn capacity_lines(family: Family) -> Vec<Line> {
    let mut stage = Stage::open(family, CAPACITY_MAX + 1);
    let entries = vec![held(family, b'p', NOW - 5, NOW - 5)];
    let of = |capacity| holding(family, capacity, NOW - 5, entries.clone());
    let says = |mut cache: Vec<u8>, capacity: u8| {
        cache[2] = capacity;
        cache
    };
    for (what, cache) in [
        ("64", of(64)),
        ("65", of(65)),
        ("64, its head says 65", says(of(64), 65)),
        ("65, its head says 64", says(of(65), 64)),
    ] {
        every_call(&mut stage, family, what, &cache);
    }
    let cache = of(65);
    let ad = newcomer(family, NOW + 1).record();
    let label = |what| format!("{}small {what} of 65 and more is wrong:", name(family));
    let mut request = asking(NOW - 6, &ad[1..], &[]);
    request.key = &KEY[1..];
    request.vouched = 0;
    stage.register(label("register"), &cache, &request);
    stage.bounded(label("register_bounded"), &cache, &[0], &request);
    stage.newest(label("newest"), [&cache, &cache], NOW - 6, &[SERVICE; 31]);
    let mut most = Stage::open(family, 1000);
    let cache = holding(family, 1000, NOW - 5, entries);
    most.list(false, label("get_ads of 1000,"), &cache, NOW);
    let ad = newcomer(family, NOW).record();
    most.register(label("register of 1000,"), &cache, &asking(NOW, &ad, &[]));
    stage.lines.extend(most.lines);
    stage.lines
}

/// A request of each kind that is good but for the cache.
fn every_call(stage: &mut Stage, family: Family, what: &str, cache: &[u8]) {
    let label = |call| format!("{}small {call} of {what}:", name(family));
    let good = holding(family, 64, NOW - 5, vec![]);
    let ad = newcomer(family, NOW).record();
    let request = asking(NOW, &ad, &[]);
    stage.register(label("register"), cache, &request);
    let bounds = vec![0; bound_len(family)];
    stage.bounded(label("register_bounded"), cache, &bounds, &request);
    stage.bounded(
        label("register_bounded, bounds of no bytes,"),
        cache,
        &[],
        &request,
    );
    stage.withdraw(label("withdraw"), cache, &held(family, b'p', 0, 0).ad, NOW);
    stage.list(false, label("get_ads"), cache, NOW);
    let service = [SERVICE; 32];
    stage.newest(label("newest, first"), [cache, &good], NOW, &service);
    stage.newest(label("newest, second"), [&good, cache], NOW, &service);
}

/// What a letter stands for: an entry that is fresh, a millisecond too old, exactly thirty days old, of the clock, after it, as far after it as can be, of
/// stamp 0; withdrawn and fresh or older; expired and fresh or older; of another service and fresh or older. Peers and times of acceptance count up.
fn entry_of(family: Family, now: u64, letter: char, place: usize) -> Entry {
    let older = now.saturating_sub(STAMP_AGE_MAX + 1);
    let stamp = match letter {
        'o' | 'v' | 'y' | 't' => older,
        'e' => older + 1,
        'n' => now,
        'l' => now + 1,
        'm' => u64::MAX,
        'z' => 0,
        _ => now - 1,
    };
    let accepted = match letter {
        'x' | 'y' => now - LIFETIME - 100,
        _ => now - LIFETIME + 1,
    };
    let mut entry = held(family, b'a' + place as u8, accepted + place as u64, stamp);
    entry.withdrawn = "wv".contains(letter);
    if "st".contains(letter) {
        entry.ad.service = vec![b'T'; 32];
    }
    entry
}

/// A cache with an entry for each letter.
pub fn lettered(family: Family, now: u64, letters: &str) -> Vec<u8> {
    let places = letters.chars().enumerate();
    let entries = places.map(|(place, letter)| entry_of(family, now, letter, place));
    holding(family, CAPACITY_MAX, now - 1, entries.collect())
}

/// Which entries are listed, by hand: how many, and the place of the newest, counted from 1; 0 where there is none.
pub type Listed = (&'static str, u64, usize, usize);
pub const LISTED: [Listed; 24] = [
    ("", NOW, 0, 0),
    ("f", NOW, 1, 1),
    ("o", NOW, 0, 0),
    ("e", NOW, 1, 1),
    ("of", NOW, 1, 2),
    ("fo", NOW, 1, 1),
    ("ffo", NOW, 2, 2),
    ("enlmo", NOW, 4, 4),
    ("ffffffffff", NOW, 10, 10),
    ("ffffffffffff", NOW, 10, 12),
    ("offffffffff", NOW, 10, 11),
    ("fffffffffof", NOW, 10, 11),
    ("fffffffffff", NOW, 10, 11),
    ("ooofffffffffffoo", NOW, 10, 14),
    ("ofofofofofofofofofofof", NOW, 10, 22),
    ("oooooooooooo", NOW, 0, 0),
    ("ooooooooooof", NOW, 1, 12),
    ("wvovwfs", NOW, 1, 6),
    ("xyofts", NOW, 1, 4),
    ("lmlmlmlmlmlmlm", NOW, 10, 14),
    ("zzzzffffffffffffzz", NOW, 10, 16),
    ("zzflmzn", EARLY, 7, 7),
    ("zzzzzzzzzzzzz", EARLY, 10, 13),
    ("xzfwmss", EARLY, 3, 5),
];

/// Each cache listed by both sets, searched, asked by a newcomer of the service, for whom every live entry counts, and by an older entry's peer, who
/// withdraws.
fn listed_lines(family: Family) -> Vec<Line> {
    let mut stage = Stage::open(family, CAPACITY_MAX);
    for (letters, now, _, _) in LISTED {
        let cache = lettered(family, now, letters);
        let label = |call| format!("{}{call}, [{letters}] at {now}:", name(family));
        stage.list(false, label("small get_ads"), &cache, now);
        stage.list(true, label("get_ads"), &cache, now);
        let none = holding(family, 1, 0, vec![]);
        let label_newest = label("small newest");
        stage.newest(label_newest, [&cache, &none], now, &[SERVICE; 32]);
        let ad = newcomer(family, now).record();
        let request = asking(now, &ad, &[]);
        stage.register(label("small register"), &cache, &request);
        if let Some(place) = letters.find('o') {
            let older = entry_of(family, now, 'o', place).ad;
            stage.withdraw(label("small withdraw"), &cache, &older, now);
        }
    }
    stage.lines
}

/// The letters of two caches, and which holds the newest.
pub const TWO: [(&str, &str, i64); 11] = [
    ("", "", 0),
    ("o", "f", 2),
    ("f", "o", 1),
    ("o", "o", 0),
    ("fo", "f", 1),
    ("fo", "ff", 2),
    ("ff", "fo", 1),
    ("of", "oo", 1),
    ("oo", "of", 2),
    ("fm", "fl", 1),
    ("oe", "fo", 1),
];

/// What is wrong with a search; `first` and `second` are of 64 places where they are not of 65.
type Wrong = (&'static str, [usize; 2], u64, usize);
const WRONG: [Wrong; 12] = [
    ("of 64 and 64", [64, 64], NOW, 32),
    ("of 64 and 64, service of 31", [64, 64], NOW, 31),
    ("of 64 and 64, early", [64, 64], NOW - 2, 32),
    ("of 64 and 64, late", [64, 64], CLOCK_MAX + 1, 32),
    ("of 65 and 64", [65, 64], NOW, 32),
    ("of 64 and 65", [64, 65], NOW, 32),
    ("of 65 and 65", [65, 65], NOW, 32),
    ("of 65, service of 31", [65, 64], NOW, 31),
    ("of 64 and 65, service of 31", [64, 65], NOW, 31),
    ("of 65, early", [65, 64], NOW - 2, 32),
    ("of 64 and 65, early", [64, 65], NOW - 2, 32),
    ("of 64 and 65, late", [64, 65], CLOCK_MAX + 1, 32),
];

/// Searches of two caches in every two families.
fn two_lines(one: Family, two: Family) -> Vec<Line> {
    let mut stage = Stage::open(one, CAPACITY_MAX + 1);
    let said = format!("small newest {} {}", one.number(), two.number());
    for (first, second, _) in TWO {
        let caches = [lettered(one, NOW, first), lettered(two, NOW, second)];
        let caches = caches.each_ref().map(Vec::as_slice);
        let label = format!("{said} [{first}] [{second}]:");
        stage.newest(label, caches, NOW, &[SERVICE; 32]);
    }
    for (what, [first, second], clock, length) in WRONG {
        let of = |family, capacity| {
            let entries = vec![held(family, b'p', NOW - 5, NOW - 5)];
            holding(family, capacity, NOW - 1, entries)
        };
        let caches = [of(one, first), of(two, second)];
        let caches = caches.each_ref().map(Vec::as_slice);
        let label = format!("{said} {what}:");
        stage.newest(label, caches, clock, &vec![SERVICE; length]);
    }
    stage.lines
}

/// A ticket of the first request at a clock, brought back after its wait.
fn ticket(ad: &Ad, first: u64, issued: u64, wait: u64) -> Vec<u8> {
    let ticket = Ticket {
        ad_hash: ad.hash(),
        first,
        issued,
        wait,
    };
    ticket.record(&KEY)
}

/// A day on one cache of 64 places, and what the profile's REGISTERs of it answer.
pub struct Day {
    family: Family,
    stage: Stage,
    cache: Vec<u8>,
    pub told: Vec<i64>,
}

impl Day {
    fn label(&self, what: &str, clock: u64) -> String {
        format!("{}small day, {what} at {clock}:", name(self.family))
    }

    /// By one of the two sets, with the usual window.
    fn ask(&mut self, full: bool, what: &str, clock: u64, ad: &Ad, ticket: &[u8]) -> Vec<u8> {
        let (label, record) = (self.label(what, clock), ad.record());
        let request = asking(clock, &record, ticket);
        let left = self.stage.ask(full, label, &self.cache, &request);
        self.cache = left.cache;
        self.told.push(left.answer);
        left.reply.unwrap_or_default()
    }

    fn list(&mut self, clock: u64) {
        for (full, what) in [(false, "listed"), (true, "listed by the full call")] {
            let label = self.label(what, clock);
            self.stage.list(full, label, &self.cache, clock);
        }
    }

    fn withdraw(&mut self, what: &str, clock: u64, ad: &Ad) {
        let label = self.label(what, clock);
        self.cache = self.stage.withdraw(label, &self.cache, ad, clock);
    }

    pub fn lines(self) -> Vec<Line> {
        self.stage.lines
    }
}

/// One is admitted when its stamp is thirty days old, is listed at that very clock and then no more, and comes again with the same stamp and with a renewed
/// one. Another whose stamp is too old is admitted by the full call, and withdraws. A third's stamp grows too old while it waits. Then all have expired.
pub fn day(family: Family) -> Day {
    let mut day = Day {
        family,
        stage: Stage::open(family, CAPACITY_MAX),
        cache: holding(family, CAPACITY_MAX, 0, vec![]),
        told: Vec::new(),
    };
    let of = |peer, first, stamp| {
        let mut ad = advertiser(family, SERVICE, peer, first);
        ad.stamp = stamp;
        ad
    };
    let one = of(b'a', 10, NOW + 1 - STAMP_AGE_MAX);
    let first = day.ask(false, "one asks", NOW, &one, &[]);
    day.ask(false, "one returns", NOW + 1, &one, &first);
    day.list(NOW + 1);
    day.list(NOW + 2);
    day.ask(false, "one comes again", NOW + 2, &one, &[]);
    let renewed = of(b'a', 10, NOW + 2);
    day.ask(false, "one, renewed,", NOW + 2, &renewed, &[]);

    let other = of(b'b', 200, 0);
    day.ask(false, "another asks", NOW + 3, &other, &[]);
    let old = ticket(&other, NOW - LIFETIME, NOW + 2, 1);
    day.ask(false, "another returns", NOW + 3, &other, &old);
    day.ask(true, "another, by the full call,", NOW + 3, &other, &old);
    day.list(NOW + 3);
    day.withdraw("another withdraws", NOW + 4, &other);
    day.withdraw("another, again,", NOW + 4, &other);
    day.ask(
        true,
        "another, back by the full call,",
        NOW + 4,
        &other,
        &[],
    );

    let third = of(b'c', 100, NOW + 10 - STAMP_AGE_MAX);
    let waits = day.ask(false, "a third asks", NOW + 5, &third, &[]);
    let due = NOW + 5 + day.told.last().copied().unwrap() as u64;
    day.ask(false, "a third returns", due, &third, &waits);
    let renewed = of(b'c', 100, due);
    day.ask(false, "a third, renewed, returns", due, &renewed, &waits);
    day.ask(false, "a third, renewed,", due, &renewed, &[]);
    day.ask(true, "a third, by the full call,", due, &third, &waits);

    let gone = NOW + 4 + LIFETIME;
    day.ask(
        false,
        "one, when all are gone,",
        gone,
        &of(b'a', 10, gone),
        &[],
    );
    day.list(gone);
    day
}

/// A ticket is taken for the window that is in force, and not a millisecond longer.
fn window_lines(family: Family) -> Vec<Line> {
    let mut stage = Stage::open(family, CAPACITY_MAX);
    let cache = holding(family, CAPACITY_MAX, NOW - 5, vec![]);
    let ad = newcomer(family, NOW);
    let brought = ticket(&ad, NOW, NOW, 100);
    let record = ad.record();
    for after in [99, 100, 101, 1_100, 1_101, 10_099, 10_100, 10_101, 60_100] {
        let request = asking(NOW + after, &record, &brought);
        let label = |call| format!("{}small {call}, back after {after} ms:", name(family));
        stage.register(label("register"), &cache, &request);
        let bounds = vec![0; bound_len(family)];
        stage.bounded(label("register_bounded"), &cache, &bounds, &request);
    }
    stage.lines
}

pub fn lines() -> Vec<Line> {
    let mut lines = openings();
    for family in Family::BOTH {
        lines.extend(fault_lines(family));
        lines.extend(stamp_lines(family));
        lines.extend(held_lines(family));
        lines.extend(order_lines(family));
        lines.extend(capacity_lines(family));
        lines.extend(listed_lines(family));
        lines.extend(day(family).lines());
        lines.extend(window_lines(family));
    }
    for (one, two) in [(V4, V4), (V6, V6), (V4, V6), (V6, V4)] {
        lines.extend(two_lines(one, two));
    }
    lines
}
