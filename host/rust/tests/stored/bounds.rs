//! REGISTER with lower bounds (document 02, order 12): buffers of and not of the form; bounds that are rewritten in place, go last or are dropped; a day on which
//! asking afresh does not pay; and each refusal of the call, alone and with the next.
use super::faults::Faults;
use super::{buffer, digest, hex, openings, visits};
use super::{Buffer, Call, Given, Line, Shown, UNTOUCHED};
use crate::oracle::bounds::{bound_len, register_bounded, Bound, Bounds, UNTIL_MAX};
use crate::oracle::cache::{Cache, Entry};
use crate::oracle::family::Family;
use crate::oracle::record::{Ad, Ticket};
use crate::oracle::registrar::{Registered, Request};
use crate::oracle::small;
use crate::oracle::{LIFETIME, USUAL_WINDOW};

const KEY: [u8; 32] = [7; 32];
pub const NOW: u64 = 10_000_000;
/// When the two entries of the service have expired.
pub const GONE: u64 = 10_038_636;
const CAPACITY: usize = 64;

/// An advertiser whose address begins with a byte and ends in 1; service and peer are of a byte each.
pub fn advertiser(family: Family, service: u8, peer: u8, first: u8) -> Ad {
    let mut address = vec![0; family.address_len()];
    address[0] = first;
    address[3] = 1;
    Ad {
        service: vec![service; 32],
        peer: vec![peer; 32],
        address,
        port: 443,
        stamp: 0,
        signature: vec![0; 64],
    }
}

/// Who asks, by a letter. A, B and C are of the service that the cache holds twice, X has A's address.
pub fn asker(family: Family, letter: char) -> Ad {
    let (service, first) = match letter {
        'A' => (b'S', 200),
        'B' => (b'S', 201),
        'C' => (b'S', 12),
        'X' => (b'T', 200),
        _ => (b'U', 202),
    };
    advertiser(family, service, letter as u8, first)
}

/// C = 64, with two entries of the service at 10.0.0.1 and 11.0.0.1 that expire at `GONE`.
pub fn held(family: Family) -> Vec<u8> {
    let accepted = GONE - LIFETIME;
    let entry = |(peer, first)| Entry::new(accepted, advertiser(family, b'S', peer, first));
    let entries = [(b'p', 10), (b'q', 11)].map(entry).to_vec();
    Cache::holding(family, CAPACITY, accepted, entries).bytes()
}

/// A ticket for A that is due.
fn ticket(ad: &Ad, first: u64, issued: u64, wait: u64) -> Vec<u8> {
    let ad_hash = ad.hash();
    let ticket = Ticket {
        ad_hash,
        first,
        issued,
        wait,
    };
    ticket.record(&KEY)
}

/// What the call leaves: its answer, how many entries moved, the ticket that it wrote, the cache and the bounds.
pub struct Left {
    pub answer: i64,
    pub moves: u64,
    pub reply: Option<Vec<u8>>,
    pub cache: Vec<u8>,
    pub bounds: Vec<u8>,
}

pub fn left(cache: &[u8], bounds: &[u8], request: &Request) -> Left {
    left_by(register_bounded, cache, bounds, request)
}

/// The oracle's call, or that of the small-registrar profile.
pub type Bounded = fn(&[u8], &[u8], &Request) -> Result<(Registered, Vec<u8>, Vec<u8>), i64>;

pub fn left_by(call: Bounded, cache: &[u8], bounds: &[u8], request: &Request) -> Left {
    let (answer, moves, reply, cache, bounds) = match call(cache, bounds, request) {
        Err(refusal) => {
            let untold = UNTOUCHED.into();
            (-refusal, untold, None, cache.to_vec(), bounds.to_vec())
        }
        Ok((Registered::Confirmed(moves), cache, bounds)) => (0, moves, None, cache, bounds),
        Ok((Registered::Wait(wait, ticket, moves), cache, bounds)) => {
            (wait as i64, moves, Some(ticket), cache, bounds)
        }
    };
    Left {
        answer,
        moves,
        reply,
        cache,
        bounds,
    }
}

/// How bounds and reply are shown: their bytes, or where there are many their digest.
pub fn shown(bounds: &[u8]) -> (Shown, fn(&[u8]) -> String) {
    if bounds.len() < 400 {
        (Shown::Bytes, hex)
    } else {
        (Shown::Digest, digest)
    }
}

/// Bytes as they stand in a line: a space before them, and nothing for none.
pub fn spaced(text: String) -> String {
    match text.len() {
        0 => text,
        _ => format!(" {text}"),
    }
}

/// The bounds without the zeros behind them, which the program has there before it copies these.
pub fn begins(bounds: &[u8]) -> Vec<u8> {
    let end = bounds.iter().rposition(|byte| *byte != 0);
    bounds[..end.map_or(0, |last| last + 1)].to_vec()
}

/// A call on a cache of capacity 64, of which at most four places hold entries, and its line.
fn line(label: String, cache: &[u8], bounds: &[u8], request: &Request) -> (Left, Line) {
    let left = left(cache, bounds, request);
    let family = Family::of_head(cache[0]).unwrap();
    let reply = left.reply.clone().unwrap_or(vec![UNTOUCHED; 89]);
    let (how, text) = shown(bounds);
    let (answer, moves, after) = (left.answer, left.moves, digest(&left.cache));
    let bounds_after = spaced(text(&left.bounds));
    let line = Line {
        label,
        said: format!(" {answer} {moves} {after} {}{bounds_after}", text(&reply)),
        given: Given {
            call: Call::RegisterBounded,
            vouched: request.vouched,
            begins: cache[..family.cache_len(4)].to_vec(),
            cache: Buffer(cache.len(), cache.len(), Shown::Digest),
            output: Buffer(89, 89, how),
            told: true,
            numbers: vec![request.window, request.clock, bounds.len() as u64],
            parts: vec![
                request.key.to_vec(),
                request.ad.to_vec(),
                request.ticket.to_vec(),
                begins(bounds),
            ],
            ..Given::default()
        },
    };
    (left, line)
}

pub fn name(family: Family) -> &'static str {
    match family {
        Family::V4 => "",
        Family::V6 => "IPv6 ",
    }
}

/// A vouched request by the usual window.
pub fn asking<'a>(clock: u64, ad: &'a [u8], ticket: &'a [u8]) -> Request<'a> {
    Request {
        key: &KEY,
        window: USUAL_WINDOW,
        clock,
        ad,
        vouched: 1,
        ticket,
        reply_len: 89,
    }
}

/// A bound of an asker.
fn bound(family: Family, letter: char, until: u64) -> Bound {
    Bound::of(&asker(family, letter), until)
}

/// Buffers that A asks with at `NOW`: a name, what they begin with, and their length.
pub fn forms(family: Family) -> Vec<(&'static str, Vec<u8>, usize)> {
    let size = bound_len(family);
    let of = |letter, until| bound(family, letter, until).record();
    let other = |letter| bound(family.other(), letter, NOW + 50_000).record();
    let own = of('A', NOW + 50_000);
    let behind = |byte: u8| [of('B', NOW), vec![byte]].concat();
    let mut last = vec![0; 3 * size];
    last[3 * size - 1] = 1;
    let mut second = own.clone();
    second.extend([0, 1]);
    let empty = || [vec![17], vec![0; size - 1]].concat();
    vec![
        ("no bytes", vec![], 0),
        ("a byte less than a place", vec![], size - 1),
        ("one place", vec![], size),
        ("a byte more than a place", vec![], size + 1),
        (
            "a place of the other family",
            vec![],
            bound_len(family.other()),
        ),
        ("a byte less than the most", vec![], 1000 * size - 1),
        ("the most places", vec![], 1000 * size),
        ("a byte more than the most", vec![], 1000 * size + 1),
        ("a place too many", vec![], 1001 * size),
        ("2565 bytes of zeros", vec![], 2565),
        ("2565 bytes, its own in front", own.clone(), 2565),
        (
            "2565 bytes, two in front",
            [of('B', NOW + 1), own.clone()].concat(),
            2565,
        ),
        ("2565 bytes, one of the other family", other('A'), 2565),
        (
            "2565 bytes, two of the other family",
            [other('B'), other('A')].concat(),
            2565,
        ),
        ("a last until", of('A', UNTIL_MAX), size),
        ("an until after the last", of('A', UNTIL_MAX + 1), size),
        (
            "a second until after the last",
            [of('B', 1), of('X', UNTIL_MAX + 1)].concat(),
            3 * size,
        ),
        ("the largest number for until", of('B', u64::MAX), 2 * size),
        ("an until of 0", of('A', 0), size),
        (
            "a pair twice",
            [own.clone(), own.clone()].concat(),
            2 * size,
        ),
        (
            "a pair twice, other untils",
            [of('B', 5), of('B', 6)].concat(),
            3 * size,
        ),
        (
            "a pair twice, apart",
            [of('X', 5), of('B', 5), of('X', NOW + 1)].concat(),
            3 * size,
        ),
        (
            "a service twice",
            [of('C', NOW + 5), of('B', NOW + 6)].concat(),
            3 * size,
        ),
        (
            "an address twice",
            [of('X', NOW + 5), own.clone()].concat(),
            3 * size,
        ),
        ("kind 16 behind", behind(16), 3 * size),
        ("kind 18 behind", behind(18), 3 * size),
        ("one record of zeros but its kind", empty(), 2 * size),
        (
            "two records of zeros but their kind",
            [empty(), empty()].concat(),
            2 * size,
        ),
        ("a byte behind a kind of 0", second, 3 * size),
        ("a last byte", last, 3 * size),
        (
            "a record behind a gap",
            [vec![0; size], own.clone()].concat(),
            2 * size,
        ),
        ("full", [own, of('B', NOW + 1)].concat(), 2 * size),
    ]
}

fn form_lines(family: Family) -> Vec<Line> {
    let ad = asker(family, 'A').record();
    let of = |(form, mut bounds, length): (&str, Vec<u8>, usize)| {
        bounds.resize(length, 0);
        let label = format!("{}bounds of {form}:", name(family));
        line(label, &held(family), &bounds, &asking(NOW, &ad, &[])).1
    };
    forms(family).into_iter().map(of).collect()
}

/// A case: its name, the bounds before, each with how far its until is from now, the places, how long A has stayed (0 is a first request), the answer, and the
/// bounds after. The wait by the recipe is 38,635.
pub type Case = (&'static str, &'static str, usize, u64, i64, &'static str);
pub const CASES: [Case; 34] = [
    ("into empty bounds", "", 2, 0, 38_635, "A+38635"),
    ("last", "X+5 B+9", 3, 0, 38_635, "X+5 B+9 A+38635"),
    ("in place", "X+5 A+1 B+9", 3, 0, 38_635, "X+5 A+38635 B+9"),
    ("in place, first", "A+1 B+9", 2, 0, 38_635, "A+38635 B+9"),
    ("larger", "B+9 A+50000", 2, 0, 50_000, "B+9 A+50000"),
    ("as large", "A+38635", 1, 0, 38_635, "A+38635"),
    ("a ms larger", "A+38636", 1, 0, 38_636, "A+38636"),
    ("a lifetime", "A+900000", 1, 0, 900_000, "A+900000"),
    ("cut", "A+900001 B+1", 2, 0, 900_000, "A+900000 B+1"),
    ("cut from far", "A+999999999999", 1, 0, 900_000, "A+900000"),
    ("dropped at until", "X+0 B+1", 3, 0, 38_635, "B+1 A+38635"),
    (
        "dropped, not full",
        "B+1 X-1 Y+7",
        4,
        0,
        38_635,
        "B+1 Y+7 A+38635",
    ),
    (
        "dropped, long past",
        "X-10000000 B+1",
        3,
        0,
        38_635,
        "B+1 A+38635",
    ),
    ("own past goes last", "A-1 B+1", 2, 0, 38_635, "B+1 A+38635"),
    (
        "own at until goes last",
        "A+0 B+1",
        2,
        0,
        38_635,
        "B+1 A+38635",
    ),
    ("full of those past", "X-5 B+0", 2, 0, 38_635, "A+38635"),
    (
        "dropped around it",
        "X-5 A+3 B+0 Y+1",
        4,
        0,
        38_635,
        "A+38635 Y+1",
    ),
    ("every place in force", "X+1 B+1", 2, 0, -19, "X+1 B+1"),
    ("one place past", "X+1 B+0", 2, 0, 38_635, "X+1 A+38635"),
    ("full, its own", "X+1 A+1", 2, 0, 38_635, "X+1 A+38635"),
    ("one place empty", "X+1", 2, 0, 38_635, "X+1 A+38635"),
    (
        "another address",
        "B+50000",
        2,
        0,
        38_635,
        "B+50000 A+38635",
    ),
    (
        "another service",
        "X+50000",
        2,
        0,
        38_635,
        "X+50000 A+38635",
    ),
    ("return waits", "A+1 B+9", 2, 10_000, 28_635, "A+38635 B+9"),
    (
        "return waits by its bound",
        "A+50000",
        1,
        40_000,
        10_000,
        "A+50000",
    ),
    ("return waits a ms", "A+38636", 1, 38_635, 1, "A+38636"),
    ("return cut", "A+1800000", 1, 899_999, 900_000, "A+900000"),
    (
        "return without a place",
        "X+1 B+1",
        2,
        10_000,
        -19,
        "X+1 B+1",
    ),
    (
        "return goes last",
        "X+1 B-1",
        2,
        10_000,
        28_635,
        "X+1 A+38635",
    ),
    ("confirmed", "A+38635 X-1", 3, 38_635, 0, "A+38635 X-1"),
    (
        "confirmed before until",
        "B+9 A+38635",
        2,
        68_185,
        0,
        "B+9 A+38635",
    ),
    (
        "confirmed, others past",
        "X-5 B+5 A-1",
        3,
        38_635,
        0,
        "X-5 B+5 A-1",
    ),
    (
        "confirmed without a place",
        "X+1 B+1",
        2,
        38_635,
        0,
        "X+1 B+1",
    ),
    ("confirmed, own past", "A+0 X+0", 2, 38_635, 0, "A+0 X+0"),
];

/// The bounds that a case tells, as "X+5 A-1".
pub fn bounds_in(family: Family, text: &str, places: usize) -> Vec<u8> {
    let told = |word: &str| {
        let far: i64 = word[1..].parse().unwrap();
        let letter = word.chars().next().unwrap();
        bound(family, letter, NOW.checked_add_signed(far).unwrap())
    };
    let held = text.split_whitespace().map(told).collect();
    Bounds::holding(family, places, held).bytes()
}

/// The call of a case.
pub fn case_line(family: Family, case: &Case) -> (Left, Line) {
    let (what, before, places, stayed, _, _) = case;
    let ad = asker(family, 'A');
    let brought = match stayed {
        0 => Vec::new(),
        stayed => ticket(&ad, NOW - stayed, NOW - 1, 1),
    };
    let bounds = bounds_in(family, before, *places);
    let label = format!("{}bounds, {what}:", name(family));
    let record = ad.record();
    line(
        label,
        &held(family),
        &bounds,
        &asking(NOW, &record, &brought),
    )
}

/// The day: what each call of this kind answers, with the until that it leaves, and the lines.
pub struct Day {
    pub told: Vec<(i64, u64)>,
    pub lines: Vec<Line>,
    family: Family,
    cache: Vec<u8>,
    bounds: Vec<u8>,
}

impl Day {
    fn call(&mut self, what: &str, clock: u64, ticket: &[u8]) -> Vec<u8> {
        let ad = asker(self.family, 'A').record();
        let label = format!("{}bounds, {what} at {clock}:", name(self.family));
        let request = asking(clock, &ad, ticket);
        let (left, line) = line(label, &self.cache, &self.bounds, &request);
        self.cache = left.cache;
        self.bounds = left.bounds;
        let own = Bounds::read(self.family, &self.bounds).unwrap().held;
        self.told.push((left.answer, own[0].until));
        self.lines.push(line);
        left.reply.unwrap_or_default()
    }

    /// Another of the service is confirmed by REGISTER, with a ticket that is old enough.
    fn another(&mut self) {
        let ad = asker(self.family, 'C');
        let old = ticket(&ad, NOW + 1 - LIFETIME, NOW, 1);
        let (left, given) = visits::ask(&self.cache, &KEY, NOW + 1, &ad, &old);
        let begins = self.cache[..self.family.cache_len(4)].to_vec();
        self.cache = left.cache;
        let size = self.cache.len();
        self.lines.push(Line {
            label: format!("{}bounds, another comes at {}:", name(self.family), NOW + 1),
            said: format!(" {} {}", left.answer, digest(&self.cache)),
            given: Given {
                begins,
                cache: Buffer(size, size, Shown::Digest),
                ..given
            },
        });
    }
}

/// The first request, and a return that is sent away; then the two entries are gone: asked afresh, and back too early; and in its place the kept ticket.
pub fn day(family: Family) -> Day {
    let mut day = Day {
        told: Vec::new(),
        lines: Vec::new(),
        family,
        cache: held(family),
        bounds: vec![0; 2 * bound_len(family)],
    };
    let first = day.call("first request", NOW, &[]);
    day.another();
    let second = day.call("returns", 10_038_635, &first);
    let (cache, bounds) = (day.cache.clone(), day.bounds.clone());
    let afresh = day.call("asks afresh", GONE, &[]);
    day.call("returns with that", 10_055_098, &afresh);
    (day.cache, day.bounds) = (cache, bounds);
    day.call("returns with the kept one", 10_068_185, &second);
    day
}

/// The bounds of a request with these faults: two places, of which one holds a bound of another pair that is past its time.
fn faulty(f: Faults) -> Vec<u8> {
    let (family, size) = (f.family, bound_len(f.family));
    let now = f.now();
    let mut own = Faults::none(family).fields();
    let soon = now + 1;
    let untils = [
        (185, UNTIL_MAX + 1),
        (191, soon),
        (193, now),
        (194, soon),
        (195, soon),
    ];
    let until = f.pick(&untils, 2_900);
    let mut other = own.clone();
    other.service[31] ^= 1;
    let mut held = vec![Bound::of(&other, until)];
    own.address[0] ^= f.pick(&[(191, 1), (193, 1)], 0);
    if [191, 193, 194, 195].iter().any(|fault| f.has(*fault)) {
        held.push(Bound::of(&own, f.pick(&[(195, now)], now + 1)));
    }
    if f.has(186) {
        held.push(Bound::of(&other, 2_901));
    }
    let mut bytes = Bounds::holding(family, 2, held).bytes();
    bytes[size] = f.pick(&[(188, 16)], bytes[size]);
    bytes[0] = f.pick(&[(189, 18)], bytes[0]);
    bytes[2 * size - 1] |= f.pick(&[(187, 1)], 0);
    let other_size = 2 * bound_len(family.other());
    let lengths = [
        (180, other_size),
        (181, 2 * size - 1),
        (182, 2 * size + 1),
        (183, 0),
        (184, 1001 * size),
    ];
    bytes.resize(f.pick(&lengths, 2 * size), 0);
    bytes
}

/// REGISTER's faults, and those of the bounds.
pub fn fault_line(f: Faults) -> Line {
    let (cache, bounds) = (f.cache(), faulty(f));
    let (key, ad, ticket) = (f.key(), f.ad(), f.ticket());
    let request = Request {
        key: &key,
        window: f.window(),
        clock: f.now(),
        ad: &ad,
        vouched: f.vouched(),
        ticket: &ticket,
        reply_len: f.pick(&[(23, 88), (24, 90)], 89),
    };
    let call = if f.small {
        small::register_bounded
    } else {
        register_bounded
    };
    let left = left_by(call, &cache[..f.cache_len()], &bounds, &request);
    let mut after = left.cache;
    after.extend(&cache[f.cache_len()..]);
    let reply = digest(&buffer(90, &left.reply.ok_or(0)));
    let (answer, moves) = (left.answer, left.moves);
    let (after, bounds_after) = (digest(&after), digest(&left.bounds));
    Line {
        label: f.label("register_bounded"),
        said: format!(" {answer} {moves} {after} {reply} {bounds_after}"),
        given: Given {
            call: if f.small {
                Call::SmallRegisterBounded
            } else {
                Call::RegisterBounded
            },
            vouched: f.vouched(),
            begins: cache.clone(),
            cache: Buffer(cache.len(), f.cache_len(), Shown::Digest),
            output: Buffer(90, request.reply_len, Shown::Digest),
            told: true,
            numbers: if f.small {
                vec![request.clock, 0, bounds.len() as u64]
            } else {
                vec![request.window, request.clock, bounds.len() as u64]
            },
            parts: vec![key.clone(), ad.clone(), ticket.clone(), begins(&bounds)],
            ..Given::default()
        },
    }
}

const FAULTS: [u8; 48] = [
    0, 10, 11, 19, 1, 180, 181, 182, 183, 184, 185, 186, 187, 188, 189, 21, 22, 23, 24, 25, 26, 31,
    32, 41, 42, 43, 131, 132, 141, 51, 52, 61, 71, 73, 81, 91, 92, 93, 101, 103, 111, 112, 171,
    191, 193, 194, 195, 178,
];
/// Each refusal with the next in this call's order, and some with those further on.
const PAIRS: [(u8, u8); 22] = [
    (11, 181),
    (181, 21),
    (21, 31),
    (31, 41),
    (41, 131),
    (131, 141),
    (141, 51),
    (51, 61),
    (61, 73),
    (73, 81),
    (81, 91),
    (91, 101),
    (101, 111),
    (111, 191),
    (11, 191),
    (186, 23),
    (185, 25),
    (187, 31),
    (181, 191),
    (51, 191),
    (61, 191),
    (101, 191),
];

pub fn fault_lines(family: Family) -> Vec<Line> {
    let alone = FAULTS.into_iter().map(|fault| (fault, 0));
    let faults = alone.chain(PAIRS);
    faults
        .map(|(one, next)| fault_line(Faults::of(family, one, next)))
        .collect()
}

/// The opening of the cache, whose later places then stay zeros.
pub fn lines() -> Vec<Line> {
    let mut lines = Vec::new();
    for family in Family::BOTH {
        lines.push(openings::told(family.number(), family.cache_len(CAPACITY)));
        lines.extend(form_lines(family));
        lines.extend(CASES.iter().map(|case| case_line(family, case).1));
        lines.extend(day(family).lines);
        lines.extend(fault_lines(family));
    }
    lines
}
