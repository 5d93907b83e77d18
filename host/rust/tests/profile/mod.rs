//! The small-registrar profile, an implementation against the oracle, byte for byte: the stored requests, and drawn calls.
use crate::oracle::bounds::{Bound, Bounds};
use crate::oracle::cache::{Cache, Entry};
use crate::oracle::family::Family;
use crate::oracle::record::{Ad, Ticket};
use crate::oracle::registrar::{self, Registered, Request};
use crate::oracle::small::{self, STAMP_AGE_MAX, WINDOW};
use crate::oracle::{CLOCK_MAX, LIFETIME};
use crate::stored::bounds::{advertiser, left_by};
use crate::stored::small::lines;
use crate::stored::visits::left;
use crate::stored::{digest, hex, Call, Given, Shown, UNTOUCHED};

/// An implementation, with answers as C has them. The window of a request is not looked at.
pub trait Small {
    fn open(&self, cache: &mut [u8], family: u64) -> i64;
    fn register(
        &self,
        cache: &mut [u8],
        request: &Request,
        reply: &mut [u8],
        moves: &mut u64,
    ) -> i64;
    fn register_bounded(
        &self,
        cache: &mut [u8],
        bounds: &mut [u8],
        request: &Request,
        reply: &mut [u8],
        moves: &mut u64,
    ) -> i64;
    fn withdraw(
        &self,
        cache: &mut [u8],
        service: &[u8],
        peer: &[u8],
        clock: u64,
        vouched: u8,
    ) -> i64;
    fn get_ads(&self, cache: &[u8], clock: u64, service: &[u8], list: &mut [u8]) -> i64;
    fn newest(
        &self,
        first: &[u8],
        second: &[u8],
        clock: u64,
        service: &[u8],
        offset: &mut u64,
    ) -> i64;
}

/// A buffer as a line shows it.
fn shown(how: Shown, bytes: &[u8]) -> String {
    match how {
        Shown::Not => String::new(),
        Shown::Bytes if bytes.is_empty() => String::new(),
        Shown::Bytes => format!(" {}", hex(bytes)),
        _ => format!(" {}", digest(bytes)),
    }
}

/// What a line says of a search.
fn found(calls: &impl Small, given: &Given, first: &[u8]) -> String {
    let mut second = given.parts[0].clone();
    second.resize(given.numbers[1] as usize, 0);
    let mut offset = UNTOUCHED.into();
    let service = &given.parts[1];
    let answer = calls.newest(first, &second, given.numbers[0], service, &mut offset);
    if answer < 1 {
        return format!(" {answer} {offset} {}", -answer);
    }
    let holder = if answer == 1 { first } else { &second };
    let size = Family::of_head(holder[0]).unwrap().body_len();
    let body = &holder[offset as usize..][..size];
    format!(" {answer} {offset} 0 {}", hex(body))
}

/// What a line says of one of the profile's other calls, which changes the cache.
fn said(calls: &impl Small, given: &Given, kept: &mut [u8]) -> String {
    let (numbers, parts) = (&given.numbers, &given.parts);
    let mut output = [UNTOUCHED; 1_551];
    let mut bounds = parts.get(3).cloned().unwrap_or_default();
    bounds.resize(numbers.get(2).map_or(0, |length| *length as usize), 0);
    let mut moves = UNTOUCHED.into();
    let (lent, out) = (&mut kept[..given.cache.1], &mut output[..given.output.1]);
    let number = match given.call {
        Call::SmallOpen => calls.open(lent, numbers[0]),
        Call::SmallWithdraw => {
            calls.withdraw(lent, &parts[0], &parts[1], numbers[0], given.vouched)
        }
        Call::SmallGetAds => calls.get_ads(lent, numbers[0], &parts[0], out),
        call => {
            let request = Request {
                key: &parts[0],
                window: 0,
                clock: numbers[0],
                ad: &parts[1],
                vouched: given.vouched,
                ticket: &parts[2],
                reply_len: out.len(),
            };
            match call {
                Call::SmallRegister => calls.register(lent, &request, out, &mut moves),
                _ => calls.register_bounded(lent, &mut bounds, &request, out, &mut moves),
            }
        }
    };
    let told = if given.told {
        format!(" {moves}")
    } else {
        String::new()
    };
    let cache = shown(given.cache.2, &kept[..given.cache.0]);
    let mut buffers = format!(
        "{cache}{}",
        shown(given.output.2, &output[..given.output.0])
    );
    if let Call::SmallRegisterBounded = given.call {
        buffers += &shown(given.output.2, &bounds);
    }
    format!(" {number}{told}{buffers}")
}

/// What the full calls among the lines leave, by the oracle.
fn by_the_full(given: &Given, kept: &mut [u8]) {
    let lent = &mut kept[..given.cache.1];
    let after = match given.call {
        Call::Open => registrar::open(lent, given.numbers[0]).unwrap(),
        Call::Register => {
            let request = Request {
                key: &given.parts[0],
                window: given.numbers[0],
                clock: given.numbers[1],
                ad: &given.parts[1],
                vouched: given.vouched,
                ticket: &given.parts[2],
                reply_len: given.output.1,
            };
            left(lent, registrar::register(lent, &request)).cache
        }
        _ => return,
    };
    lent.copy_from_slice(&after);
}

/// Every request of the profile that is stored for `conformance`: the program's line, made by the implementation.
pub fn stored_requests(calls: &impl Small) {
    let mut kept = vec![UNTOUCHED; 163_192];
    let mut made = 0;
    for line in lines() {
        let given = &line.given;
        if given.anew {
            kept.fill(UNTOUCHED);
        }
        kept[..given.begins.len()].copy_from_slice(&given.begins);
        let told = match given.call {
            Call::Open | Call::Register | Call::GetAds => {
                by_the_full(given, &mut kept);
                continue;
            }
            Call::SmallNewest => found(calls, given, &kept[..given.cache.1]),
            _ => said(calls, given, &mut kept),
        };
        assert_eq!(told, line.said, "{}", line.label);
        made += 1;
    }
    assert!(made > 700, "{made}");
}

struct Random(u64);

impl Random {
    fn below(&mut self, end: u64) -> u64 {
        self.0 = self
            .0
            .wrapping_mul(6364136223846793005)
            .wrapping_add(1442695040888963407);
        (self.0 >> 33) % end
    }

    fn pick<T: Copy>(&mut self, from: &[T]) -> T {
        from[self.below(from.len() as u64) as usize]
    }
}

const KEY: [u8; 32] = [0x4b; 32];

/// A stamp about an edge of the range at this clock, or anywhere.
fn stamp(random: &mut Random, now: u64) -> u64 {
    let near = random.below(5).wrapping_sub(2);
    let about = random.pick(&[
        now,
        now,
        now.wrapping_sub(STAMP_AGE_MAX),
        0,
        u64::MAX,
        1 << 40,
    ]);
    match random.below(4) {
        0 => now.saturating_sub(random.below(STAMP_AGE_MAX)),
        1 => now,
        _ => about.wrapping_add(near),
    }
}

fn ad(random: &mut Random, family: Family, now: u64) -> Ad {
    let [service, peer, first] = [3, 5, 250].map(|end| random.below(end) as u8);
    Ad {
        stamp: stamp(random, now),
        ..advertiser(family, service, peer, first)
    }
}

/// A well-formed cache, of more than 64 places now and then, whose entries have any stamps.
fn cache(random: &mut Random, family: Family, now: u64) -> Cache {
    let capacity = random.pick(&[1, 2, 3, 20, 63, 64, 64, 64, 65, 66, 1000]);
    let count = random.below(capacity.min(40) + 1);
    let mut times: Vec<u64> = (0..count)
        .map(|_| now.saturating_sub(random.below(LIFETIME + 100_000)))
        .collect();
    times.sort();
    let clock = times.last().map_or(0, |last| *last);
    let entries = times.into_iter().map(|accepted| {
        let mut entry = Entry::new(accepted, ad(random, family, now));
        entry.withdrawn = random.below(8) == 0;
        entry
    });
    let entries = entries.collect();
    Cache::holding(family, capacity as usize, clock, entries)
}

/// Bounds of a few places, mostly of their form.
fn bounds(random: &mut Random, family: Family, now: u64) -> Vec<u8> {
    let places = 1 + random.below(4) as usize;
    let mut held: Vec<Bound> = Vec::new();
    for _ in 0..random.below(places as u64 + 1) {
        let bound = Bound::of(&ad(random, family, now), now + random.below(4));
        if held.iter().all(|other| other.address != bound.address) {
            held.push(bound);
        }
    }
    let mut bytes = Bounds::holding(family, places, held).bytes();
    bytes.truncate(bytes.len() - usize::from(random.below(12) == 0));
    bytes
}

/// How often each number was answered.
#[derive(Default)]
struct Seen([u32; 22]);

impl Seen {
    fn note(&mut self, answer: i64) {
        self.0[match answer {
            0 => 0,
            refused if refused < 0 => -refused as usize,
            _ => 21,
        }] += 1;
    }

    fn all(&self, numbers: &[usize]) {
        for number in numbers {
            assert!(self.0[*number] > 20, "{number}: {:?}", self.0);
        }
    }
}

/// What is asked by a drawn REGISTER.
struct Asked {
    key: Vec<u8>,
    ad: Vec<u8>,
    ticket: Vec<u8>,
    clock: u64,
    vouched: u8,
    reply_len: usize,
}

impl Asked {
    fn draw(random: &mut Random, family: Family, now: u64) -> Asked {
        let own = ad(random, family, now);
        let mut record = own.record();
        let rarely = |random: &mut Random| random.below(25) == 0;
        if rarely(random) {
            record[0] ^= 1;
        }
        record.truncate(record.len() - usize::from(rarely(random)));
        let issued = now.saturating_sub(random.pick(&[1, 2, 9_000, 10_001, 10_002]));
        let most = 1 << random.below(34);
        let ticket = Ticket {
            ad_hash: own.hash(),
            first: issued.saturating_sub(random.below(most)),
            issued,
            wait: 1 + random.below(2),
        };
        let mut ticket = ticket.record(&KEY);
        match random.below(8) {
            0..=2 => ticket.clear(),
            3 => ticket[60] ^= 1,
            _ => {}
        }
        Asked {
            key: KEY[usize::from(rarely(random))..].to_vec(),
            ad: record,
            ticket,
            clock: if rarely(random) { CLOCK_MAX + 1 } else { now },
            vouched: u8::from(!rarely(random)),
            reply_len: 89 - usize::from(rarely(random)),
        }
    }

    fn request(&self) -> Request<'_> {
        Request {
            key: &self.key,
            window: WINDOW,
            clock: self.clock,
            ad: &self.ad,
            vouched: self.vouched,
            ticket: &self.ticket,
            reply_len: self.reply_len,
        }
    }
}

/// The oracle's two sets: every answer but 20 is the full call's.
fn beside_the_full(cache: &[u8], request: &Request, small: &Result<(Registered, Vec<u8>), i64>) {
    let fits = Cache::read(cache).is_none_or(|cache| cache.capacity <= 64);
    if fits && *small != Err(20) {
        assert_eq!(*small, registrar::register(cache, request));
    }
}

fn registers(calls: &impl Small, random: &mut Random, family: Family, now: u64, seen: &mut Seen) {
    let start = cache(random, family, now).bytes();
    let asked = Asked::draw(random, family, now);
    let request = asked.request();
    let expected = small::register(&start, &request);
    beside_the_full(&start, &request, &expected);
    let expected = left(&start, expected);
    let untouched = || vec![UNTOUCHED; request.reply_len];
    let (mut cache, mut reply, mut moves) = (start.clone(), untouched(), UNTOUCHED.into());
    let answer = calls.register(&mut cache, &request, &mut reply, &mut moves);
    seen.note(answer);
    let replied = expected.reply.unwrap_or(untouched());
    let told = (expected.answer, expected.moves, replied, expected.cache);
    assert_eq!((answer, moves, reply, cache), told);

    let lent = bounds(random, family, now);
    let expected = left_by(small::register_bounded, &start, &lent, &request);
    let (mut cache, mut bounds) = (start, lent);
    let (mut reply, mut moves) = (untouched(), UNTOUCHED.into());
    let answer = calls.register_bounded(&mut cache, &mut bounds, &request, &mut reply, &mut moves);
    seen.note(answer);
    let replied = expected.reply.unwrap_or(untouched());
    let told = (expected.answer, expected.moves, replied);
    assert_eq!((answer, moves, reply), told);
    assert_eq!((cache, bounds), (expected.cache, expected.bounds));
}

/// Drawn REGISTERs, with bounds and without.
pub fn drawn_registers(calls: &impl Small) {
    let mut seen = Seen::default();
    let mut random = Random(14);
    for turn in 0..6_000 {
        let family = Family::BOTH[turn % 2];
        let now = random.pick(&[5_000_000_000, STAMP_AGE_MAX + 1, 100_000_000, 2_000_000]);
        registers(calls, &mut random, family, now, &mut seen);
    }
    seen.all(&[0, 1, 2, 3, 4, 13, 5, 20, 6, 8, 11, 18, 19, 21]);
}

/// Drawn openings, withdrawals, listings and searches.
pub fn drawn_others(calls: &impl Small) {
    let mut seen = Seen::default();
    let mut random = Random(15);
    for turn in 0..4_000 {
        let family = Family::BOTH[turn % 2];
        let now = random.pick(&[5_000_000_000, STAMP_AGE_MAX, 100_000_000]);
        let start = cache(&mut random, family, now).bytes();
        let service = vec![random.below(4) as u8; random.pick(&[32, 32, 32, 31])];

        let expected = small::get_ads(&start, now, &service, family.list_len());
        let mut list = vec![UNTOUCHED; family.list_len()];
        let answer = calls.get_ads(&start, now, &service, &mut list);
        let told = expected
            .as_ref()
            .map_or_else(|n| -n, |ads| ads.len() as i64);
        let front = expected.unwrap_or_default().concat();
        assert_eq!((answer, &list[..front.len()]), (told, &front[..]));
        assert!(list[front.len()..].iter().all(|byte| *byte == UNTOUCHED));
        seen.note(answer);

        let other = random.pick(&Family::BOTH);
        let second = cache(&mut random, other, now).bytes();
        let expected = small::newest(&start, &second, now, &service);
        let told = match expected {
            Err(refusal) => (-refusal, UNTOUCHED.into()),
            Ok(None) => (0, UNTOUCHED.into()),
            Ok(Some((which, at))) => (which, at as u64),
        };
        let mut offset = UNTOUCHED.into();
        let answer = calls.newest(&start, &second, now, &service, &mut offset);
        assert_eq!((answer, offset), told);

        let peer = vec![random.below(5) as u8; 32];
        let expected = small::withdraw(&start, &service, &peer, now, 1);
        let mut after = start.clone();
        let answer = calls.withdraw(&mut after, &service, &peer, now, 1);
        assert_eq!(answer, expected.as_ref().map_or_else(|n| -n, |_| 0));
        assert_eq!(after, expected.unwrap_or(start));
        seen.note(answer);

        let capacity = random.pick(&[1, 2, 63, 64, 65, 66, 999, 1000, 1001]);
        let length = family.cache_len(capacity) - random.below(2) as usize;
        let number = random.pick(&[4, 6]);
        let start = vec![UNTOUCHED; length];
        let expected = small::open(&start, number);
        let mut after = start.clone();
        let answer = calls.open(&mut after, number);
        assert_eq!(answer, expected.as_ref().map_or_else(|n| -n, |_| 0));
        assert_eq!(after, expected.unwrap_or(start));
    }
    seen.all(&[0, 1, 2, 17, 21]);
}
