//! Runs of calls on one cache: advertisers that ask, wait and come back, on time or not, with their own ticket or another.
use super::calls::Calls;
use super::compare::Compare;
use super::inputs::{ad, address, id, unwritten, CAPACITIES, KEY};
use super::random::Random;
use crate::oracle::cache::{Cache, Entry};
use crate::oracle::family::Family;
use crate::oracle::record::{number, Ad};
use crate::oracle::{CLOCK_MAX, LIFETIME, RECORDED_WINDOW, USUAL_WINDOW, WINDOWS};

/// An advertiser and the ticket that it holds; empty for none.
struct Advertiser {
    ad: Ad,
    ticket: Vec<u8>,
}

impl Advertiser {
    /// When the ticket it holds is first taken.
    fn due(&self) -> Option<u64> {
        let time = |at: usize| number(&self.ticket[at..at + 8]);
        (!self.ticket.is_empty()).then(|| time(41) + time(49))
    }
}

/// The windows that days and tickets are tried under.
const SOME_WINDOWS: [u64; 6] = [1, 2, RECORDED_WINDOW, USUAL_WINDOW, LONGEST - 1, LONGEST];
const LONGEST: u64 = *WINDOWS.end();

/// How many answers of each sort a run gave.
#[derive(Clone, Copy, Debug, Default)]
struct Tally {
    /// By refusal, from 1 on.
    refused: [u64; 17],
    confirmed: u64,
    waits: u64,
    /// Of the two, those that moved entries.
    confirmed_moving: u64,
    waits_moving: u64,
    withdrawn: u64,
    /// Entries that calls removed as expired.
    expired: u64,
}

impl Tally {
    /// Adds up a day; every sort of answer that a run can give must have been seen in the end.
    fn add(&mut self, day: Tally) {
        for (total, day) in self.refused.iter_mut().zip(day.refused) {
            *total += day;
        }
        self.confirmed += day.confirmed;
        self.waits += day.waits;
        self.confirmed_moving += day.confirmed_moving;
        self.waits_moving += day.waits_moving;
        self.withdrawn += day.withdrawn;
        self.expired += day.expired;
    }

    fn refused(&mut self, answer: i64) {
        self.refused[(-answer - 1) as usize] += 1;
    }

    /// Whether all of these numbers are above 0.
    fn seen<const N: usize>(&self, numbers: [u64; N]) {
        assert!(numbers.iter().all(|number| *number > 0), "{self:?}");
    }
}

/// A run of calls on one cache: what it was at the start, what it is, and what was answered since.
struct Run<'a, C: Calls> {
    both: &'a Compare<'a, C>,
    start: Cache,
    cache: Vec<u8>,
    tally: Tally,
}

impl<C: Calls> Run<'_, C> {
    /// Makes a call on the cache, then compares the counters with what was answered and removed: entries that stand in the cache before
    /// it and not in the one after it.
    fn call(&mut self, call: impl FnOnce(&Compare<C>, &mut [u8]) -> i64, confirms: bool) -> i64 {
        let before = Cache::read(&self.cache).unwrap();
        let answer = call(self.both, &mut self.cache);
        let after = Cache::read(&self.cache).unwrap();
        let confirmed = u64::from(confirms && answer == 0);
        self.tally.confirmed += confirmed;
        let held = before.entries.len() as u64 + confirmed;
        self.tally.expired += held - after.entries.len() as u64;
        let gone = |entry: &&Entry| answer >= 0 && !entry.live(after.clock);
        let expired = before.entries.iter().filter(gone).count();
        assert_eq!(held - after.entries.len() as u64, expired as u64);
        let Tally {
            confirmed, expired, ..
        } = self.tally;
        let counters = (after.confirmed, after.expired);
        let told = (
            self.start.confirmed.wrapping_add(confirmed),
            self.start.expired.wrapping_add(expired),
        );
        assert_eq!(counters, told);
        let held = after.entries.len() as u64;
        assert_eq!(after.confirmed, after.expired.wrapping_add(held));
        answer
    }
}

/// A registrar's day: many steps on one cache under one window, with the clock moving on. In some, somebody withdraws.
fn day<C: Calls>(
    both: &Compare<C>,
    random: &mut Random,
    held: Cache,
    window: u64,
    steps: usize,
) -> Tally {
    let (mut now, family) = (held.clock, held.family);
    let mut run = Run {
        both,
        cache: held.bytes(),
        start: held,
        tally: Tally::default(),
    };
    let mut reply = unwritten(89);
    let mut advertisers: Vec<Advertiser> = (0..24)
        .map(|peer| {
            let mut ad = ad(random, family, 4, 1);
            ad.peer = id(10_000 + peer);
            Advertiser {
                ad,
                ticket: Vec::new(),
            }
        })
        .collect();
    for _ in 0..steps {
        // The advertiser that is due next, or any.
        let next = (0..advertisers.len())
            .filter(|i| advertisers[*i].due().is_some_and(|due| due + window >= now))
            .min_by_key(|i| advertisers[*i].due());
        let any = random.index(advertisers.len());
        let chosen = next.filter(|_| random.chance(70)).unwrap_or(any);
        let mut ticket = advertisers[chosen].ticket.clone();
        let due = advertisers[chosen].due().unwrap_or(now);
        let (mut clock, mut vouched) = (now, 1);
        match random.below(20) {
            0 => clock = now.max(due.saturating_sub(1)),
            1 => clock = now.max(due + window + 1),
            2 => {
                if let Some(byte) = ticket.get_mut(random.index(89)) {
                    *byte ^= 1 << random.below(8);
                }
            }
            3 => ticket = advertisers[random.index(advertisers.len())].ticket.clone(),
            4 => ticket.clear(),
            5 => vouched = random.pick(&[0, 2, 255]),
            6 => clock = now.saturating_sub(random.below(3)),
            7 => clock = now + random.below(LIFETIME / 3),
            8 => advertisers[chosen].ad.stamp += 1,
            _ => clock = now.max(due + random.pick(&[0, 0, 1, window - 1, window])),
        }
        let ad = advertisers[chosen].ad.record();
        let mut moves = 0;
        let answer = run.call(
            |both, cache| {
                let (answer, moved) = both.register_moving(
                    cache, &KEY, window, clock, &ad, vouched, &ticket, &mut reply,
                );
                moves = moved;
                answer
            },
            true,
        );
        let moved = u64::from(moves > 0);
        match answer {
            0 => {
                run.tally.confirmed_moving += moved;
                advertisers[chosen].ticket.clear();
            }
            1.. => {
                run.tally.waits += 1;
                run.tally.waits_moving += moved;
                advertisers[chosen].ticket = reply.clone();
            }
            _ => {
                run.tally.refused(answer);
                if answer == -10 || answer == -11 && clock > due {
                    advertisers[chosen].ticket.clear();
                }
            }
        }
        if answer >= 0 {
            now = clock;
        }
        if random.chance(10) {
            let quits = &advertisers[random.index(advertisers.len())].ad;
            let later = now + random.pick(&[0, 0, 1, LIFETIME / 50]);
            let (service, peer) = (&quits.service, &quits.peer);
            match run.call(
                |both, cache| both.withdraw(cache, service, peer, later, 1),
                false,
            ) {
                0 => {
                    run.tally.withdrawn += 1;
                    now = later;
                }
                refusal => run.tally.refused(refusal),
            }
        }
        if random.chance(25) {
            let later = now + random.below(LIFETIME);
            let service = id(random.below(4));
            let mut list = unwritten(family.list_len());
            both.get_ads(&run.cache, later, &service, &mut list);
        }
        if now + 4 * LIFETIME > CLOCK_MAX {
            break;
        }
    }
    run.tally
}

fn steps(capacity: usize) -> usize {
    match capacity {
        0..=64 => 4_000,
        65..=256 => 2_000,
        _ => 1_000,
    }
}

/// From an opened cache.
pub fn honest<C: Calls>(calls: &C, family: Family) {
    let both = Compare(calls);
    let mut total = Tally::default();
    for capacity in CAPACITIES {
        let mut random = Random::new(100 + capacity as u64);
        let mut bytes = random.bytes(family.cache_len(capacity));
        assert_eq!(both.open(&mut bytes, family.number()), 0);
        let opened = Cache::read(&bytes).unwrap();
        assert_eq!((opened.confirmed, opened.expired), (0, 0));
        let window = random.pick(&SOME_WINDOWS);
        let answered = day(&both, &mut random, opened, window, steps(capacity));
        total.add(answered);
    }
    total.seen([3, 5, 6, 7, 8, 10, 11, 17].map(|refusal| total.refused[refusal - 1]));
    total.seen([total.confirmed, total.waits, total.withdrawn, total.expired]);
}

/// From a cache that is nearly full of entries which expire during the day.
pub fn crowded<C: Calls>(calls: &C, family: Family) {
    let both = Compare(calls);
    let mut total = Tally::default();
    for capacity in CAPACITIES {
        let mut random = Random::new(200 + capacity as u64);
        let start = random.pick(&[LIFETIME, 77_000_000, 1 << 39]);
        let count = capacity - random.index(capacity / 8 + 1);
        let entries = (0..count as u64)
            .map(|slot| Entry {
                accepted: start - LIFETIME + slot * LIFETIME / count as u64,
                withdrawn: random.chance(20),
                ad: ad(&mut random, family, 40, 2_000),
            })
            .collect();
        let mut held = Cache::holding(family, capacity, start, entries);
        // Both counters go on past 2^64 − 1 in the course of the day.
        held.expired = 0u64.wrapping_sub(random.below(3) + 1);
        held.confirmed = held.confirmed.wrapping_add(held.expired);
        let window = random.pick(&SOME_WINDOWS);
        let answered = day(&both, &mut random, held, window, steps(capacity));
        total.add(answered);
    }
    total.seen([total.confirmed, total.waits, total.withdrawn, total.expired]);
    total.seen([total.confirmed_moving, total.waits_moving]);
}

/// A ticket shown twice inside its window is judged anew; after a confirmation it meets refusal 6.
pub fn shown_again<C: Calls>(calls: &C, family: Family) {
    let both = Compare(calls);
    let mut random = Random::new(14);
    for _ in 0..200 {
        let capacity = random.pick(&[1, 2, 3, 64, 256]);
        let window = random.pick(&SOME_WINDOWS);
        let mut bytes = Cache::empty(family, capacity).bytes();
        let newcomer = ad(&mut random, family, 3, 50).record();
        let mut ticket = unwritten(89);
        let now = 1 + random.below(1 << 30);
        let wait = both.register(
            &mut bytes,
            &KEY,
            window,
            now,
            &newcomer,
            1,
            &[],
            &mut ticket,
        );
        assert!(wait > 0);
        let due = now + wait as u64;
        for late in [0, 0, random.below(window), window, window + 1] {
            let (clock, mut reply) = (due + late, unwritten(89));
            both.register(
                &mut bytes, &KEY, window, clock, &newcomer, 1, &ticket, &mut reply,
            );
        }
        // A copy of the cache from before: the same ticket is taken again.
        let mut fresh = Cache::empty(family, capacity).bytes();
        let mut reply = unwritten(89);
        let again = both.register(
            &mut fresh, &KEY, window, due, &newcomer, 1, &ticket, &mut reply,
        );
        assert_eq!(again, 0);
    }
}

/// Who waits under a quiet address and comes back under a crowded one is refused, however long it has stayed, and so is who renews
/// anything else of its advertisement. The advertisement as it was is admitted.
pub fn moved<C: Calls>(calls: &C, family: Family) {
    let both = Compare(calls);
    let mut random = Random::new(20);
    for _ in 0..100 {
        let mut quiet = ad(&mut random, family, 1, 1);
        quiet.peer = id(10_000);
        quiet.address = address(family, 7);
        quiet.address[0] ^= 0x80;
        let start = LIFETIME + random.below(1 << 30);
        let entries = (0..4)
            .map(|slot| {
                let mut ad = ad(&mut random, family, 3, 50);
                ad.address = address(family, slot);
                Entry::new(start, ad)
            })
            .collect();
        let held = Cache::holding(family, 16, start, entries);
        let mut crowded = quiet.clone();
        crowded.address = address(family, 9);
        assert!(held.load(start, &crowded).wait() > held.load(start, &quiet).wait());
        let mut renewed = quiet.clone();
        renewed.stamp += 1;
        let mut signed = quiet.clone();
        signed.signature[random.index(64)] ^= 1 << random.below(8);
        let (mut cache, mut ticket) = (held.bytes(), unwritten(89));
        let mut call = |clock, ad: &Ad, ticket: &[u8], reply: &mut [u8]| {
            let (ad, window) = (ad.record(), USUAL_WINDOW);
            both.register(&mut cache, &KEY, window, clock, &ad, 1, ticket, reply)
        };
        let wait = call(start, &quiet, &[], &mut ticket);
        assert!(wait > 0);
        let due = start + wait as u64;
        for other in [crowded, renewed, signed] {
            let mut reply = unwritten(89);
            assert_eq!(call(due, &other, &ticket, &mut reply), -10);
        }
        assert_eq!(call(due, &quiet, &ticket, &mut unwritten(89)), 0);
    }
}

/// A ticket written under one window and brought back under another, on both sides of both ends: the window of the return decides.
pub fn every_window<C: Calls>(calls: &C, family: Family) {
    let both = Compare(calls);
    let mut random = Random::new(18);
    let newcomer = ad(&mut random, family, 3, 50).record();
    let mut drawn: Vec<u64> = (0..40).map(|_| 1 + random.below(LONGEST)).collect();
    drawn.extend(SOME_WINDOWS);
    for window in drawn {
        let (now, written_under) = (1 + random.below(1 << 30), random.pick(&SOME_WINDOWS));
        let mut cache = Cache::empty(family, 4).bytes();
        let mut ticket = unwritten(89);
        let wait = both.register(
            &mut cache,
            &KEY,
            written_under,
            now,
            &newcomer,
            1,
            &[],
            &mut ticket,
        );
        let due = now + wait as u64;
        let ends = [
            (due - 1, -11),
            (due, 0),
            (due + window, 0),
            (due + window + 1, -11),
        ];
        for (clock, expected) in ends {
            let (mut after, mut reply) = (cache.clone(), unwritten(89));
            let answer = both.register(
                &mut after, &KEY, window, clock, &newcomer, 1, &ticket, &mut reply,
            );
            assert_eq!(answer, expected, "window {window}, at {clock}, due {due}");
        }
    }
    for window in [0, LONGEST + 1, 65_536, 1 << 32, 1 << 63, u64::MAX] {
        for clock in [0, CLOCK_MAX + 1] {
            let mut cache = Cache::empty(family, 4).bytes();
            let mut reply = unwritten(89);
            let answer = both.register(
                &mut cache,
                &KEY,
                window,
                clock,
                &newcomer,
                1,
                &[],
                &mut reply,
            );
            assert_eq!(answer, -2, "window {window}");
        }
    }
}
