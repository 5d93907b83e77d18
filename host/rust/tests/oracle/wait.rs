//! "The wait": the recipe, and the exact wait as a fraction.
use super::natural::Natural;

/// What the wait depends on: capacity C, live entries c, those of the newcomer's service s, similarity score p over the address's bits:
/// p/32, and p/128 by document 02's order 10, "in the recipe and in the exact wait".
#[derive(Clone, Copy, Debug, PartialEq, Eq)]
pub struct Load {
    pub capacity: u64,
    pub c: u64,
    pub s: u64,
    pub p: u64,
    pub bits: u64,
}

/// "There are 8,192 grains to the millisecond": a tick is document 01's grain.
const TICKS: u128 = 8_192;

/// The least whole number not below top/under.
fn rounded_up(top: u128, under: u128) -> u128 {
    let below = top / under;
    if below * under < top {
        below + 1
    } else {
        below
    }
}

impl Load {
    /// s/C + p/bits + G over C·bits·10,000,000.
    fn share(&self) -> (u128, u128) {
        let [capacity, s, p, bits] = [self.capacity, self.s, self.p, self.bits].map(u128::from);
        let under = capacity * bits * 10_000_000;
        (
            s * bits * 10_000_000 + p * capacity * 10_000_000 + capacity * bits,
            under,
        )
    }

    /// The working after `factors` factors, in ticks; nothing where it has reached 2^53 by then.
    pub fn ticks(&self, factors: u32) -> Option<u128> {
        let [capacity, c] = [self.capacity, self.c].map(u128::from);
        let (top, under) = self.share();
        let mut working = rounded_up(7_372_800_000 * top, under);
        for _ in 0..factors {
            if working >= 1 << 53 {
                return None;
            }
            working = rounded_up(working * capacity, capacity - c);
        }
        (working < 1 << 53).then_some(working)
    }

    /// The wait in milliseconds.
    pub fn wait(&self) -> u64 {
        if self.c == self.capacity {
            return 1 << 40;
        }
        match self.ticks(10) {
            Some(working) => rounded_up(working, TICKS) as u64,
            None => 1 << 40,
        }
    }

    /// f = (C/(C − c))^10 as a fraction, for c < C.
    fn occupancy(&self) -> (Natural, Natural) {
        let power = |number: u64| Natural::of(number).power(10);
        (power(self.capacity), power(self.capacity - self.c))
    }

    /// The exact wait E·f·(s/C + p/bits + G) as a fraction, for c < C.
    pub fn exact(&self) -> (Natural, Natural) {
        let (top, under) = self.occupancy();
        let (share_top, share_under) = self.share();
        let top = Natural::of(900_000)
            .times(&top)
            .times(&Natural::of(share_top as u64));
        (top, under.times(&Natural::of(share_under as u64)))
    }

    /// Whether this many milliseconds are at least the exact wait.
    pub fn reaches_exact(&self, millis: u64) -> bool {
        let (top, under) = self.exact();
        Natural::of(millis).times(&under) >= top
    }

    /// Whether this many milliseconds are at least the exact wait + 1 + 11·f/8192.
    pub fn reaches_bound(&self, millis: u64) -> bool {
        let (exact_top, exact_under) = self.exact();
        let (f_top, f_under) = self.occupancy();
        let ticks = Natural::of(8_192);
        // All three fractions over exact_under · f_under · 8192.
        let least = exact_top
            .times(&f_under)
            .times(&ticks)
            .plus(&exact_under.times(&f_under).times(&ticks))
            .plus(&Natural::of(11).times(&f_top).times(&exact_under));
        Natural::of(millis)
            .times(&exact_under)
            .times(&f_under)
            .times(&ticks)
            >= least
    }
}
