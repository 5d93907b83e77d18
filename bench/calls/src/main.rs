//! Speed of the proved library against plain Rust of the same rules, in one run: a row for each call, the calls of small registrars beside the full
//! ones, and what an IPv6 ask takes beside an IPv4 one. With the word `count` the rows are named and run for a profiler (bench/count).
mod bounds;
mod cache;
mod plainly;

use std::env;
use std::time::Duration;

use measure::{compare, count, row, table, Measured};
use sides::scene::{Family, FAMILIES, REQUESTS};
use sides::{COLUMNS, SIDES, SMALL_COLUMNS, SMALL_SIDES};

const CAPACITIES: [usize; 3] = [64, 256, 1000];
/// At which the calls of small registrars are measured: the most that they take.
const SMALL_CAPACITY: usize = 64;

/// Whether instructions are counted, by a profiler that runs this program, in place of time.
fn counting() -> bool {
    env::args().nth(1).is_some_and(|word| word == "count")
}

/// The sides' samplers, measured; where instructions are counted every request is made once, and nothing is timed.
fn measured<S: FnMut(u32) -> Duration>(samplers: [S; 3]) -> Measured<3> {
    if counting() {
        count(samplers, REQUESTS as u32);
        let nothing = [0.0; 3];
        return Measured {
            nanos: nothing,
            ratios: nothing,
        };
    }
    compare(samplers)
}

/// Prints a row of the table of calls; of a call without a cache family, capacity and live entries are none.
fn print_row(
    call: &str,
    family: Option<Family>,
    cache: Option<(usize, usize)>,
    measured: Measured<3>,
) {
    let number = |of: fn((usize, usize)) -> usize| {
        cache.map_or("-".to_string(), |cache| of(cache).to_string())
    };
    let (capacity, live) = (number(|cache| cache.0), number(|cache| cache.1));
    let family = family.map_or("-", Family::name);
    row(&[call, family, &capacity, &live], &measured.numbers());
}

fn main() {
    table(&["call", "family", "C", "live"], &COLUMNS);
    plainly::rows();
    for family in FAMILIES {
        for capacity in CAPACITIES {
            cache::rows(SIDES, family, capacity);
        }
    }
    for family in FAMILIES {
        bounds::rows(family);
    }
    for capacity in CAPACITIES {
        cache::mixed_pair(capacity);
    }
    table(&["small call", "family", "C", "live"], &SMALL_COLUMNS);
    for family in FAMILIES {
        cache::rows(SMALL_SIDES, family, SMALL_CAPACITY);
        bounds::small_rows(family, SMALL_CAPACITY);
    }
    if !counting() {
        cache::print_families();
        bounds::print_beside_register();
        bounds::print_chosen();
    }
}
