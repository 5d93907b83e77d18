//! Interleaved measurement of implementations of one call, and its tables.
//!
//! The implementations take turns, a sample each, and who goes first moves on by one from turn to turn, so that a change of the machine's
//! speed falls on all. A sample repeats the call for about a third of a millisecond. The times are medians; a ratio is the median of
//! the ratios of neighbouring samples.
use std::time::{Duration, Instant};

/// Samples of each; fewer for a call that is slower than a sample.
const SAMPLES: f64 = 301.0;
const FEWEST_SAMPLES: f64 = 75.0;
const SAMPLE_NANOS: f64 = 300_000.0;

/// Nanoseconds a call of each implementation, and how many times as long the first takes as each.
#[derive(Clone, Copy)]
pub struct Measured<const N: usize> {
    pub nanos: [f64; N],
    pub ratios: [f64; N],
}

impl<const N: usize> Measured<N> {
    /// Of the samples of each, taken in turns.
    pub fn of(times: [Vec<f64>; N]) -> Self {
        let ratio = |of: &Vec<f64>| median(times[0].iter().zip(of).map(|(a, b)| a / b).collect());
        Measured {
            ratios: times.each_ref().map(ratio),
            nanos: times.map(median),
        }
    }

    /// The columns of a table: the times, then the ratios to all but the first.
    pub fn numbers(&self) -> Vec<f64> {
        [&self.nanos[..], &self.ratios[1..]].concat()
    }
}

/// Measures samplers: each runs its call so many times and says how long that took.
pub fn compare<S: FnMut(u32) -> Duration, const N: usize>(mut samplers: [S; N]) -> Measured<N> {
    for sampler in &mut samplers {
        sampler(2);
    }
    let once = samplers[0](4).as_nanos() as f64 / 4.0;
    let repeats = (SAMPLE_NANOS / once.max(1.0)).ceil().clamp(1.0, 1e6) as u32;
    let samples = (SAMPLES * SAMPLE_NANOS / once).clamp(FEWEST_SAMPLES, SAMPLES) as usize;
    let mut times = [const { Vec::new() }; N];
    for turn in 0..samples {
        for which in in_turn::<N>(turn) {
            let took = samplers[which](repeats);
            times[which].push(took.as_nanos() as f64 / f64::from(repeats));
        }
    }
    Measured::of(times)
}

/// The order of a turn.
pub fn in_turn<const N: usize>(turn: usize) -> [usize; N] {
    std::array::from_fn(|place| (turn + place) % N)
}

/// Runs each sampler's call so many times, for a profiler that counts instructions and starts anew at each [`count_ends`]: the
/// first count is of what came before.
pub fn count<S: FnMut(u32) -> Duration, const N: usize>(samplers: [S; N], repeats: u32) {
    count_ends();
    for mut sampler in samplers {
        sampler(repeats);
        count_ends();
    }
}

/// A place in the program that a profiler knows by its name.
#[no_mangle]
#[inline(never)]
pub fn count_ends() {
    std::hint::black_box(());
}

/// Times the call so many times in a row.
pub fn in_a_row(mut call: impl FnMut()) -> impl FnMut(u32) -> Duration {
    move |repeats| {
        let start = Instant::now();
        for _ in 0..repeats {
            call();
        }
        start.elapsed()
    }
}

/// Times each call by itself, after a preparation that is not timed.
pub fn each<T>(
    mut state: T,
    mut prepare: impl FnMut(&mut T),
    mut call: impl FnMut(&mut T),
) -> impl FnMut(u32) -> Duration {
    move |repeats| {
        let mut total = Duration::ZERO;
        for _ in 0..repeats {
            prepare(&mut state);
            let start = Instant::now();
            call(&mut state);
            total += start.elapsed();
        }
        total
    }
}

fn median(mut values: Vec<f64>) -> f64 {
    values.sort_by(f64::total_cmp);
    values[values.len() / 2]
}

/// A table's first line: the names of its columns, those of words before those of numbers. What stands between tabs is laid out, and
/// brought together over several runs, by bench/tables.py.
pub fn table(words: &[&str], numbers: &[&str]) {
    println!("#\t{}\t|\t{}", words.join("\t"), numbers.join("\t"));
}

/// A row of the table.
pub fn row(words: &[&str], numbers: &[f64]) {
    let numbers: Vec<String> = numbers
        .iter()
        .map(|number| format!("{number:.4}"))
        .collect();
    println!("{}\t|\t{}", words.join("\t"), numbers.join("\t"));
}
