//! The rush: a hundred thousand asks of each row, of the proved library and of plain Rust, the same bytes in the same order, each on the
//! cache that it left. bench/rush, bench/plot and bench/count run it:
//!
//!     bench-asks times N      every row with N asks: the times and the ratios, where everything was equal
//!     bench-asks answers N    every row with N asks, compared after each ask; nothing is timed
//!     bench-asks curve N      first asks by capacity and by live entries
//!     bench-asks memory       what an entry takes in the ordinary registrar
//!     bench-asks count        every row for a profiler that counts instructions
//!
//! Status 1 where an answer, a cache, a bound or a ticket differs, or where the answers are not the row's.
mod memory;
mod rows;
mod taking;
mod turns;

use std::env;
use std::process::ExitCode;

use measure::{count_ends, row, table};
use rows::{rows, Row, Scene, Sort, CAPACITY};
use sides::scene::{Family, FAMILIES, KEY};
use sides::{COLUMNS, SIDES};
use taking::{Lent, Taking};
use turns::{ordinary, take, take_ordinarily, Different, Taken, BATCH};

/// The ordinary registrar takes the first of this many parts of the asks.
const ORDINARY_PART: usize = 5;
/// Asks of a row under a profiler.
const COUNTED: usize = 260;

fn confirmed(taken: &Taken) -> String {
    let confirmed = taken.answers.iter().filter(|(answer, _)| *answer == 0);
    format!("{} %", 100 * confirmed.count() / taken.answers.len())
}

/// The numbers of a row: the sides' times and ratios, and the ordinary registrar's time.
fn numbers(row: &Row, scene: &Scene) -> Result<(Taken, Vec<f64>), Different> {
    let taken = take(row, scene, BATCH, None)?;
    let part = scene.count() / ORDINARY_PART / BATCH * BATCH;
    let ordinary = take_ordinarily(row, scene, &taken, part.max(scene.count().min(BATCH)))?;
    let mut numbers = taken.measured.numbers();
    numbers.push(ordinary);
    Ok((taken, numbers))
}

fn columns() -> Vec<&'static str> {
    [&COLUMNS[..], &["ordinary ns"]].concat()
}

fn times(count: usize) -> Result<(), Different> {
    table(&["asks", "family", "live", "confirmed"], &columns());
    for each in rows() {
        let (taken, numbers) = numbers(&each, &Scene::of(&each, count))?;
        let live = each.live.to_string();
        let words = [each.name(), each.family.name(), &live, &confirmed(&taken)];
        row(&words, &numbers);
    }
    Ok(())
}

/// Behind each ask everything is compared, with the ordinary registrar's too.
fn answers(count: usize) -> Result<(), Different> {
    for each in rows() {
        let asks = each.early() + count;
        let scene = Scene::of(&each, asks);
        let mut beside = ordinary(&each, &scene);
        take(&each, &scene, 1, beside.as_deref_mut().map(|it| it as _))?;
        let (name, family, live) = (each.name(), each.family.name(), each.live);
        println!("{name}, {family}, {live} live: {asks} asks, all equal");
    }
    Ok(())
}

fn first(capacity: usize, live: usize) -> Row {
    Row {
        sort: Sort::First,
        family: Family::V4,
        capacity,
        live,
    }
}

/// First asks of IPv4: by capacity with 90 % live, and by live entries at the largest capacity.
fn curve(count: usize) -> Result<(), Different> {
    let capacities = [16, 64, 128, 256, 384, 512, 640, 768, 896, CAPACITY];
    let lives = (0..10).map(|tenth| tenth * CAPACITY / 10);
    let by_capacity = capacities.map(|capacity| ("capacity", first(capacity, capacity * 9 / 10)));
    let by_live = lives
        .chain([999])
        .map(|live| ("live", first(CAPACITY, live)));
    table(&["by", "C", "live"], &columns());
    for (by, each) in by_capacity.into_iter().chain(by_live) {
        let (_, numbers) = numbers(&each, &Scene::of(&each, count))?;
        let (capacity, live) = (each.capacity.to_string(), each.live.to_string());
        row(&[by, &capacity, &live], &numbers);
    }
    Ok(())
}

/// Bytes an entry, with all but one place taken; a cache's are of its length.
fn memory() {
    table(
        &["family", "C"],
        &["ordinary bytes an entry", "cache bytes an entry"],
    );
    for family in FAMILIES {
        for capacity in [64, 256, CAPACITY] {
            let live = capacity - 1;
            let cache = sides::scene::cache(family, capacity, live, 0, false);
            let ordinary = match family {
                Family::V4 => bytes_of::<plain::V4>(&cache),
                Family::V6 => bytes_of::<plain::V6>(&cache),
            };
            let each = [ordinary, cache.len()].map(|bytes| bytes as f64 / live as f64);
            row(&[family.name(), &capacity.to_string()], &each);
        }
    }
}

fn bytes_of<F: plain::Family>(cache: &[u8]) -> usize {
    let make = || ordinary::Registrar::<F>::holding(cache, &KEY);
    let (bytes, registrar) = memory::taken_by(make);
    assert!(registrar.is_some_and(|registrar| registrar.bytes() == cache));
    bytes
}

/// Each side takes the same asks, and a profiler counts what is between two ends; what comes before is not the row's.
fn count() {
    table(&["asks", "family", "live"], &[]);
    for each in rows() {
        let scene = Scene::of(&each, each.early() + COUNTED);
        let mut sides = SIDES.map(|side| Lent::new(side, &scene));
        for side in &mut sides {
            side.take(&scene, 0..each.early());
        }
        count_ends();
        for side in &mut sides {
            for start in (0..COUNTED).step_by(20) {
                side.take(&scene, each.early() + start..each.early() + start + 20);
                if scene.put_back.is_some() {
                    side.put_back(&scene);
                }
            }
            count_ends();
        }
        row(
            &[each.name(), each.family.name(), &each.live.to_string()],
            &[COUNTED as f64],
        );
    }
}

fn main() -> ExitCode {
    let words: Vec<String> = env::args().skip(1).collect();
    let number = words.get(1).and_then(|word| word.parse().ok());
    let done = match (words.first().map(String::as_str), number) {
        (Some("times"), Some(number)) => times(number),
        (Some("answers"), Some(number)) => answers(number),
        (Some("curve"), Some(number)) => curve(number),
        (Some("memory"), None) => {
            memory();
            Ok(())
        }
        (Some("count"), None) => {
            count();
            Ok(())
        }
        _ => Err("bench-asks times|answers|curve N, or memory, or count".to_string()),
    };
    match done {
        Ok(()) => ExitCode::SUCCESS,
        Err(said) => {
            eprintln!("{said}");
            ExitCode::FAILURE
        }
    }
}
