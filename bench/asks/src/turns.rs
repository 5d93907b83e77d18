//! A row that is taken in turns, batch by batch, and compared.
use std::ops::Range;

use measure::{in_turn, Measured};
use sides::scene::Family;
use sides::SIDES;

use crate::rows::{Row, Scene, TICKET};
use crate::taking::{Lent, Ordinary, Taking};

/// Asks of a batch that is timed.
pub const BATCH: usize = 100;
/// Where something differs, in words.
pub type Different = String;

/// The asks in batches; with a cache that is put back a batch is what comes before that.
fn batches(scene: &Scene, batch: usize, count: usize) -> impl Iterator<Item = Range<usize>> {
    let batch = batch.min(scene.put_back.unwrap_or(batch));
    (0..count)
        .step_by(batch)
        .map(move |start| start..count.min(start + batch))
}

fn different(row: &Row, name: &str, end: usize) -> Different {
    let (asked, family, live) = (row.name(), row.family.name(), row.live);
    format!("{asked}, {family}, {live} live: proved and {name} differ within the asks up to {end}")
}

/// Plain Rust's answers, and the times of the sides that took the row in turns.
pub struct Taken {
    pub answers: Vec<(i64, u64)>,
    replies: Vec<u8>,
    pub measured: Measured<3>,
}

/// Whether answers, moves, tickets, caches and bounds are those of the first side, of one beside them too, which takes the asks now.
fn compare(
    row: &Row,
    scene: &Scene,
    [first, others @ ..]: &[Lent; 3],
    beside: &mut Option<&mut dyn Taking>,
    asks: Range<usize>,
) -> Result<(), Different> {
    for other in others {
        if first.left() != other.left() || !first.holds_same(other) {
            return Err(different(row, other.name(), asks.end));
        }
    }
    if let Some(other) = beside {
        other.take(scene, asks.clone());
        if first.left() != other.left() || first.bytes() != other.bytes() {
            return Err(different(row, other.name(), asks.end));
        }
    }
    Ok(())
}

/// Every side takes every ask, and they are compared behind each batch, with one beside them where there is one.
pub fn take(
    row: &Row,
    scene: &Scene,
    batch: usize,
    mut beside: Option<&mut dyn Taking>,
) -> Result<Taken, Different> {
    let mut sides = SIDES.map(|side| Lent::new(side, scene));
    let mut times = [const { Vec::new() }; 3];
    let (mut answers, mut replies) = (Vec::new(), Vec::new());
    for (turn, asks) in batches(scene, batch, scene.count()).enumerate() {
        for which in in_turn::<3>(turn) {
            let took = sides[which].take(scene, asks.clone());
            times[which].push(took.as_nanos() as f64 / asks.len() as f64);
        }
        compare(row, scene, &sides, &mut beside, asks.clone())?;
        let [_, plain, _] = &sides;
        answers.extend_from_slice(&plain.left().answers);
        replies.extend_from_slice(&plain.left().replies);
        if scene.is_put_back_behind(asks.end) {
            sides.iter_mut().for_each(|side| side.put_back(scene));
            beside.iter_mut().for_each(|other| other.put_back(scene));
        }
    }
    let plain: Vec<i64> = answers.iter().map(|(answer, _)| *answer).collect();
    if !row.is_answered(&plain) {
        return Err(format!("{}: not the answers of this row", row.name()));
    }
    Ok(Taken {
        answers,
        replies,
        measured: Measured::of(times),
    })
}

/// The ordinary registrar of a row; it knows no bounds.
pub fn ordinary(row: &Row, scene: &Scene) -> Option<Box<dyn Taking>> {
    if !scene.bounds.is_empty() {
        return None;
    }
    Some(match row.family {
        Family::V4 => Box::new(Ordinary::<plain::V4>::new(scene)),
        Family::V6 => Box::new(Ordinary::<plain::V6>::new(scene)),
    })
}

/// The ordinary registrar takes the first asks, by itself: nanoseconds an ask.
pub fn take_ordinarily(
    row: &Row,
    scene: &Scene,
    taken: &Taken,
    count: usize,
) -> Result<f64, Different> {
    let Some(mut registrar) = ordinary(row, scene) else {
        return Ok(f64::NAN);
    };
    let mut times = [Vec::new()];
    for asks in batches(scene, BATCH, count) {
        let took = registrar.take(scene, asks.clone());
        times[0].push(took.as_nanos() as f64 / asks.len() as f64);
        let (left, replies) = (registrar.left(), &taken.replies[asks.start * TICKET..]);
        if left.answers != taken.answers[asks.clone()] || !replies.starts_with(&left.replies) {
            return Err(different(row, registrar.name(), asks.end));
        }
        if scene.is_put_back_behind(asks.end) {
            registrar.put_back(scene);
        }
    }
    Ok(Measured::of(times).nanos[0])
}
