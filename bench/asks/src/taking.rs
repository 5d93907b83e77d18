//! An implementation that takes the asks of a row, batch by batch, and what it answers.
use std::hint::black_box;
use std::ops::Range;
use std::time::{Duration, Instant};

use ordinary::Registrar;
use plain::cache::Head;
use plain::{Refusal, Registered};
use sides::scene::KEY;
use sides::Side;

use crate::rows::{Scene, TICKET};

/// Under which a ticket is taken.
const WINDOW: u64 = 10_000;

/// What a batch leaves: an answer and the moves of each ask, and the reply of each.
#[derive(Clone, Default, PartialEq, Eq)]
pub struct Left {
    pub answers: Vec<(i64, u64)>,
    pub replies: Vec<u8>,
}

impl Left {
    /// For so many asks, with nothing of an earlier batch.
    fn make_room(&mut self, asks: usize) {
        self.answers.clear();
        self.answers.resize(asks, (0, 0));
        self.replies.clear();
        self.replies.resize(asks * TICKET, 0);
    }
}

/// One that takes asks.
pub trait Taking {
    /// Takes these asks; how long that took.
    fn take(&mut self, scene: &Scene, asks: Range<usize>) -> Duration;
    /// Back to the row's first cache.
    fn put_back(&mut self, scene: &Scene);
    fn left(&self) -> &Left;
    /// The cache and the bounds as they are now.
    fn bytes(&self) -> (Vec<u8>, Vec<u8>);
    fn name(&self) -> &'static str;
}

/// One over lent bytes.
pub struct Lent {
    side: Side,
    cache: Vec<u8>,
    bounds: Vec<u8>,
    left: Left,
}

impl Lent {
    pub fn new(side: Side, scene: &Scene) -> Lent {
        Lent {
            side: black_box(side),
            cache: scene.cache.clone(),
            bounds: scene.bounds.clone(),
            left: Left::default(),
        }
    }

    /// Whether the cache and the bounds are another's.
    pub fn holds_same(&self, other: &Lent) -> bool {
        self.cache == other.cache && self.bounds == other.bounds
    }
}

impl Taking for Lent {
    fn take(&mut self, scene: &Scene, asks: Range<usize>) -> Duration {
        self.left.make_room(asks.len());
        let (cache, bounds) = (&mut self.cache[..], &mut self.bounds[..]);
        let replies = self.left.replies.chunks_exact_mut(TICKET);
        let left = self.left.answers.iter_mut().zip(replies);
        let start = Instant::now();
        for (number, ((answer, moves), reply)) in asks.zip(left) {
            let (ad, ticket, clock) = scene.ask(number);
            *answer = if bounds.is_empty() {
                (self.side.register)(cache, &KEY, clock, ad, ticket, reply, moves)
            } else {
                let call = self.side.register_bounded;
                call(cache, bounds, &KEY, clock, ad, ticket, reply, moves)
            };
        }
        start.elapsed()
    }

    fn put_back(&mut self, scene: &Scene) {
        self.cache.copy_from_slice(&scene.cache);
    }

    fn left(&self) -> &Left {
        &self.left
    }

    fn bytes(&self) -> (Vec<u8>, Vec<u8>) {
        (self.cache.clone(), self.bounds.clone())
    }

    fn name(&self) -> &'static str {
        self.side.name
    }
}

/// The ordinary registrar, which knows no bounds.
pub struct Ordinary<F: plain::Family> {
    first: Head,
    registrar: Registrar<F>,
    left: Left,
}

impl<F: plain::Family> Ordinary<F> {
    pub fn new(scene: &Scene) -> Ordinary<F> {
        let registrar = Registrar::holding(&scene.cache, &KEY).expect("no entry is withdrawn");
        Ordinary {
            first: registrar.head,
            registrar,
            left: Left::default(),
        }
    }
}

impl<F: plain::Family> Taking for Ordinary<F> {
    fn take(&mut self, scene: &Scene, asks: Range<usize>) -> Duration {
        self.left.make_room(asks.len());
        let replies = self.left.replies.chunks_exact_mut(TICKET);
        let left = self.left.answers.iter_mut().zip(replies);
        let start = Instant::now();
        for (number, ((answer, moves), reply)) in asks.zip(left) {
            let (ad, ticket, clock) = scene.ask(number);
            *answer = match self.registrar.register(WINDOW, clock, ad, 1, ticket, reply) {
                Err(Refusal(number)) => -i64::from(number),
                Ok(Registered::Confirmed { moves: moved }) => {
                    *moves = moved;
                    0
                }
                Ok(Registered::Wait {
                    millis,
                    moves: moved,
                }) => {
                    *moves = moved;
                    millis as i64
                }
            };
        }
        start.elapsed()
    }

    fn put_back(&mut self, _: &Scene) {
        self.registrar.put_back(self.first);
    }

    fn left(&self) -> &Left {
        &self.left
    }

    fn bytes(&self) -> (Vec<u8>, Vec<u8>) {
        (self.registrar.bytes(), Vec::new())
    }

    fn name(&self) -> &'static str {
        "ordinary"
    }
}
