//! What an IPv6 cache answers at the edges of address similarity (document 02, order 10), in a cache of 1, of 2 and of 1,000 slots: the first advertiser asks
//! at 0 and returns when its wait is over; then newcomers that share so many leading bits with its address ask at 2; then it is listed, withdraws at 3, and is
//! listed no more. The program keeps the cache from call to call.
use super::visits::ask;
use super::{openings, Buffer, Call, Given, Line, Shown};
use crate::oracle::family::Family;
use crate::oracle::record::Ad;
use crate::oracle::registrar;

const FAMILY: Family = Family::V6;
pub const CAPACITIES: [usize; 3] = [1, 2, 1000];
pub const BITS: [usize; 7] = [0, 1, 63, 64, 65, 127, 128];
const KEY: [u8; 32] = [7; 32];

/// The first advertiser's address, 2001:db8::1, with bit number `bits` changed, counted from 0 at the highest of the first byte: it shares
/// exactly so many leading bits with it. At 128 it is the same.
fn address(bits: usize) -> Vec<u8> {
    let mut address = vec![0x20, 0x01, 0x0d, 0xb8, 0, 0, 0, 0, 0, 0, 0, 0, 0, 0, 0, 1];
    if bits < 128 {
        address[bits / 8] ^= 0x80 >> (bits % 8);
    }
    address
}

/// The advertisement of an advertiser whose service and peer are of this byte.
fn ad(byte: u8, address: Vec<u8>) -> Ad {
    Ad {
        service: vec![byte; 32],
        peer: vec![byte; 32],
        address,
        port: 443,
        stamp: 0,
        signature: vec![0; 64],
    }
}

/// A cache as the last call left it, and the lines.
struct Edges {
    capacity: usize,
    cache: Vec<u8>,
    lines: Vec<Line>,
}

impl Edges {
    fn push(&mut self, what: &str, said: String, given: Given) {
        let label = format!("C {} {what}", self.capacity);
        self.lines.push(Line { label, said, given });
    }

    fn given(&self, call: Call, shown: Shown) -> Given {
        Given {
            call,
            vouched: 1,
            cache: Buffer(self.cache.len(), self.cache.len(), shown),
            ..Given::default()
        }
    }

    /// A REGISTER, with the answer as C has it; the wait and the ticket.
    fn ask(&mut self, what: &str, clock: u64, ad: &Ad, ticket: &[u8]) -> (u64, Vec<u8>) {
        let (left, given) = ask(&self.cache, &KEY, clock, ad, ticket);
        self.cache = left.cache;
        self.push(what, format!(" {}", left.answer), given);
        (left.answer as u64, left.reply.unwrap_or_default())
    }

    /// The last newcomer, at the first one's own address; then how many entries the call moved.
    fn last(&mut self) {
        let between = format!("\nC {} moves", self.capacity);
        let (left, given) = ask(&self.cache, &KEY, 2, &ad(2, address(128)), &[]);
        self.cache = left.cache;
        let said = format!(" {}{between} {}", left.answer, left.moves);
        let told = true;
        self.push(
            "bits 128",
            said,
            Given {
                told,
                between,
                ..given
            },
        );
    }

    /// The kinds of the head and of the first entry; how many ads of the first advertiser's service are listed, and the kind of the first.
    fn shown(&mut self, clock: u64) {
        let kinds = format!(" {} {}", self.cache[0], self.cache[29]);
        self.push("kinds", kinds, self.given(Call::Show, Shown::Kinds));
        let size = FAMILY.list_len();
        let ads = registrar::get_ads(&self.cache, clock, &[1; 32], size).unwrap();
        let kind = ads.first().map_or(0, |ad| ad[0]);
        let given = Given {
            output: Buffer(size, size, Shown::Kind),
            zeroed: true,
            between: " kind".to_string(),
            numbers: vec![clock],
            parts: vec![vec![1; 32]],
            ..self.given(Call::GetAds, Shown::Not)
        };
        self.push("listed", format!(" {} kind {kind}", ads.len()), given);
    }

    fn withdraw(&mut self, clock: u64) {
        let answer = registrar::withdraw(&self.cache, &[1; 32], &[1; 32], clock, 1);
        let given = Given {
            numbers: vec![clock],
            parts: vec![vec![1; 32], vec![1; 32]],
            ..self.given(Call::Withdraw, Shown::Not)
        };
        self.push("withdraw", format!(" {}", super::number(&answer)), given);
        self.cache = answer.unwrap_or(self.cache.clone());
    }
}

fn edges(capacity: usize) -> Vec<Line> {
    let length = FAMILY.cache_len(capacity);
    let mut edges = Edges {
        capacity,
        cache: registrar::open(&vec![0; length], FAMILY.number()).unwrap(),
        lines: vec![openings::told(FAMILY.number(), length)],
    };
    let first = ad(1, address(128));
    let (wait, ticket) = edges.ask("first", 0, &first, &[]);
    edges.ask("return", wait, &first, &ticket);
    for bits in &BITS[..6] {
        edges.ask(&format!("bits {bits}"), 2, &ad(2, address(*bits)), &[]);
    }
    edges.last();
    edges.shown(2);
    edges.withdraw(3);
    edges.shown(3);
    edges.lines
}

pub fn lines() -> Vec<Line> {
    CAPACITIES.into_iter().flat_map(edges).collect()
}
