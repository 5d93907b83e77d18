//! A cache that is asked, listed and withdrawn from; and calls that move entries.
use super::faults::Faults;
use super::UNTOUCHED;
use super::{buffer, digest, hex, number, openings, run, Buffer, Call, Given, Line, Shown};
use crate::oracle::family::Family;
use crate::oracle::record::Ad;
use crate::oracle::registrar::{self, Registered, Request};
use crate::oracle::{LIFETIME, USUAL_WINDOW};

/// What a call of REGISTER leaves: its answer, how many entries moved, the ticket that it wrote, and the cache.
pub struct Left {
    pub answer: i64,
    pub moves: u64,
    pub reply: Option<Vec<u8>>,
    pub cache: Vec<u8>,
}

/// The same of what the oracle answers on this cache.
pub fn left(cache: &[u8], answer: Result<(Registered, Vec<u8>), i64>) -> Left {
    let (answer, moves, reply, cache) = match answer {
        Err(refusal) => (-refusal, UNTOUCHED.into(), None, cache.to_vec()),
        Ok((Registered::Confirmed(moves), after)) => (0, moves, None, after),
        Ok((Registered::Wait(wait, ticket, moves), after)) => {
            (wait as i64, moves, Some(ticket), after)
        }
    };
    Left {
        answer,
        moves,
        reply,
        cache,
    }
}

/// A REGISTER with the usual window whose signature is vouched for, and what it is given.
pub fn ask(cache: &[u8], key: &[u8], clock: u64, ad: &Ad, ticket: &[u8]) -> (Left, Given) {
    let ad = ad.record();
    let request = Request {
        key,
        window: USUAL_WINDOW,
        clock,
        ad: &ad,
        vouched: 1,
        ticket,
        reply_len: 89,
    };
    let left = left(cache, registrar::register(cache, &request));
    let given = Given {
        call: Call::Register,
        vouched: 1,
        cache: Buffer(cache.len(), cache.len(), Shown::Not),
        output: Buffer(89, 89, Shown::Not),
        numbers: vec![request.window, clock],
        parts: vec![key.to_vec(), ad.clone(), ticket.to_vec()],
        ..Given::default()
    };
    (left, given)
}

/// A cache of capacity 2 as each call left it, and the lines. IPv4's do not name the family.
struct Visited {
    family: Family,
    cache: Vec<u8>,
    lines: Vec<Line>,
}

impl Visited {
    fn label(&self, name: &str) -> String {
        match self.family {
            Family::V4 => format!("{name}:"),
            Family::V6 => format!("IPv6 {name}:"),
        }
    }

    fn ad(&self, peer: u8) -> Ad {
        let mut ad = Faults::none(self.family).fields();
        ad.peer[0] = peer;
        ad
    }

    fn push(&mut self, name: &str, said: String, given: Given) {
        let label = self.label(name);
        self.lines.push(Line { label, said, given });
    }

    /// What every call here is given: the whole cache, as the call before left it.
    fn given(&self, call: Call) -> Given {
        Given {
            call,
            vouched: 1,
            begins: self.cache.clone(),
            cache: Buffer(self.cache.len(), self.cache.len(), Shown::Bytes),
            ..Given::default()
        }
    }

    /// A REGISTER by a peer whose first byte is given; what the reply holds afterwards.
    fn ask(&mut self, name: &str, peer: u8, clock: u64, ticket: &[u8]) -> Vec<u8> {
        let (left, given) = ask(&self.cache, &run(0x10, 32), clock, &self.ad(peer), ticket);
        let reply = left.reply.unwrap_or(vec![UNTOUCHED; 89]);
        let given = Given {
            output: Buffer(89, 89, Shown::Bytes),
            numbers: given.numbers,
            parts: given.parts,
            ..self.given(Call::Register)
        };
        self.cache = left.cache;
        let (answer, cache) = (left.answer, hex(&self.cache));
        self.push(name, format!(" {answer} {cache} {}", hex(&reply)), given);
        reply
    }

    /// A WITHDRAW by the same.
    fn withdraw(&mut self, name: &str, peer: u8, clock: u64) {
        let ad = self.ad(peer);
        let answer = registrar::withdraw(&self.cache, &ad.service, &ad.peer, clock, 1);
        let given = Given {
            numbers: vec![clock],
            parts: vec![ad.service, ad.peer],
            ..self.given(Call::Withdraw)
        };
        let number = number(&answer);
        self.cache = answer.unwrap_or(self.cache.clone());
        self.push(name, format!(" {number} {}", hex(&self.cache)), given);
    }

    fn list(&mut self, name: &str, clock: u64) {
        let service = run(0x40, 32);
        let size = self.family.list_len();
        let ads = registrar::get_ads(&self.cache, clock, &service, size).unwrap();
        let list = hex(&buffer(size, &Ok(ads.concat())));
        let given = Given {
            output: Buffer(size, size, Shown::Bytes),
            numbers: vec![clock],
            parts: vec![service],
            ..self.given(Call::GetAds)
        };
        let given = Given {
            cache: Buffer(self.cache.len(), self.cache.len(), Shown::Not),
            ..given
        };
        self.push(name, format!(" {} {list}", ads.len()), given);
    }
}

/// Asked at 5,000 and confirmed a millisecond later; another asks beside the live ad, and when it has expired, is confirmed too and
/// withdraws: it is not listed, and refused until its entry expires.
fn visit(family: Family, opening: Line) -> Vec<Line> {
    let bytes = vec![UNTOUCHED; family.cache_len(2)];
    let mut visited = Visited {
        family,
        cache: registrar::open(&bytes, family.number()).unwrap(),
        lines: vec![opening],
    };
    let ticket = visited.ask("first asked", 0x80, 5000, &[]);
    visited.list("none listed", 5000);
    visited.ask("confirmed", 0x80, 5001, &ticket);
    visited.list("listed", 905_000);
    visited.list("expired", 905_001);
    visited.ask("beside a live ad", 0x81, 905_000, &[]);
    let ticket = visited.ask("beside an expired ad", 0x81, 905_001, &[]);
    visited.ask("confirmed too", 0x81, 905_002, &ticket);
    visited.withdraw("nothing of this peer", 0x80, 905_002);
    visited.withdraw("withdrawn", 0x81, 905_003);
    visited.list("none listed again", 905_003);
    visited.withdraw("withdrawn already", 0x81, 905_003);
    visited.ask("back while it lives", 0x81, 1_805_001, &[]);
    visited.withdraw("withdrawn and expired", 0x81, 1_805_002);
    visited.ask("back afresh", 0x81, 1_805_002, &[]);
    visited.lines
}

/// A cache of capacity 10 that keeps what each call leaves, in the program as here, and its lines: the answer and how many entries moved.
struct Moving {
    family: Family,
    cache: Vec<u8>,
    lines: Vec<Line>,
}

impl Moving {
    fn open(family: Family) -> Moving {
        let length = family.cache_len(10);
        let opened = registrar::open(&vec![UNTOUCHED; length], family.number());
        Moving {
            family,
            cache: opened.unwrap(),
            lines: vec![openings::told(family.number(), length)],
        }
    }

    fn call(&mut self, name: &str, clock: u64, ad: &Ad, ticket: &[u8]) -> Left {
        let (left, given) = ask(&self.cache, &[7; 32], clock, ad, ticket);
        let (answer, moves) = (left.answer, left.moves);
        self.cache = left.cache.clone();
        let size = self.cache.len();
        self.lines.push(Line {
            label: format!("moves in {} {name} at {clock}:", self.family.number()),
            said: format!(" {answer} {moves} {}", digest(&self.cache)),
            given: Given {
                told: true,
                cache: Buffer(size, size, Shown::Digest),
                ..given
            },
        });
        left
    }

    /// An advertiser of a service of its own asks at a time and returns when due, until it is confirmed; when that was.
    fn admit(&mut self, id: u8, first: u8, clock: u64) -> u64 {
        let mut address = vec![0; self.family.address_len()];
        address[0] = first;
        let ad = Ad {
            service: vec![id; 32],
            peer: vec![id; 32],
            address,
            port: 443,
            stamp: 0,
            signature: vec![0; 64],
        };
        let mut clock = clock;
        let mut left = self.call(&format!("{id} asks"), clock, &ad, &[]);
        while let Some(ticket) = &left.reply {
            clock += left.answer as u64;
            left = self.call(&format!("{id} returns"), clock, &ad, &ticket.clone());
        }
        clock
    }
}

/// Five services whose addresses begin with other bits, so that waits are short. An entry expires at the third's and the fourth's return, and at the fifth's
/// ask; so entries move on CONFIRMED and on WAIT. Then three more come: when one of four has expired three move, and when three have expired one moves.
fn moving(family: Family) -> Vec<Line> {
    let mut moving = Moving::open(family);
    let asks = [(0x00, 0), (0x80, 2), (0x40, 900_000), (0xc0, 900_002)];
    for (id, (first, clock)) in (1..).zip(asks) {
        moving.admit(id, first, clock);
    }
    let fifth = moving.admit(5, 0x00, 1_800_001);
    let sixth = moving.admit(6, 0x80, fifth + LIFETIME - 40);
    let seventh = moving.admit(7, 0x40, sixth + 1);
    let eighth = moving.admit(8, 0xc0, seventh + 1);
    moving.admit(9, 0x20, fifth + LIFETIME);
    moving.admit(10, 0xa0, eighth + LIFETIME);
    moving.lines
}

pub fn lines() -> Vec<Line> {
    let mut lines = visit(Family::V4, openings::v4(331));
    lines.extend(visit(Family::V6, openings::told(6, 355)));
    lines.extend(Family::BOTH.into_iter().flat_map(moving));
    lines
}
