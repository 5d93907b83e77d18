//! A crate of plain Rust as the tests of `host/rust` take an implementation. Which one it is the test program says, as `side`.
// Each test program uses a part of it.
#![allow(dead_code)]

use crate::differential::calls::{AdFields, Calls, TicketFields};
use crate::oracle::family::Family;
use crate::side;
use side::{Refusal, Registered};

pub struct Held;

fn answered(result: Result<i64, Refusal>) -> i64 {
    result.unwrap_or_else(|Refusal(number)| -i64::from(number))
}

fn done(result: Result<(), Refusal>) -> i64 {
    answered(result.map(|()| 0))
}

/// Writes a digest where its buffer has 32 bytes, else refusal 2.
fn put(digest: [u8; 32], buffer: &mut [u8]) -> i64 {
    let fits = <&mut [u8; 32]>::try_from(buffer).map(|buffer| *buffer = digest);
    done(fits.map_err(|_| Refusal(2)))
}

fn fields_of<F: side::Family>(ad: side::Ad<F>) -> AdFields {
    AdFields {
        service: *ad.service(),
        peer: *ad.peer(),
        address: ad.address().as_ref().to_vec(),
        port: ad.port(),
        stamp: ad.stamp(),
        signature: *ad.signature(),
    }
}

impl Calls for Held {
    fn open(&self, cache: &mut [u8], family: u64) -> i64 {
        done(side::open(cache, family))
    }

    fn register(
        &self,
        cache: &mut [u8],
        key: &[u8],
        window: u64,
        clock: u64,
        ad: &[u8],
        vouched: u8,
        ticket: &[u8],
        reply: &mut [u8],
        moves: &mut u64,
    ) -> i64 {
        let registered = side::register(cache, key, window, clock, ad, vouched, ticket, reply);
        answered(registered.map(|registered| match registered {
            Registered::Confirmed { moves: moved } => {
                *moves = moved;
                0
            }
            Registered::Wait {
                millis,
                moves: moved,
            } => {
                *moves = moved;
                millis as i64
            }
        }))
    }

    fn withdraw(
        &self,
        cache: &mut [u8],
        service: &[u8],
        peer: &[u8],
        clock: u64,
        vouched: u8,
    ) -> i64 {
        done(side::withdraw(cache, service, peer, clock, vouched))
    }

    fn get_ads(&self, cache: &[u8], clock: u64, service: &[u8], list: &mut [u8]) -> i64 {
        answered(side::get_ads(cache, clock, service, list).map(|count| count as i64))
    }

    fn newest(
        &self,
        first: &[u8],
        second: &[u8],
        clock: u64,
        service: &[u8],
        offset: &mut u64,
    ) -> i64 {
        let found = side::newest(first, second, clock, service).map(|found| match found {
            None => 0,
            Some((which, at)) => {
                *offset = at as u64;
                which as i64
            }
        });
        answered(found)
    }

    fn service_id(&self, protocol: &[u8], id: &mut [u8]) -> i64 {
        done(side::service_id(protocol, id))
    }

    fn write_ad(
        &self,
        family: Family,
        out: &mut [u8],
        service: &[u8],
        peer: &[u8],
        address: &[u8],
        port: u16,
        stamp: u64,
        signature: &[u8],
    ) -> i64 {
        let write = match family {
            Family::V4 => side::write_ad,
            Family::V6 => side::write_ad_v6,
        };
        done(write(out, service, peer, address, port, stamp, signature))
    }

    fn read_ad(&self, family: Family, ad: &[u8], fields: &mut AdFields) -> i64 {
        let read = match family {
            Family::V4 => side::read_ad(ad).map(fields_of),
            Family::V6 => side::read_ad_v6(ad).map(fields_of),
        };
        done(read.map(|read| *fields = read))
    }

    fn write_ticket(
        &self,
        key: &[u8],
        out: &mut [u8],
        ad_hash: &[u8],
        first: u64,
        issued: u64,
        wait: u64,
    ) -> i64 {
        done(side::write_ticket(key, out, ad_hash, first, issued, wait))
    }

    fn read_ticket(&self, key: &[u8], ticket: &[u8], fields: &mut TicketFields) -> i64 {
        done(side::read_ticket(key, ticket).map(|ticket| {
            *fields = TicketFields {
                ad_hash: *ticket.ad_hash,
                first: ticket.first,
                issued: ticket.issued,
                wait: ticket.wait,
            }
        }))
    }

    fn read_message(&self, message: &[u8], epoch: u64, ad: &mut [u8]) -> i64 {
        done(side::read_message(message, epoch, ad))
    }

    fn write_message(&self, ad: &[u8], epoch: u64, out: &mut [u8]) -> i64 {
        answered(side::write_message(ad, epoch, out).map(|length| length as i64))
    }

    fn sha256(&self, message: &[u8], digest: &mut [u8]) -> i64 {
        put(side::sha256(message), digest)
    }

    fn hmac(&self, key: &[u8], message: &[u8], tag: &mut [u8]) -> i64 {
        put(side::hmac(key, message), tag)
    }
}
