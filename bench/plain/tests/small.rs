//! The plain calls of small registrars against the oracle.
#[path = "../../../host/rust/tests/oracle/mod.rs"]
mod oracle;
#[path = "../../../host/rust/tests/profile/mod.rs"]
mod profile;
#[path = "../../../host/rust/tests/stored/mod.rs"]
mod stored;

use oracle::registrar::Request;
use plain::{small, Refusal, Registered};
use profile::Small;

struct Plain;

fn answered(result: Result<i64, Refusal>) -> i64 {
    result.unwrap_or_else(|Refusal(number)| -i64::from(number))
}

fn registered(result: Result<Registered, Refusal>, moves: &mut u64) -> i64 {
    answered(result.map(|registered| match registered {
        Registered::Confirmed { moves: moved } => {
            *moves = moved;
            0
        }
        Registered::Wait {
            millis,
            moves: moved,
        } => {
            *moves = moved;
            millis as i64
        }
    }))
}

impl Small for Plain {
    fn open(&self, cache: &mut [u8], family: u64) -> i64 {
        answered(small::open(cache, family).map(|()| 0))
    }

    fn register(
        &self,
        cache: &mut [u8],
        request: &Request,
        reply: &mut [u8],
        moves: &mut u64,
    ) -> i64 {
        let Request {
            key,
            clock,
            ad,
            vouched,
            ticket,
            ..
        } = *request;
        registered(
            small::register(cache, key, clock, ad, vouched, ticket, reply),
            moves,
        )
    }

    fn register_bounded(
        &self,
        cache: &mut [u8],
        bounds: &mut [u8],
        request: &Request,
        reply: &mut [u8],
        moves: &mut u64,
    ) -> i64 {
        let Request {
            key,
            clock,
            ad,
            vouched,
            ticket,
            ..
        } = *request;
        registered(
            small::register_bounded(cache, bounds, key, clock, ad, vouched, ticket, reply),
            moves,
        )
    }

    fn withdraw(
        &self,
        cache: &mut [u8],
        service: &[u8],
        peer: &[u8],
        clock: u64,
        vouched: u8,
    ) -> i64 {
        answered(small::withdraw(cache, service, peer, clock, vouched).map(|()| 0))
    }

    fn get_ads(&self, cache: &[u8], clock: u64, service: &[u8], list: &mut [u8]) -> i64 {
        answered(small::get_ads(cache, clock, service, list).map(|count| count as i64))
    }

    fn newest(
        &self,
        first: &[u8],
        second: &[u8],
        clock: u64,
        service: &[u8],
        offset: &mut u64,
    ) -> i64 {
        answered(
            small::newest(first, second, clock, service).map(|found| match found {
                None => 0,
                Some((which, at)) => {
                    *offset = at as u64;
                    which as i64
                }
            }),
        )
    }
}

#[test]
fn stored_requests() {
    profile::stored_requests(&Plain);
}

#[test]
fn drawn_registers() {
    profile::drawn_registers(&Plain);
}

#[test]
fn drawn_others() {
    profile::drawn_others(&Plain);
}
