//! The calls, with answers as C has them: −n for refusal n, 0 for done, confirmed or none, else a wait, a count or a length.
use crate::oracle::family::Family;
use crate::oracle::message;
use crate::oracle::record::{Ad, Ticket};
use crate::oracle::registrar::{self, Registered, Request};
use crate::oracle::sha256;

/// What reading an advertisement writes; the address has its family's length.
#[derive(Clone, Debug, PartialEq, Eq)]
pub struct AdFields {
    pub service: [u8; 32],
    pub peer: [u8; 32],
    pub address: Vec<u8>,
    pub port: u16,
    pub stamp: u64,
    pub signature: [u8; 64],
}

/// What reading a ticket writes.
#[derive(Clone, Debug, PartialEq, Eq)]
pub struct TicketFields {
    pub ad_hash: [u8; 32],
    pub first: u64,
    pub issued: u64,
    pub wait: u64,
}

/// An implementation of the calls over lent slices.
pub trait Calls {
    fn open(&self, cache: &mut [u8], family: u64) -> i64;
    #[allow(clippy::too_many_arguments)]
    fn register(
        &self,
        cache: &mut [u8],
        key: &[u8],
        window: u64,
        clock: u64,
        ad: &[u8],
        vouched: u8,
        ticket: &[u8],
        reply: &mut [u8],
        moves: &mut u64,
    ) -> i64;
    fn withdraw(
        &self,
        cache: &mut [u8],
        service: &[u8],
        peer: &[u8],
        clock: u64,
        vouched: u8,
    ) -> i64;
    fn get_ads(&self, cache: &[u8], clock: u64, service: &[u8], list: &mut [u8]) -> i64;
    fn newest(
        &self,
        first: &[u8],
        second: &[u8],
        clock: u64,
        service: &[u8],
        offset: &mut u64,
    ) -> i64;
    fn service_id(&self, protocol: &[u8], id: &mut [u8]) -> i64;
    #[allow(clippy::too_many_arguments)]
    fn write_ad(
        &self,
        family: Family,
        out: &mut [u8],
        service: &[u8],
        peer: &[u8],
        address: &[u8],
        port: u16,
        stamp: u64,
        signature: &[u8],
    ) -> i64;
    fn read_ad(&self, family: Family, ad: &[u8], fields: &mut AdFields) -> i64;
    fn write_ticket(
        &self,
        key: &[u8],
        out: &mut [u8],
        ad_hash: &[u8],
        first: u64,
        issued: u64,
        wait: u64,
    ) -> i64;
    fn read_ticket(&self, key: &[u8], ticket: &[u8], fields: &mut TicketFields) -> i64;
    fn read_message(&self, message: &[u8], epoch: u64, ad: &mut [u8]) -> i64;
    fn write_message(&self, ad: &[u8], epoch: u64, out: &mut [u8]) -> i64;
    fn sha256(&self, message: &[u8], digest: &mut [u8]) -> i64;
    fn hmac(&self, key: &[u8], message: &[u8], tag: &mut [u8]) -> i64;
}

/// The oracle, as an implementation of the calls.
pub struct Oracle;

/// Writes the bytes to the front of the buffer, or answers the refusal.
fn put(result: Result<Vec<u8>, i64>, buffer: &mut [u8]) -> i64 {
    match result {
        Ok(bytes) => {
            buffer[..bytes.len()].copy_from_slice(&bytes);
            0
        }
        Err(refusal) => -refusal,
    }
}

/// A digest where its buffer has 32 bytes, else refusal 2.
fn put_digest(digest: Vec<u8>, buffer: &mut [u8]) -> i64 {
    let fits = buffer.len() == 32;
    put(fits.then_some(digest).ok_or(2), buffer)
}

impl Calls for Oracle {
    fn open(&self, cache: &mut [u8], family: u64) -> i64 {
        put(registrar::open(cache, family), cache)
    }

    fn register(
        &self,
        cache: &mut [u8],
        key: &[u8],
        window: u64,
        clock: u64,
        ad: &[u8],
        vouched: u8,
        ticket: &[u8],
        reply: &mut [u8],
        moves: &mut u64,
    ) -> i64 {
        let request = Request {
            key,
            window,
            clock,
            ad,
            vouched,
            ticket,
            reply_len: reply.len(),
        };
        match registrar::register(cache, &request) {
            Err(refusal) => -refusal,
            Ok((answer, after)) => {
                cache.copy_from_slice(&after);
                match answer {
                    Registered::Confirmed(moved) => {
                        *moves = moved;
                        0
                    }
                    Registered::Wait(millis, ticket, moved) => {
                        *moves = moved;
                        reply.copy_from_slice(&ticket);
                        millis as i64
                    }
                }
            }
        }
    }

    fn withdraw(
        &self,
        cache: &mut [u8],
        service: &[u8],
        peer: &[u8],
        clock: u64,
        vouched: u8,
    ) -> i64 {
        put(
            registrar::withdraw(cache, service, peer, clock, vouched),
            cache,
        )
    }

    fn get_ads(&self, cache: &[u8], clock: u64, service: &[u8], list: &mut [u8]) -> i64 {
        match registrar::get_ads(cache, clock, service, list.len()) {
            Err(refusal) => -refusal,
            Ok(ads) => {
                put(Ok(ads.concat()), list);
                ads.len() as i64
            }
        }
    }

    fn newest(
        &self,
        first: &[u8],
        second: &[u8],
        clock: u64,
        service: &[u8],
        offset: &mut u64,
    ) -> i64 {
        match registrar::newest(first, second, clock, service) {
            Err(refusal) => -refusal,
            Ok(None) => 0,
            Ok(Some((which, at))) => {
                *offset = at as u64;
                which
            }
        }
    }

    fn service_id(&self, protocol: &[u8], id: &mut [u8]) -> i64 {
        put(registrar::service_id(protocol, id.len()), id)
    }

    fn write_ad(
        &self,
        family: Family,
        out: &mut [u8],
        service: &[u8],
        peer: &[u8],
        address: &[u8],
        port: u16,
        stamp: u64,
        signature: &[u8],
    ) -> i64 {
        let ad = Ad {
            service: service.to_vec(),
            peer: peer.to_vec(),
            address: address.to_vec(),
            port,
            stamp,
            signature: signature.to_vec(),
        };
        put(registrar::write_ad(family, &ad, out.len()), out)
    }

    fn read_ad(&self, family: Family, ad: &[u8], fields: &mut AdFields) -> i64 {
        match Ad::read(family, ad) {
            Err(refusal) => -refusal,
            Ok(ad) => {
                *fields = AdFields {
                    service: ad.service.try_into().unwrap(),
                    peer: ad.peer.try_into().unwrap(),
                    address: ad.address,
                    port: ad.port,
                    stamp: ad.stamp,
                    signature: ad.signature.try_into().unwrap(),
                };
                0
            }
        }
    }

    fn write_ticket(
        &self,
        key: &[u8],
        out: &mut [u8],
        ad_hash: &[u8],
        first: u64,
        issued: u64,
        wait: u64,
    ) -> i64 {
        let ticket = Ticket {
            ad_hash: ad_hash.to_vec(),
            first,
            issued,
            wait,
        };
        put(registrar::write_ticket(key, &ticket, out.len()), out)
    }

    fn read_ticket(&self, key: &[u8], ticket: &[u8], fields: &mut TicketFields) -> i64 {
        match registrar::read_ticket(key, ticket) {
            Err(refusal) => -refusal,
            Ok(ticket) => {
                *fields = TicketFields {
                    ad_hash: ticket.ad_hash.try_into().unwrap(),
                    first: ticket.first,
                    issued: ticket.issued,
                    wait: ticket.wait,
                };
                0
            }
        }
    }

    fn read_message(&self, message: &[u8], epoch: u64, ad: &mut [u8]) -> i64 {
        put(message::read(message, epoch, ad.len()), ad)
    }

    fn write_message(&self, ad: &[u8], epoch: u64, out: &mut [u8]) -> i64 {
        let message = message::write(ad, epoch, out.len());
        let length = message.as_ref().map_or(0, Vec::len) as i64;
        put(message, out) + length
    }

    fn sha256(&self, message: &[u8], digest: &mut [u8]) -> i64 {
        put_digest(sha256::sha256(message), digest)
    }

    fn hmac(&self, key: &[u8], message: &[u8], tag: &mut [u8]) -> i64 {
        put_digest(sha256::hmac(key, message), tag)
    }
}
