//! Advertisements and tickets as bytes.
use crate::family::{Family, Record, V4, V6};
use crate::sha256::{hmac, same_tag, sha256, DIGEST_LEN};
use crate::{be16, be64, Refusal, CLOCK_MAX, LIFETIME};

pub const TICKET_LEN: usize = 89;
/// What the tag is over.
pub const TAGGED_LEN: usize = TICKET_LEN - DIGEST_LEN;

/// A checked advertisement.
pub struct Ad<'a, F: Family>(&'a F::Ad);

impl<F: Family> Clone for Ad<'_, F> {
    fn clone(&self) -> Self {
        *self
    }
}

impl<F: Family> Copy for Ad<'_, F> {}

/// Where the address begins; port, stamp and signature stand behind it.
const ADDRESS: usize = 65;

impl<'a, F: Family> Ad<'a, F> {
    pub fn bytes(self) -> &'a [u8] {
        self.0.as_ref()
    }

    /// What stands behind the address.
    fn rest(self) -> &'a [u8] {
        &self.bytes()[ADDRESS + F::ADDRESS_LEN..]
    }

    pub fn service(self) -> &'a [u8; 32] {
        self.bytes()[1..].first_chunk().unwrap()
    }

    pub fn peer(self) -> &'a [u8; 32] {
        self.bytes()[33..].first_chunk().unwrap()
    }

    pub fn address(self) -> &'a F::Address {
        F::Address::exactly(&self.bytes()[ADDRESS..][..F::ADDRESS_LEN]).unwrap()
    }

    pub fn port(self) -> u16 {
        be16(self.rest(), 0)
    }

    pub fn stamp(self) -> u64 {
        be64(self.rest(), 2)
    }

    pub fn signature(self) -> &'a [u8; 64] {
        self.rest()[10..].first_chunk().unwrap()
    }

    /// Everything after the kind.
    pub fn body(self) -> &'a [u8] {
        &self.bytes()[1..]
    }

    /// What a ticket names: the digest of the whole advertisement, three blocks.
    pub fn hash(self) -> [u8; DIGEST_LEN] {
        sha256(self.bytes())
    }

    /// The advertisement in a record: refusals 4, 13 and 14.
    pub fn read(record: &'a [u8]) -> Result<Self, Refusal> {
        let ad = Ad::<F>(F::Ad::exactly(record).ok_or(Refusal(4))?);
        if record[0] != F::AD {
            return Err(Refusal(13));
        }
        if ad.port() == 0 {
            return Err(Refusal(14));
        }
        Ok(ad)
    }
}

pub fn read_ad(record: &[u8]) -> Result<Ad<'_, V4>, Refusal> {
    Ad::read(record)
}

pub fn read_ad_v6(record: &[u8]) -> Result<Ad<'_, V6>, Refusal> {
    Ad::read(record)
}

pub fn write_ad(
    out: &mut [u8],
    service: &[u8],
    peer: &[u8],
    address: &[u8],
    port: u16,
    stamp: u64,
    signature: &[u8],
) -> Result<(), Refusal> {
    write_ad_of::<V4>(out, service, peer, address, port, stamp, signature)
}

pub fn write_ad_v6(
    out: &mut [u8],
    service: &[u8],
    peer: &[u8],
    address: &[u8],
    port: u16,
    stamp: u64,
    signature: &[u8],
) -> Result<(), Refusal> {
    write_ad_of::<V6>(out, service, peer, address, port, stamp, signature)
}

fn write_ad_of<F: Family>(
    out: &mut [u8],
    service: &[u8],
    peer: &[u8],
    address: &[u8],
    port: u16,
    stamp: u64,
    signature: &[u8],
) -> Result<(), Refusal> {
    let lengths = [service, peer, address, signature].map(<[u8]>::len);
    if out.len() != F::AD_LEN || lengths != [32, 32, F::ADDRESS_LEN, 64] {
        return Err(Refusal(2));
    }
    if port == 0 {
        return Err(Refusal(14));
    }
    out[0] = F::AD;
    out[1..33].copy_from_slice(service);
    out[33..65].copy_from_slice(peer);
    let (to_address, rest) = out[ADDRESS..].split_at_mut(F::ADDRESS_LEN);
    to_address.copy_from_slice(address);
    rest[..2].copy_from_slice(&port.to_be_bytes());
    rest[2..10].copy_from_slice(&stamp.to_be_bytes());
    rest[10..].copy_from_slice(signature);
    Ok(())
}

/// A ticket's fields, without its tag.
#[derive(Clone, Copy)]
pub struct Ticket<'a> {
    pub ad_hash: &'a [u8; DIGEST_LEN],
    pub first: u64,
    pub issued: u64,
    pub wait: u64,
}

impl<'a> Ticket<'a> {
    pub fn new(ad_hash: &'a [u8; DIGEST_LEN], first: u64, issued: u64, wait: u64) -> Self {
        Ticket {
            ad_hash,
            first,
            issued,
            wait,
        }
    }

    /// The ticket in a record, for the clock `now`: refusals 7, 8 and 9.
    pub(crate) fn read(key: &[u8], record: &'a [u8], now: u64) -> Result<Self, Refusal> {
        let record: &[u8; TICKET_LEN] = record.try_into().map_err(|_| Refusal(7))?;
        if record[0] != 8 {
            return Err(Refusal(7));
        }
        let (tagged, tag) = record.split_last_chunk().unwrap();
        if !same_tag(&hmac(key, tagged), tag) {
            return Err(Refusal(8));
        }
        let ad_hash = record[1..].first_chunk().unwrap();
        let [first, issued, wait] = [33, 41, 49].map(|at| be64(record, at));
        let ticket = Ticket::new(ad_hash, first, issued, wait);
        if !ticket.times_hold(now) {
            return Err(Refusal(9));
        }
        Ok(ticket)
    }

    pub(crate) fn write(&self, key: &[u8], out: &mut [u8; TICKET_LEN]) {
        out[0] = 8;
        out[1..33].copy_from_slice(self.ad_hash);
        out[33..41].copy_from_slice(&self.first.to_be_bytes());
        out[41..49].copy_from_slice(&self.issued.to_be_bytes());
        out[49..57].copy_from_slice(&self.wait.to_be_bytes());
        let tag = hmac(key, &out[..TAGGED_LEN]);
        out[TAGGED_LEN..].copy_from_slice(&tag);
    }

    pub fn times_hold(&self, now: u64) -> bool {
        self.first <= self.issued && self.issued <= now && (1..=LIFETIME).contains(&self.wait)
    }
}

pub fn read_ticket<'a>(key: &[u8], record: &'a [u8]) -> Result<Ticket<'a>, Refusal> {
    if key.len() != 32 {
        return Err(Refusal(2));
    }
    Ticket::read(key, record, CLOCK_MAX)
}

pub fn write_ticket(
    key: &[u8],
    out: &mut [u8],
    ad_hash: &[u8],
    first: u64,
    issued: u64,
    wait: u64,
) -> Result<(), Refusal> {
    let (Ok(out), Ok(ad_hash), 32) = (out.try_into(), ad_hash.try_into(), key.len()) else {
        return Err(Refusal(2));
    };
    let ticket = Ticket::new(ad_hash, first, issued, wait);
    if !ticket.times_hold(CLOCK_MAX) {
        return Err(Refusal(9));
    }
    ticket.write(key, out);
    Ok(())
}
