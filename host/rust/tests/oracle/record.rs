//! "Records": advertisements and tickets.
use super::family::Family;
use super::sha256::{hmac, sha256};
use super::{CLOCK_MAX, LIFETIME};

/// A field's bytes as a big-endian number.
pub fn number(field: &[u8]) -> u64 {
    field
        .iter()
        .fold(0, |number, byte| number * 256 + u64::from(*byte))
}

/// The fields of these lengths, one after the other; together they are the whole.
pub fn fields<const N: usize>(bytes: &[u8], lengths: [usize; N]) -> [Vec<u8>; N] {
    let mut rest = bytes;
    let fields = lengths.map(|length| {
        let (field, after) = rest.split_at(length);
        rest = after;
        field.to_vec()
    });
    assert!(rest.is_empty());
    fields
}

/// An ad; its family is that of its address.
#[derive(Clone, Debug, PartialEq, Eq)]
pub struct Ad {
    pub service: Vec<u8>,
    pub peer: Vec<u8>,
    pub address: Vec<u8>,
    pub port: u16,
    pub stamp: u64,
    pub signature: Vec<u8>,
}

impl Ad {
    pub fn of_body(family: Family, body: &[u8]) -> Ad {
        let [service, peer, address, port, stamp, signature] = fields(body, family.ad_fields());
        Ad {
            service,
            peer,
            address,
            port: number(&port) as u16,
            stamp: number(&stamp),
            signature,
        }
    }

    pub fn body(&self) -> Vec<u8> {
        [
            &self.service[..],
            &self.peer,
            &self.address,
            &self.port.to_be_bytes(),
            &self.stamp.to_be_bytes(),
            &self.signature,
        ]
        .concat()
    }

    pub fn family(&self) -> Family {
        let own = |family: &Family| family.address_len() == self.address.len();
        Family::BOTH.into_iter().find(own).unwrap()
    }

    pub fn record(&self) -> Vec<u8> {
        [vec![self.family().ad_kind()], self.body()].concat()
    }

    /// What a ticket names: the SHA-256 of the whole advertisement, its kind byte and its body (document 02, order 4).
    pub fn hash(&self) -> Vec<u8> {
        sha256(&self.record())
    }

    /// The advertisement of this family in a record, or a refusal: 4 for its length, 13 for its kind, 14 for port 0 (document 02, order 2).
    /// "An ad of the other family fails at 4."
    pub fn read(family: Family, record: &[u8]) -> Result<Ad, i64> {
        if record.len() != family.ad_len() {
            return Err(4);
        }
        if record[0] != family.ad_kind() {
            return Err(13);
        }
        let ad = Ad::of_body(family, &record[1..]);
        if ad.port == 0 {
            return Err(14);
        }
        Ok(ad)
    }
}

/// Document 02, order 4: "The new ticket is kind 8".
#[derive(Clone, Debug, PartialEq, Eq)]
pub struct Ticket {
    pub ad_hash: Vec<u8>,
    pub first: u64,
    pub issued: u64,
    pub wait: u64,
}

impl Ticket {
    /// The record with its tag: HMAC-SHA-256 of the first 57 bytes.
    pub fn record(&self, key: &[u8]) -> Vec<u8> {
        let mut record = vec![8];
        record.extend(&self.ad_hash);
        for time in [self.first, self.issued, self.wait] {
            record.extend(time.to_be_bytes());
        }
        let tag = hmac(key, &record);
        record.extend(tag);
        record
    }

    /// The ticket in a record, or refusal 7, 8 or 9, for the clock `now`.
    pub fn read(record: &[u8], key: &[u8], now: u64) -> Result<Ticket, i64> {
        if record.len() != 89 || record[0] != 8 {
            return Err(7);
        }
        let [ad_hash, first, issued, wait, tag] = fields(&record[1..], [32, 8, 8, 8, 32]);
        if tag != hmac(key, &record[..57]) {
            return Err(8);
        }
        let ticket = Ticket {
            ad_hash,
            first: number(&first),
            issued: number(&issued),
            wait: number(&wait),
        };
        if !ticket.times_hold(now) {
            return Err(9);
        }
        Ok(ticket)
    }

    /// The opposite of refusal 9: first ≤ issued ≤ now and wait from 1 to E.
    pub fn times_hold(&self, now: u64) -> bool {
        self.first <= self.issued && self.issued <= now && 1 <= self.wait && self.wait <= LIFETIME
    }

    /// Refusal 9 for a ticket by itself takes 2^40 − 1 for now.
    pub fn times_hold_alone(&self) -> bool {
        self.times_hold(CLOCK_MAX)
    }
}
