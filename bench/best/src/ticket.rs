//! Tickets under a key's two states.
use plain::record::{TAGGED_LEN, TICKET_LEN};
use plain::sha256::{same_tag, DIGEST_LEN};
use plain::{be64, Refusal, Ticket, CLOCK_MAX};

use crate::sha256::Keyed;

/// The ticket in a record, for the clock `now`: refusals 7, 8 and 9. The tag is made where the length and the kind are right.
pub fn read<'a>(keyed: &Keyed, record: &'a [u8], now: u64) -> Result<Ticket<'a>, Refusal> {
    let record: &[u8; TICKET_LEN] = record.try_into().map_err(|_| Refusal(7))?;
    if record[0] != 8 {
        return Err(Refusal(7));
    }
    let (tagged, tag) = record.split_last_chunk::<DIGEST_LEN>().unwrap();
    if !same_tag(&keyed.ticket_tag(tagged.try_into().unwrap()), tag) {
        return Err(Refusal(8));
    }
    let ad_hash = record[1..].first_chunk().unwrap();
    let [first, issued, wait] = [33, 41, 49].map(|at| be64(record, at));
    let ticket = Ticket::new(ad_hash, first, issued, wait);
    if !ticket.times_hold(now) {
        return Err(Refusal(9));
    }
    Ok(ticket)
}

pub fn write(keyed: &Keyed, ticket: &Ticket, out: &mut [u8; TICKET_LEN]) {
    out[0] = 8;
    out[1..33].copy_from_slice(ticket.ad_hash);
    out[33..41].copy_from_slice(&ticket.first.to_be_bytes());
    out[41..49].copy_from_slice(&ticket.issued.to_be_bytes());
    out[49..57].copy_from_slice(&ticket.wait.to_be_bytes());
    let tag = keyed.ticket_tag(out.first_chunk().unwrap());
    out[TAGGED_LEN..].copy_from_slice(&tag);
}

pub fn read_ticket<'a>(key: &[u8], record: &'a [u8]) -> Result<Ticket<'a>, Refusal> {
    if key.len() != 32 {
        return Err(Refusal(2));
    }
    read(&Keyed::new(key), record, CLOCK_MAX)
}

pub fn write_ticket(
    key: &[u8],
    out: &mut [u8],
    ad_hash: &[u8],
    first: u64,
    issued: u64,
    wait: u64,
) -> Result<(), Refusal> {
    let (Ok(out), Ok(ad_hash), 32) = (out.try_into(), ad_hash.try_into(), key.len()) else {
        return Err(Refusal(2));
    };
    let ticket = Ticket::new(ad_hash, first, issued, wait);
    if !ticket.times_hold(CLOCK_MAX) {
        return Err(Refusal(9));
    }
    write(&Keyed::new(key), &ticket, out);
    Ok(())
}
