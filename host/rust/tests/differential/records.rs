//! Advertisements and tickets by themselves.
use super::calls::Calls;
use super::compare::Compare;
use super::inputs::{ad, id, old_ticket, unread_ad, unread_ticket, unwritten, KEY};
use super::random::Random;
use crate::oracle::family::Family;
use crate::oracle::record::Ticket;
use crate::oracle::{CLOCK_MAX, LIFETIME};

/// The right length first, then lengths that are not.
fn lengths(right: usize) -> [usize; 6] {
    [right, right - 1, right + 1, 0, 2 * right, right + 256]
}

pub fn ads_written<C: Calls>(calls: &C, family: Family) {
    let both = Compare(calls);
    let mut random = Random::new(3);
    let right = [family.ad_len(), 32, 32, family.address_len(), 64];
    // Every pair of the five lengths, each right or wrong, with every kind of port.
    for (i, j) in (0..5).flat_map(|i| (0..=i).map(move |j| (i, j))) {
        for (one, other) in (0..6).flat_map(|one| (0..6).map(move |other| (one, other))) {
            let mut given = right;
            given[i] = lengths(right[i])[one];
            given[j] = lengths(right[j])[other];
            for port in [0, 1, 256, 65535] {
                let [service, peer, address, signature] =
                    [given[1], given[2], given[3], given[4]].map(|length| random.bytes(length));
                let answer = both.write_ad(
                    family,
                    &mut unwritten(given[0]),
                    &service,
                    &peer,
                    &address,
                    port,
                    random.next(),
                    &signature,
                );
                let expected = match (given == right, port) {
                    (false, _) => -2,
                    (true, 0) => -14,
                    _ => 0,
                };
                assert_eq!(answer, expected);
            }
        }
    }
    // Every field and the buffer as the other family has them, one by one and together.
    let other = family.other();
    for (out, address) in [
        (other.ad_len(), family.address_len()),
        (family.ad_len(), other.address_len()),
        (other.ad_len(), other.address_len()),
    ] {
        let (of, by, signature) = (id(1), id(2), random.bytes(64));
        let (mut out, address) = (unwritten(out), random.bytes(address));
        let answer = both.write_ad(family, &mut out, &of, &by, &address, 1, 0, &signature);
        assert_eq!(answer, -2);
    }
}

pub fn ads_read<C: Calls>(calls: &C, family: Family) {
    let both = Compare(calls);
    let mut random = Random::new(4);
    let read = |record: &[u8]| both.read_ad(family, record, &mut unread_ad(family));
    for length in (0..=300).chain([399]) {
        let mut record = random.bytes(length);
        if let Some(kind) = record.first_mut() {
            *kind = family.ad_kind();
        }
        let expected = if length == family.ad_len() { 0 } else { -4 };
        assert_eq!(read(&record), expected);
        // Of a wrong length nothing else is asked: neither its kind nor the port that would stand there.
        if length != family.ad_len() {
            record.fill(0);
            assert_eq!(read(&record), -4);
        }
    }
    for kind in 0..=255 {
        for port in [0, 1, 255, 256, 65535] {
            let mut ad = ad(&mut random, family, 5, 50);
            ad.port = port;
            let mut record = ad.record();
            record[0] = kind;
            let expected = match (kind == family.ad_kind(), port) {
                (true, 0) => -14,
                (true, _) => 0,
                _ => -13,
            };
            assert_eq!(read(&record), expected);
        }
        let other = ad(&mut random, family.other(), 5, 50);
        let mut record = other.record();
        record[0] = kind;
        assert_eq!(read(&record), -4);
    }
}

/// Times on both sides of every edge of refusal 9.
fn times() -> Vec<(u64, u64, u64)> {
    let stamps = [
        0,
        1,
        1000,
        CLOCK_MAX - 1,
        CLOCK_MAX,
        CLOCK_MAX + 1,
        1 << 63,
        u64::MAX,
    ];
    let waits = [
        0,
        1,
        2,
        LIFETIME - 1,
        LIFETIME,
        LIFETIME + 1,
        1 << 40,
        u64::MAX,
    ];
    let pairs = stamps
        .iter()
        .flat_map(|first| stamps.map(|issued| (*first, issued)));
    pairs
        .flat_map(|(first, issued)| waits.map(|wait| (first, issued, wait)))
        .collect()
}

pub fn tickets_written<C: Calls>(calls: &C) {
    let both = Compare(calls);
    let mut random = Random::new(5);
    for (first, issued, wait) in times() {
        let mut record = unwritten(89);
        both.write_ticket(&KEY, &mut record, &id(1), first, issued, wait);
    }
    let right = [32, 89, 32];
    for (i, j) in (0..3).flat_map(|i| (0..=i).map(move |j| (i, j))) {
        for (one, other) in (0..6).flat_map(|one| (0..6).map(move |other| (one, other))) {
            let mut given = right;
            given[i] = lengths(right[i])[one];
            given[j] = lengths(right[j])[other];
            for wait in [0, 1] {
                let [key, ad_hash] = [given[0], given[2]].map(|length| random.bytes(length));
                let mut out = unwritten(given[1]);
                let answer = both.write_ticket(&key, &mut out, &ad_hash, 5, 9, wait);
                let expected = match (given == right, wait) {
                    (false, _) => -2,
                    (true, 0) => -9,
                    _ => 0,
                };
                assert_eq!(answer, expected);
            }
        }
    }
}

pub fn tickets_read<C: Calls>(calls: &C) {
    let both = Compare(calls);
    let mut random = Random::new(6);
    for (first, issued, wait) in times() {
        let ticket = Ticket {
            ad_hash: id(1),
            first,
            issued,
            wait,
        };
        both.read_ticket(&KEY, &ticket.record(&KEY), &mut unread_ticket());
        let old = old_ticket(&ad(&mut random, Family::V4, 5, 50), &ticket);
        assert_eq!(both.read_ticket(&KEY, &old, &mut unread_ticket()), -7);
    }
    for length in (0..=130).chain([142, 143, 178, 345]) {
        let mut record = random.bytes(length);
        if let Some(kind) = record.first_mut() {
            *kind = 8;
        }
        let expected = if length == 89 { -8 } else { -7 };
        assert_eq!(
            both.read_ticket(&KEY, &record, &mut unread_ticket()),
            expected
        );
        for key in [0, 31, 33, 64] {
            let answer = both.read_ticket(&random.bytes(key), &record, &mut unread_ticket());
            assert_eq!(answer, -2);
        }
    }
}

/// Every bit of a good ticket changed: refusal 7 in the kind, else 8; and the same with the tag made anew over the change.
pub fn tickets_tampered<C: Calls>(calls: &C) {
    let both = Compare(calls);
    let ticket = Ticket {
        ad_hash: id(1),
        first: 5_000,
        issued: 70_000,
        wait: 1_234,
    };
    let record = ticket.record(&KEY);
    for bit in 0..89 * 8 {
        let mut changed = record.clone();
        changed[bit / 8] ^= 1 << (bit % 8);
        let expected = if bit < 8 { -7 } else { -8 };
        assert_eq!(
            both.read_ticket(&KEY, &changed, &mut unread_ticket()),
            expected
        );
        let tag = crate::oracle::sha256::hmac(&KEY, &changed[..57]);
        changed[57..].copy_from_slice(&tag);
        both.read_ticket(&KEY, &changed, &mut unread_ticket());
    }
    let mut other_key = KEY;
    other_key[31] ^= 1;
    assert_eq!(
        both.read_ticket(&other_key, &record, &mut unread_ticket()),
        -8
    );
}
