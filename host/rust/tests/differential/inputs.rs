//! Advertisements, caches and tickets to call with.
use super::calls::{AdFields, TicketFields};
use super::random::Random;
use crate::oracle::cache::{Cache, Entry};
use crate::oracle::family::Family;
use crate::oracle::record::{Ad, Ticket};
use crate::oracle::sha256::hmac;
use crate::oracle::{CLOCK_MAX, LIFETIME};

/// The capacities that honest runs and foreign caches are tried at.
pub const CAPACITIES: [usize; 9] = [1, 2, 3, 63, 64, 255, 256, 999, 1000];

pub const KEY: [u8; 32] = [0x4b; 32];

/// Bytes that a call must leave or overwrite as a whole.
pub fn unwritten(length: usize) -> Vec<u8> {
    vec![0xc3; length]
}

pub fn unread_ad(family: Family) -> AdFields {
    AdFields {
        service: [0xc3; 32],
        peer: [0xc3; 32],
        address: unwritten(family.address_len()),
        port: 0xc3c3,
        stamp: 0xc3c3_c3c3_c3c3_c3c3,
        signature: [0xc3; 64],
    }
}

pub fn unread_ticket() -> TicketFields {
    TicketFields {
        ad_hash: [0xc3; 32],
        first: 0xc3c3,
        issued: 0xc3c3,
        wait: 0xc3c3,
    }
}

/// The identifier with this number; they differ in one byte somewhere.
pub fn id(number: u64) -> Vec<u8> {
    let mut id = vec![0x1d; 32];
    id[(number % 32) as usize] ^= (number / 32 % 255 + 1) as u8;
    id
}

/// An address that shares exactly `bits` leading bits with `other`; what follows the first that differs is drawn.
pub fn address_sharing(random: &mut Random, other: &[u8], bits: u32) -> Vec<u8> {
    let mut address = other.to_vec();
    for bit in bits as usize..8 * other.len() {
        if bit == bits as usize || random.chance(50) {
            address[bit / 8] ^= 0x80 >> (bit % 8);
        }
    }
    address
}

/// The address at this place of a small network: 10.0.0.n, and 2001:db8::n.
pub fn address(family: Family, n: u8) -> Vec<u8> {
    let mut address = match family {
        Family::V4 => vec![10, 0, 0, 0],
        Family::V6 => [&[0x20, 0x01, 0x0d, 0xb8][..], &[0; 12]].concat(),
    };
    *address.last_mut().unwrap() = n;
    address
}

/// An advertisement of one of a few services, in one of a few networks.
pub fn ad(random: &mut Random, family: Family, services: u64, peers: u64) -> Ad {
    let start = random.pick(&[
        [10, 0, 0, 1],
        [10, 0, 8, 1],
        [192, 168, 1, 77],
        [203, 0, 113, 9],
    ]);
    // An IPv6 network is the same four bytes over and over.
    let network = start.repeat(family.address_len() / 4);
    let bits = match family {
        Family::V4 => random.pick(&[0, 1, 2, 8, 9, 16, 24, 31, 32]),
        Family::V6 => random.pick(&[0, 1, 2, 9, 31, 32, 33, 48, 63, 64, 65, 96, 127, 128]),
    };
    Ad {
        service: id(random.below(services)),
        peer: id(random.below(peers)),
        address: address_sharing(random, &network, bits),
        port: random.pick(&[1, 255, 256, 30303, 65535]),
        stamp: random.next() >> random.below(64),
        signature: random.bytes(64),
    }
}

/// A well-formed cache that no call need have made: equal pairs, port 0, withdrawn entries, times on both sides of expiry at `clock`,
/// counters anywhere in their range.
pub fn cache(
    random: &mut Random,
    family: Family,
    capacity: usize,
    count: usize,
    clock: u64,
) -> Cache {
    let last = clock
        - random
            .pick(&[0, 0, 1, 1000, 899_999, 900_000, 2_000_000])
            .min(clock);
    let edge = clock.saturating_sub(LIFETIME);
    let mut accepted: Vec<u64> = (0..count)
        .map(|_| match random.below(6) {
            0 => edge.min(last),
            1 => (edge + 1).min(last),
            2 => last,
            3 => last - random.below(2 * LIFETIME).min(last),
            _ => last - random.below(LIFETIME).min(last),
        })
        .collect();
    accepted.sort();
    let (services, peers) = (random.pick(&[1, 2, 5]), random.pick(&[3, 2000, 2000]));
    let quiet = random.pick(&[0, 5, 30, 80]);
    let entries = accepted.into_iter().map(|accepted| {
        let mut ad = ad(random, family, services, peers);
        if random.chance(3) {
            ad.port = 0;
        }
        Entry {
            accepted,
            withdrawn: random.chance(quiet),
            ad,
        }
    });
    let entries = entries.collect();
    let expired = counter(random);
    Cache {
        family,
        capacity,
        clock: last,
        confirmed: expired.wrapping_add(count as u64),
        expired,
        entries,
    }
}

/// A counter anywhere in its range, its ends among them.
pub fn counter(random: &mut Random) -> u64 {
    match random.below(4) {
        0 => 0,
        1 => u64::MAX - random.below(3),
        2 => random.next() >> random.below(64),
        _ => random.below(1_000),
    }
}

/// A clock anywhere in the range, its ends among them.
pub fn clock(random: &mut Random) -> u64 {
    match random.below(8) {
        0 => 0,
        1 => CLOCK_MAX,
        2 => random.below(1000),
        3 => random.pick(&[899_999, 900_000, 900_001]),
        _ => random.next() >> (24 + random.below(30)),
    }
}

/// A ticket for the advertisement that is taken at `clock` under all but the shortest windows: `stayed` ms after its first
/// request, if the clock allows.
pub fn ticket_for(random: &mut Random, ad: &Ad, clock: u64, stayed: u64) -> Ticket {
    let stayed = stayed.clamp(1.min(clock), clock);
    let late = random
        .pick(&[0, 0, 1, 500, 1000])
        .min(stayed.saturating_sub(1));
    let wait = (1 + random.below(stayed - late + 1))
        .min(stayed - late)
        .clamp(1, LIFETIME);
    Ticket {
        ad_hash: ad.hash(),
        first: clock - stayed,
        issued: (clock - late).saturating_sub(wait),
        wait,
    }
}

/// A ticket as it was before document 02's order 4, which no call takes: kind 2, service, peer, times, and a tag over these 89 bytes.
pub fn old_ticket(ad: &Ad, times: &Ticket) -> Vec<u8> {
    let times = [times.first, times.issued, times.wait].map(u64::to_be_bytes);
    let untagged = [&[2], &ad.service[..], &ad.peer, times.as_flattened()].concat();
    [&untagged[..], &hmac(&KEY, &untagged)].concat()
}

/// The advertisement with one bit of it changed, for each of its bits that leaves it an advertisement of its family: its kind, and a port
/// that is not 0.
pub fn ads_beside(ad: &Ad) -> Vec<Vec<u8>> {
    let record = ad.record();
    let changed = |bit: usize| {
        let mut changed = record.clone();
        changed[bit / 8] ^= 1 << (bit % 8);
        changed
    };
    let all = (0..record.len() * 8).map(changed);
    all.filter(|record| Ad::read(ad.family(), record).is_ok())
        .collect()
}
