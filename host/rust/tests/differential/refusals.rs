//! Every refusal condition, every pair of them, lengths off by one, and bytes at random.
use super::calls::Calls;
use super::compare::Compare;
use super::inputs::{
    ad, address, ads_beside, cache, clock, id, old_ticket, unread_ad, unread_ticket, unwritten, KEY,
};
use super::random::Random;
use crate::oracle::cache::{Cache, Entry};
use crate::oracle::family::Family;
use crate::oracle::record::{Ad, Ticket};
use crate::oracle::sha256::{hmac, sha256};
use crate::oracle::{CLOCK_MAX, LIFETIME, USUAL_WINDOW, WINDOWS};

/// A condition of the refusal table that a request can be given.
#[derive(Clone, Copy, Debug, PartialEq, Eq)]
enum Defect {
    CacheKind,
    CacheFamily,
    EntryFamily,
    CacheLength,
    CacheRest,
    CacheSum,
    KeyShort,
    KeyLong,
    ReplyShort,
    ReplyLong,
    WindowZero,
    WindowLong,
    WindowMost,
    ClockBack,
    ClockHigh,
    AdShort,
    AdLong,
    AdEmpty,
    AdFamily,
    AdKind,
    AdPort,
    Vouched(u8),
    Held,
    Withdrawn,
    TicketShort,
    TicketLong,
    TicketByte,
    TicketOf(usize),
    TicketKind,
    OldTicket,
    Tag,
    OtherKey,
    FirstAfterIssued,
    IssuedAfterNow,
    WaitZero,
    WaitLong,
    OtherService,
    OtherPeer,
    OtherAddress,
    OtherPort,
    OtherStamp,
    OtherSignature,
    HashFirst,
    HashLast,
    HashOfBody,
    Early,
    Late,
}

use Defect::*;

/// REGISTER's refusals in the order of checking.
const ORDER: [i64; 13] = [1, 2, 3, 4, 13, 14, 5, 6, 7, 8, 9, 10, 11];

const DEFECTS: [(Defect, i64); 52] = [
    (CacheKind, 1),
    (CacheFamily, 1),
    (EntryFamily, 1),
    (CacheLength, 1),
    (CacheRest, 1),
    (CacheSum, 1),
    (KeyShort, 2),
    (KeyLong, 2),
    (ReplyShort, 2),
    (ReplyLong, 2),
    (WindowZero, 2),
    (WindowLong, 2),
    (WindowMost, 2),
    (ClockBack, 3),
    (ClockHigh, 3),
    (AdShort, 4),
    (AdLong, 4),
    (AdEmpty, 4),
    (AdFamily, 4),
    (AdKind, 13),
    (AdPort, 14),
    (Vouched(0), 5),
    (Vouched(2), 5),
    (Vouched(129), 5),
    (Vouched(255), 5),
    (Held, 6),
    (Withdrawn, 6),
    (TicketShort, 7),
    (TicketLong, 7),
    (TicketByte, 7),
    (TicketOf(120), 7),
    (TicketOf(121), 7),
    (TicketOf(122), 7),
    (TicketKind, 7),
    (OldTicket, 7),
    (Tag, 8),
    (OtherKey, 8),
    (FirstAfterIssued, 9),
    (IssuedAfterNow, 9),
    (WaitZero, 9),
    (WaitLong, 9),
    (OtherService, 10),
    (OtherPeer, 10),
    (OtherAddress, 10),
    (OtherPort, 10),
    (OtherStamp, 10),
    (OtherSignature, 10),
    (HashFirst, 10),
    (HashLast, 10),
    (HashOfBody, 10),
    (Early, 11),
    (Late, 11),
];

struct Case {
    cache: Vec<u8>,
    key: Vec<u8>,
    window: u64,
    clock: u64,
    ad: Vec<u8>,
    vouched: u8,
    ticket: Vec<u8>,
    reply: usize,
}

/// The right length or number, or that of the first of these defects which the request has.
fn picked<T: Copy, const N: usize>(defects: &[Defect], right: T, wrong: [(Defect, T); N]) -> T {
    let found = wrong.iter().find(|(defect, _)| defects.contains(defect));
    found.map_or(right, |(_, value)| *value)
}

/// The hash on a ticket for this advertisement, or for one that differs from it where the defects say.
fn hash_named(ad: &Ad, defects: &[Defect]) -> Vec<u8> {
    let mut ad = ad.clone();
    for defect in defects {
        match defect {
            OtherService => ad.service = id(7),
            OtherPeer => ad.peer = id(7),
            OtherAddress => *ad.address.last_mut().unwrap() ^= 1,
            OtherPort => ad.port ^= 1,
            OtherStamp => ad.stamp += 1,
            OtherSignature => ad.signature[63] ^= 1,
            _ => {}
        }
    }
    let mut hash = if defects.contains(&HashOfBody) {
        sha256(&ad.body())
    } else {
        ad.hash()
    };
    hash[0] ^= u8::from(defects.contains(&HashFirst));
    hash[31] ^= u8::from(defects.contains(&HashLast));
    hash
}

/// A request of this family that has these defects and no others.
fn case(family: Family, defects: &[Defect]) -> Case {
    let has = |defect: Defect| defects.contains(&defect);
    let clock = if has(ClockHigh) {
        CLOCK_MAX + 1
    } else {
        10_000_000
    };
    let mut ad = Ad {
        service: id(1),
        peer: id(2),
        address: address(family, 1),
        port: 30303,
        stamp: 17,
        signature: vec![0xee; 64],
    };

    let entry = |accepted, service, peer| {
        let mut ad = ad.clone();
        ad.service = id(service);
        ad.peer = id(peer);
        Entry::new(accepted, ad)
    };
    // Expired entries of the same pair, live ones of the same service or the same peer, and perhaps the pair itself.
    let mut entries = vec![
        entry(clock - LIFETIME - 1, 1, 2),
        entry(clock - LIFETIME, 1, 2),
        entry(clock - LIFETIME + 1, 1, 3),
        entry(clock - 2_000, 4, 2),
    ];
    if has(Held) || has(Withdrawn) {
        let accepted = clock - LIFETIME + 1;
        entries.insert(2, entry(accepted, 1, 2));
        entries[2].withdrawn = has(Withdrawn);
    }
    let last = if has(ClockBack) {
        CLOCK_MAX.min(clock + 1)
    } else {
        clock - 1_000
    };
    let mut cache = Cache::holding(family, 7, last, entries).bytes();
    if has(CacheKind) {
        cache[0] = 4;
    }
    if has(CacheFamily) {
        cache[0] = family.other().head_kind();
    }
    if has(EntryFamily) {
        cache[29] = family.other().withdrawn_kind();
    }
    if has(CacheSum) {
        cache[28] ^= 1;
    }
    if has(CacheRest) {
        *cache.last_mut().unwrap() = 1;
    }
    if has(CacheLength) {
        cache.push(0);
    }

    let mut ticket = Ticket {
        ad_hash: hash_named(&ad, defects),
        first: clock - 50_000,
        issued: clock - 20_000,
        wait: 20_000 - USUAL_WINDOW,
    };
    if has(Early) {
        ticket.wait = 20_001;
    }
    if has(Late) {
        ticket.wait = 20_000 - USUAL_WINDOW - 1;
    }
    if has(FirstAfterIssued) {
        ticket.first = ticket.issued + 1;
    }
    if has(IssuedAfterNow) {
        ticket.issued = clock + 1;
    }
    if has(WaitLong) {
        ticket.wait = LIFETIME + 1;
    }
    if has(WaitZero) {
        ticket.wait = 0;
    }
    let old = old_ticket(&ad, &ticket);
    let mut ticket = ticket.record(if has(OtherKey) { &[0x4c; 32] } else { &KEY });
    if has(TicketKind) {
        ticket[0] = 2;
        let tag = hmac(&KEY, &ticket[..57]);
        ticket[57..].copy_from_slice(&tag);
    }
    if has(Tag) {
        ticket[88] ^= 0x80;
    }
    if has(OldTicket) {
        ticket = old;
    }
    let lengths = [
        (TicketShort, 88),
        (TicketLong, 90),
        (TicketByte, 1),
        (TicketOf(120), 120),
        (TicketOf(121), 121),
        (TicketOf(122), 122),
    ];
    ticket.resize(picked(defects, ticket.len(), lengths), 0);

    if has(AdPort) {
        ad.port = 0;
    }
    if has(AdFamily) {
        ad.address = address(family.other(), 1);
    }
    let mut ad = ad.record();
    if has(AdKind) {
        ad[0] = family.entry_kind();
    }
    let right = ad.len();
    let lengths = [(AdShort, right - 1), (AdLong, right + 1), (AdEmpty, 0)];
    ad.resize(picked(defects, right, lengths), 0);
    let mut key = KEY.to_vec();
    key.resize(picked(defects, 32, [(KeyShort, 31), (KeyLong, 33)]), 0);
    let vouched = defects.iter().find_map(|defect| match defect {
        Vouched(byte) => Some(*byte),
        _ => None,
    });
    let windows = [
        (WindowZero, 0),
        (WindowLong, WINDOWS.end() + 1),
        (WindowMost, u64::MAX),
    ];
    Case {
        cache,
        key,
        window: picked(defects, USUAL_WINDOW, windows),
        clock,
        ad,
        vouched: vouched.unwrap_or(1),
        ticket,
        reply: picked(defects, 89, [(ReplyShort, 88), (ReplyLong, 90)]),
    }
}

/// Runs the request with these defects as a return, and as a first request where they are none of the ticket's.
fn refused<C: Calls>(both: &Compare<C>, family: Family, chosen: &[(Defect, i64)]) {
    let defects: Vec<Defect> = chosen.iter().map(|(defect, _)| *defect).collect();
    let is_chosen = |number: &&i64| chosen.iter().any(|(_, other)| other == *number);
    let first = ORDER.iter().find(is_chosen);
    let brings: &[bool] = if first.is_none_or(|number| !(7..=11).contains(number)) {
        &[true, false]
    } else {
        &[true]
    };
    for brought in brings {
        let mut case = case(family, &defects);
        if !brought {
            case.ticket.clear();
        }
        let answer = both.register(
            &mut case.cache,
            &case.key,
            case.window,
            case.clock,
            &case.ad,
            case.vouched,
            &case.ticket,
            &mut unwritten(case.reply),
        );
        match first {
            Some(number) => assert_eq!(answer, -number, "{defects:?}, ticket {brought}"),
            None => assert!(answer >= 0, "{answer}"),
        }
    }
}

/// Each condition by itself, every pair, and many larger sets: the first in the order of checking is given.
pub fn each_and_every_pair<C: Calls>(calls: &C, family: Family) {
    let both = Compare(calls);
    let mut random = Random::new(12);
    refused(&both, family, &[]);
    for (i, one) in DEFECTS.iter().enumerate() {
        refused(&both, family, &[*one]);
        for other in &DEFECTS[..i] {
            refused(&both, family, &[*one, *other]);
        }
    }
    for _ in 0..5_000 {
        let percent = random.pick(&[5, 10, 30]);
        let chosen: Vec<_> = DEFECTS
            .into_iter()
            .filter(|_| random.chance(percent))
            .collect();
        refused(&both, family, &chosen);
    }
}

/// A ticket that is taken with its advertisement is refused with any that differs in a bit, and so is one that names a hash which
/// differs in a bit. What it has earned makes no difference: it has stayed since the clock began.
pub fn other_ads<C: Calls>(calls: &C, family: Family) {
    let both = Compare(calls);
    let mut random = Random::new(19);
    for _ in 0..4 {
        let newcomer = ad(&mut random, family, 3, 50);
        let clock = 10_000_000 + random.below(1 << 30);
        let ticket = Ticket {
            ad_hash: newcomer.hash(),
            first: 0,
            issued: clock - 1,
            wait: 1,
        };
        let brought = |ad: &[u8], ticket: &Ticket| {
            let (mut cache, mut reply) = (Cache::empty(family, 3).bytes(), unwritten(89));
            let ticket = ticket.record(&KEY);
            both.register(
                &mut cache,
                &KEY,
                USUAL_WINDOW,
                clock,
                ad,
                1,
                &ticket,
                &mut reply,
            )
        };
        assert_eq!(brought(&newcomer.record(), &ticket), 0);
        let others = ads_beside(&newcomer);
        assert!(others.len() >= family.body_len() * 8 - 1);
        for other in others {
            assert_eq!(brought(&other, &ticket), -10);
        }
        for bit in 0..32 * 8 {
            let mut other = ticket.clone();
            other.ad_hash[bit / 8] ^= 1 << (bit % 8);
            assert_eq!(brought(&newcomer.record(), &other), -10);
        }
    }
}

const CACHE_DEFECTS: [Option<Defect>; 7] = [
    None,
    Some(CacheKind),
    Some(CacheFamily),
    Some(EntryFamily),
    Some(CacheLength),
    Some(CacheRest),
    Some(CacheSum),
];

pub fn of_get_ads<C: Calls>(calls: &C, family: Family) {
    let both = Compare(calls);
    let right = family.list_len();
    let lists = [
        right,
        family.other().list_len(),
        0,
        family.ad_len(),
        right - 1,
        right + 1,
    ];
    for cache_defect in CACHE_DEFECTS {
        for clock_defect in [None, Some(ClockBack), Some(ClockHigh)] {
            for service in [32, 0, 31, 33] {
                for list in lists {
                    let defects: Vec<_> = cache_defect.into_iter().chain(clock_defect).collect();
                    let case = case(family, &defects);
                    let mut wanted = id(1);
                    wanted.resize(service, 0);
                    let answer =
                        both.get_ads(&case.cache, case.clock, &wanted, &mut unwritten(list));
                    let expected = match (cache_defect, service, list == right, clock_defect) {
                        (Some(_), ..) => -1,
                        (None, 32, true, Some(_)) => -3,
                        (None, 32, true, None) => 1,
                        _ => -2,
                    };
                    assert_eq!(answer, expected);
                }
            }
        }
    }
}

/// Every condition of WITHDRAW with every other: the first of 1, 2, 3, 5 and 17 is given, and it leaves the cache as it was, what has
/// expired too.
pub fn of_withdraw<C: Calls>(calls: &C, family: Family) {
    let both = Compare(calls);
    let lengths = [
        (32, 32),
        (31, 32),
        (33, 32),
        (0, 32),
        (32, 31),
        (32, 33),
        (32, 0),
    ];
    // Whom the withdrawal is for: the pair of a live entry, or a service, a peer or a pair of which there is none.
    let pairs = [
        (1, 2, true),
        (4, 2, true),
        (1, 3, true),
        (4, 3, false),
        (1, 9, false),
        (9, 2, false),
    ];
    for (cache_defect, clock_defect) in CACHE_DEFECTS
        .into_iter()
        .flat_map(|cache| [None, Some(ClockBack), Some(ClockHigh)].map(|clock| (cache, clock)))
    {
        for held in [None, Some(Held), Some(Withdrawn)] {
            let defects: Vec<_> = cache_defect
                .into_iter()
                .chain(clock_defect)
                .chain(held)
                .collect();
            let case = case(family, &defects);
            for ((service, peer), vouched, pair) in lengths.into_iter().flat_map(|lengths| {
                [1, 0, 2, 129, 255]
                    .into_iter()
                    .flat_map(move |vouched| pairs.map(|pair| (lengths, vouched, pair)))
            }) {
                let (mut of, mut by) = (id(pair.0), id(pair.1));
                of.resize(service, 0);
                by.resize(peer, 0);
                let is_held = pair.2 && ((pair.0, pair.1) != (1, 2) || held == Some(Held));
                let expected = match (cache_defect, (service, peer), clock_defect, vouched) {
                    (Some(_), ..) => -1,
                    (None, (32, 32), None, 1) if is_held => 0,
                    (None, (32, 32), None, 1) => -17,
                    (None, (32, 32), None, _) => -5,
                    (None, (32, 32), Some(_), _) => -3,
                    _ => -2,
                };
                let mut after = case.cache.clone();
                let answer = both.withdraw(&mut after, &of, &by, case.clock, vouched);
                assert_eq!(answer, expected, "{defects:?}, {pair:?}, vouched {vouched}");
                assert_eq!(after == case.cache, expected != 0);
            }
        }
    }
}

/// Every buffer of every call at its right length, one less, one more, none and double, in every combination.
pub fn lengths_off_by_one<C: Calls>(calls: &C, family: Family) {
    let both = Compare(calls);
    let lengths = |right: usize| [right, right - 1, right + 1, 0, 2 * right];
    let base = case(family, &[]);
    let resized = |bytes: &[u8], length: usize| {
        let mut bytes = bytes.to_vec();
        bytes.resize(length, 0);
        bytes
    };
    for cache in lengths(base.cache.len()) {
        let cache = resized(&base.cache, cache);
        for family in [0, 4, 6] {
            both.open(&mut cache.clone(), family);
        }
        for service in lengths(32) {
            let service = resized(&id(1), service);
            for list in lengths(family.list_len()) {
                both.get_ads(&cache, base.clock, &service, &mut unwritten(list));
            }
            for peer in lengths(32) {
                let peer = resized(&id(3), peer);
                both.withdraw(&mut cache.clone(), &service, &peer, base.clock, 1);
            }
        }
        for key in lengths(32) {
            for ad in lengths(family.ad_len()) {
                for ticket in lengths(89) {
                    for reply in lengths(89) {
                        both.register(
                            &mut cache.clone(),
                            &resized(&base.key, key),
                            base.window,
                            base.clock,
                            &resized(&base.ad, ad),
                            1,
                            &resized(&base.ticket, ticket),
                            &mut unwritten(reply),
                        );
                    }
                }
            }
        }
    }
    for length in lengths(89) {
        let ticket = resized(&base.ticket, length);
        for key in lengths(32) {
            both.read_ticket(&resized(&KEY, key), &ticket, &mut unread_ticket());
        }
    }
    for length in lengths(family.ad_len()) {
        let ad = resized(&base.ad, length);
        both.read_ad(family, &ad, &mut unread_ad(family));
    }
}

/// A length that is right about half of the time.
fn near(random: &mut Random, right: usize) -> usize {
    match random.below(8) {
        0 => random.index(2 * right),
        1 => right + 1,
        2 => right - 1,
        3 => 0,
        _ => right,
    }
}

/// All bytes at random, with some of what a call looks at first put right.
pub fn random_bytes<C: Calls>(calls: &C, family: Family) {
    let both = Compare(calls);
    let mut random = Random::new(13);
    let lengths = [
        32,
        family.cache_len(2),
        family.ad_len(),
        89,
        89,
        32,
        family.list_len(),
        255,
        family.address_len(),
        64,
    ];
    for _ in 0..12_000 {
        let mut some = |right: usize| {
            let length = near(&mut random, right);
            random.bytes(length)
        };
        let [key, mut held, mut ad_bytes, mut ticket, mut reply, service, mut list, protocol, address, signature] =
            lengths.map(&mut some);
        let now = clock(&mut random);
        if random.chance(60) {
            let count = random.index(4);
            held = cache(&mut random, family, 3, count, now).bytes();
        }
        if random.chance(50) && ad_bytes.len() > 70 {
            ad_bytes[0] = family.ad_kind();
        }
        if random.chance(50) && !ticket.is_empty() {
            ticket[0] = 8;
        }
        if random.chance(50) && ticket.len() == 89 {
            ticket[1..33].copy_from_slice(&sha256(&ad_bytes));
        }
        if random.chance(30) && key.len() == 32 && ticket.len() == 89 {
            let tag = hmac(&key, &ticket[..57]);
            ticket[57..].copy_from_slice(&tag);
        }
        let now = if random.chance(10) {
            random.next()
        } else {
            now
        };
        let vouched = random.pick(&[1, 1, 1, random_byte(now)]);
        let any = random.next() >> random.below(64);
        let longest = *WINDOWS.end();
        let window = random.pick(&[0, 1, USUAL_WINDOW, USUAL_WINDOW, longest, longest + 1, any]);
        both.get_ads(&held, now, &service, &mut list);
        both.register(
            &mut held.clone(),
            &key,
            window,
            now,
            &ad_bytes,
            vouched,
            &ticket,
            &mut reply,
        );
        both.register(
            &mut held.clone(),
            &key,
            window,
            now,
            &ad_bytes,
            vouched,
            &[],
            &mut reply,
        );
        both.withdraw(&mut held.clone(), &service, &key, now, vouched);
        both.open(&mut held, random.pick(&[family.number(), 4, 6, now]));
        both.service_id(&protocol, &mut reply);
        both.service_id(&protocol, &mut unwritten(32));
        both.read_ad(family, &ad_bytes, &mut unread_ad(family));
        both.read_ticket(&key, &ticket, &mut unread_ticket());
        let other = ad(&mut random, family, 3, 3);
        let port = random.next() as u16;
        both.write_ad(
            family,
            &mut ad_bytes,
            &service,
            &other.peer,
            &address,
            port,
            now,
            &signature,
        );
        let (issued, wait) = (
            random.next() >> random.below(64),
            random.below(2 * LIFETIME),
        );
        let first = issued.saturating_sub(random.below(1000));
        both.write_ticket(&key, &mut ticket, &service, first, issued, wait);
        both.sha256(&protocol, &mut ticket);
        both.hmac(&protocol, &signature, &mut reply);
    }
}

fn random_byte(number: u64) -> u8 {
    (number ^ number >> 8) as u8
}
