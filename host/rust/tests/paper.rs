//! The oracle against the cases that documents 01 and 02 and the standards print.
mod oracle;

use oracle::cache::{Cache, Entry};
use oracle::family::Family::{self, V4, V6};
use oracle::record::{Ad, Ticket};
use oracle::registrar::{get_ads, open, register, service_id, withdraw, Registered, Request};
use oracle::sha256::{hmac, sha256};
use oracle::wait::Load;

const KEY: [u8; 32] = [0x5e; 32];

fn hex(bytes: &[u8]) -> String {
    bytes.iter().map(|byte| format!("{byte:02x}")).collect()
}

/// The address at this place of a small network: 10.0.0.n, and 2001:db8::n.
fn address(family: Family, n: u8) -> Vec<u8> {
    match family {
        V4 => vec![10, 0, 0, n],
        V6 => [&[0x20, 0x01, 0x0d, 0xb8][..], &[0; 11], &[n]].concat(),
    }
}

fn ad(peer: u8, address: &[u8]) -> Ad {
    Ad {
        service: vec![0x11; 32],
        peer: vec![peer; 32],
        address: address.to_vec(),
        port: 30303,
        stamp: 0,
        signature: vec![0xdd; 64],
    }
}

/// A request under document 01's window.
fn ask<'a>(clock: u64, ad: &'a [u8], ticket: &'a [u8]) -> Request<'a> {
    Request {
        key: &KEY,
        window: oracle::RECORDED_WINDOW,
        clock,
        ad,
        vouched: 1,
        ticket,
        reply_len: 89,
    }
}

#[test]
fn sha256_of_the_published_messages() {
    let digest = |message: &[u8]| hex(&sha256(message));
    assert_eq!(
        digest(b""),
        "e3b0c44298fc1c149afbf4c8996fb92427ae41e4649b934ca495991b7852b855"
    );
    assert_eq!(
        digest(b"abc"),
        "ba7816bf8f01cfea414140de5dae2223b00361a396177a9cb410ff61f20015ad"
    );
    assert_eq!(
        digest(b"abcdbcdecdefdefgefghfghighijhijkijkljklmklmnlmnomnopnopq"),
        "248d6a61d20638b8e5c026930c3e6039a33ce45964ff2167f6ecedd419db06c1"
    );
    assert_eq!(
        digest(
            b"abcdefghbcdefghicdefghijdefghijkefghijklfghijklmghijklmnhijklmnoijklmnopjklmnopqklmnopqrlmnopqrsmnopqrstnopqrstu"
        ),
        "cf5b16a778af8380036ce59e7b0492370b249b11e8f07a51afac45037afee9d1"
    );
    assert_eq!(
        digest(&[b'a'; 1_000_000]),
        "cdc76e5c9914fb9281a1c7e284d73e67f1809a48a497200e046d39ccc7112cd0"
    );
}

#[test]
fn hmac_of_rfc_4231() {
    let counting: Vec<u8> = (1..=25).collect();
    let long_key = [0xaa; 131];
    let cases: [(&[u8], &[u8], &str); 7] = [
        (&[0x0b; 20], b"Hi There", "b0344c61d8db38535ca8afceaf0bf12b881dc200c9833da726e9376c2e32cff7"),
        (b"Jefe", b"what do ya want for nothing?", "5bdcc146bf60754e6a042426089575c75a003f089d2739839dec58b964ec3843"),
        (&[0xaa; 20], &[0xdd; 50], "773ea91e36800e46854db8ebd09181a72959098b3ef8c122d9635514ced565fe"),
        (&counting, &[0xcd; 50], "82558a389a443c0ea4cc819899f2083a85f0faa3e578f8077a2e3ff46729665b"),
        (&[0x0c; 20], b"Test With Truncation", "a3b6167473100ee06e0c796c2955552b"),
        (
            &long_key,
            b"Test Using Larger Than Block-Size Key - Hash Key First",
            "60e431591ee0b67f0d8a26aacbf5b77f8e0bc6213728c5140546040f0ee37f54",
        ),
        (
            &long_key,
            b"This is a test using a larger than block-size key and a larger than block-size data. The key needs to be hashed before being used by the HMAC algorithm.",
            "9b09ffa71b942fcb27635fbcd5b0e944bfdc63644f0713938a7f51535c3a35e2",
        ),
    ];
    for (key, text, tag) in cases {
        assert_eq!(hex(&hmac(key, text))[..tag.len()], *tag);
    }
}

#[test]
fn identifiers_of_source_000() {
    let id = |protocol: &[u8]| hex(&service_id(protocol, 32).unwrap());
    assert_eq!(
        id(b"/waku/store/1.0.0"),
        "313a14f48b3617b0ac87daabd61c1f1f1bf6a59126da455909b7b11155e0eb8e"
    );
    assert_eq!(
        id(b"/libp2p/mix/1.2.0"),
        "9c55878d86e575916b267195b34125336c83056dffc9a184069bcb126a78115d"
    );
    for (length, refusal) in [(0, Some(12)), (1, None), (255, None), (256, Some(12))] {
        assert_eq!(service_id(&vec![b'x'; length], 32).err(), refusal);
        assert_eq!(service_id(&vec![b'x'; length], 31), Err(2));
    }
}

/// P1 to P7: capacity, c, s, p, the ticks where the paper gives them, the wait.
#[test]
fn waits_of_the_paper() {
    let cases = [
        (1000, 0, 0, 0, Some(738), 1),
        (1000, 500, 0, 0, Some(755_712), 93),
        (1000, 500, 500, 0, None, 460_800_093),
        (2, 1, 0, 32, None, 921_600_093),
        (3, 1, 0, 0, Some(42_584), 6),
        (1000, 999, 0, 0, None, 1 << 40),
        (1, 1, 0, 0, None, 1 << 40),
    ];
    for (capacity, c, s, p, ticks, wait) in cases {
        let load = Load {
            capacity,
            c,
            s,
            p,
            bits: 32,
        };
        assert_eq!(load.wait(), wait, "{load:?}");
        if let Some(ticks) = ticks {
            assert_eq!(load.ticks(10), Some(ticks), "{load:?}");
        }
    }
}

/// P2's exact wait is 92.16.
#[test]
fn exact_wait_of_the_paper() {
    use oracle::natural::Natural;
    let load = Load {
        capacity: 1000,
        c: 500,
        s: 0,
        p: 0,
        bits: 32,
    };
    let (top, under) = load.exact();
    assert_eq!(
        top.times(&Natural::of(100)),
        under.times(&Natural::of(9_216))
    );
    assert!(load.reaches_exact(93) && !load.reaches_exact(92));
    // 92.16 + 1 + 11 · 1024 / 8192 is 94.535.
    assert!(load.reaches_bound(95) && !load.reaches_bound(94));
}

/// P8 and P9.
#[test]
fn similarity_of_the_paper() {
    let similarity = |held: &[[u8; 4]], newcomer: [u8; 4]| {
        let entries = (held.iter().zip(0..))
            .map(|(address, peer)| Entry::new(0, ad(peer, address)))
            .collect();
        let cache = Cache::holding(V4, 10, 0, entries);
        cache.load(0, &ad(99, &newcomer)).p
    };
    assert_eq!(similarity(&[[10, 0, 0, 1]], [10, 0, 0, 2]), 30);
    assert_eq!(similarity(&[[10, 0, 0, 1]], [128, 0, 0, 1]), 0);
    let four = [[10, 0, 0, 1], [10, 0, 0, 2], [128, 0, 0, 1], [129, 0, 0, 1]];
    assert_eq!(similarity(&four, [10, 0, 0, 1]), 31);
}

/// Order 10's P8 and P9: one live ad at 2001:db8::1, and four of which two are in the other half. The points are counted by hand: at i where
/// k·2^i > c, with k = 1 and c = 1 at every shared bit; with k = 2 of 4 from the second bit on, and with k = 1 of 4 from the third.
#[test]
fn similarity_over_128_bits() {
    let base = address(V6, 1);
    let beside = |bit: usize| {
        let mut address = base.clone();
        address[bit / 8] ^= 0x80 >> (bit % 8);
        address
    };
    let similarity = |held: &[Vec<u8>], newcomer: &[u8]| {
        let entries = (held.iter().zip(0..))
            .map(|(address, peer)| Entry::new(0, ad(peer, address)))
            .collect();
        let cache = Cache::holding(V6, 10, 0, entries);
        let load = cache.load(0, &ad(99, newcomer));
        assert_eq!(load.bits, 128);
        load.p
    };
    for bit in 0..128 {
        assert_eq!(
            similarity(std::slice::from_ref(&base), &beside(bit)),
            bit as u64
        );
    }
    assert_eq!(similarity(std::slice::from_ref(&base), &base), 128);
    assert_eq!(similarity(&[], &base), 0);
    let four = [base.clone(), beside(127), beside(0), beside(1)];
    // k is 3 at the first bit (6 > 4), 2 from the second to the 127th, 1 at the last: all give a point.
    assert_eq!(similarity(&four, &base), 128);
    let far = [base.clone(), beside(127), beside(0), beside(0)];
    // k is 2 at the first bit, where 4 is not above 4.
    assert_eq!(similarity(&far, &base), 127);
}

/// Order 10's waits: p/128 in the recipe and in the exact wait. P4 with all 128 bits shared, and with half of them.
#[test]
fn waits_over_128_bits() {
    use oracle::natural::Natural;
    let cases = [
        (2, 1, 0, 128, 921_600_093),
        (2, 1, 0, 64, 460_800_093),
        (2, 1, 0, 32, 230_400_093),
        (2, 1, 0, 1, 7_200_093),
        (1000, 1, 0, 1, 7_103),
        (1000, 1, 0, 128, 909_050),
        (1000, 999, 0, 128, 1 << 40),
        (1, 1, 0, 128, 1 << 40),
    ];
    for (capacity, c, s, p, wait) in cases {
        let load = Load {
            capacity,
            c,
            s,
            p,
            bits: 128,
        };
        assert_eq!(load.wait(), wait, "{load:?}");
    }
    let half = Load {
        capacity: 2,
        c: 1,
        s: 0,
        p: 64,
        bits: 128,
    };
    // 900,000 · 1,024 · (1/2 + 1/10,000,000) is 460,800,092.16.
    let (top, under) = half.exact();
    let hundredths = Natural::of(46_080_009_216);
    assert_eq!(top.times(&Natural::of(100)), under.times(&hundredths));
}

/// Order 10: an ad of the other family fails at 4 in a cache of either, its list buffer at 2, and its entries' kinds at 1.
#[test]
fn other_family_of_order_10() {
    for (family, kinds, list_len) in [(V4, [11, 16], 1550), (V6, [3, 13], 1430)] {
        let held = ad(1, &address(family, 1));
        let other = ad(2, &address(family.other(), 2)).record();
        let mut cache = Cache::holding(family, 2, 0, vec![Entry::new(0, held.clone())]).bytes();
        assert_eq!(register(&cache, &ask(0, &other, &[])).err(), Some(4));
        assert_eq!(Ad::read(family, &other), Err(4));
        assert_eq!(get_ads(&cache, 0, &held.service, list_len), Err(2));
        for kind in kinds {
            cache[29] = kind;
            let record = ad(3, &address(family, 3)).record();
            assert_eq!(register(&cache, &ask(0, &record, &[])).err(), Some(1));
        }
    }
}

/// P10.
#[test]
fn lifetime_of_the_paper() {
    let entry = Entry::new(0, ad(1, &address(V4, 1)));
    assert!(entry.live(899_999) && !entry.live(900_000));
}

/// P11.
#[test]
fn window_of_the_paper() {
    let ad = ad(1, &address(V4, 1));
    let ticket = Ticket {
        ad_hash: ad.hash(),
        first: 1000,
        issued: 1000,
        wait: 1,
    };
    let (ad, ticket) = (ad.record(), ticket.record(&KEY));
    let cache = Cache::empty(V4, 4).bytes();
    for (clock, refusal) in [
        (1000, Some(11)),
        (1001, None),
        (2001, None),
        (2002, Some(11)),
    ] {
        let answer = register(&cache, &ask(clock, &ad, &ticket));
        assert_eq!(answer.err(), refusal, "at {clock}");
    }
}

/// Order 4's ticket, byte by byte; the advertisement that it names, and one that differs in its stamp; a ticket of document 01. An IPv6
/// advertisement's ticket is the same record.
#[test]
fn ticket_of_order_4() {
    for (family, length, kind) in [(V4, 143, 1), (V6, 155, 10)] {
        let record = ad(1, &address(family, 1)).record();
        assert_eq!((record.len(), record[0]), (length, kind));
        ticket_for(family);
    }
}

fn ticket_for(family: Family) {
    let mut ad = ad(1, &address(family, 1));
    let record = ad.record();
    let times = [1000u64, 1000, 1].map(u64::to_be_bytes);
    let mut ticket = [&[8], &sha256(&record)[..], times.as_flattened()].concat();
    assert_eq!(ticket.len(), 57);
    ticket.extend(hmac(&KEY, &ticket));
    assert_eq!(ticket.len(), 89);
    let cache = Cache::empty(family, 4).bytes();
    let answer = |ad: &[u8], ticket: &[u8]| register(&cache, &ask(1001, ad, ticket)).err();
    assert_eq!(answer(&record, &ticket), None);
    let mut old = [&[2], &record[1..65], times.as_flattened()].concat();
    old.extend(hmac(&KEY, &old));
    assert_eq!((old.len(), answer(&record, &old)), (121, Some(7)));
    ticket[0] = 2;
    assert_eq!(answer(&record, &ticket), Some(7));
    ticket[0] = 8;
    ad.stamp = 1;
    assert_eq!(answer(&ad.record(), &ticket), Some(10));
}

#[test]
fn opening_at_the_edge() {
    let opens = |length, family| {
        let opened = open(&vec![9; length], family);
        opened.is_ok_and(|bytes| bytes.len() == length)
    };
    for (length, opens_v4, opens_v6) in [
        (179, false, false),
        (180, true, false),
        (191, false, false),
        (192, false, true),
        (193, false, false),
        (29, false, false),
        (0, false, false),
        (151_029, true, false),
        (151_029 + 151, false, false),
        (163_029, false, true),
        (163_029 + 163, false, false),
        // As long as document 01 had it, before order 8.
        (164, false, false),
        (151_013, false, false),
        // Order 10's lengths that fit both families.
        (24_642, true, true),
        (49_255, true, true),
        (73_868, true, true),
        (98_481, true, true),
        (123_094, true, true),
        (147_707, true, true),
    ] {
        let found = [4, 6].map(|family| opens(length, family));
        assert_eq!(found, [opens_v4, opens_v6], "{length} bytes");
        for neither in [0, 1, 5, 7, 10, 46, 260, u64::MAX] {
            assert!(!opens(length, neither), "family {neither}");
        }
    }
}

/// Order 8's cache, byte by byte: the head, an entry of each kind, and its sum: confirmed 0, expired 2^64 − 1 and count 1 are well formed.
/// Order 10's IPv6 cache in the same way.
#[test]
fn cache_of_order_8() {
    caches_of(V4, 14, [3, 13], 180);
    caches_of(V6, 12, [11, 16], 192);
}

fn caches_of(family: Family, head_kind: u8, kinds: [u8; 2], length: usize) {
    let body = ad(1, &address(family, 1)).body();
    let cache = |kind: u8, confirmed: u64, expired: u64| {
        let head = [&[head_kind, 0, 1, 0, 1], &7u64.to_be_bytes()[..]].concat();
        let counters = [confirmed, expired].map(u64::to_be_bytes);
        let entry = [&[kind], &5u64.to_be_bytes()[..], &body].concat();
        [head, counters.concat(), entry].concat()
    };
    for kind in 0..=255 {
        let sound = kinds.contains(&kind);
        assert_eq!(Cache::read(&cache(kind, 1, 0)).is_some(), sound);
    }
    for (confirmed, expired, sound) in [
        (0, u64::MAX, true),
        (0, 0, false),
        (1, 1, false),
        (3, 2, true),
        (u64::MAX, u64::MAX - 1, true),
        (u64::MAX, u64::MAX, false),
    ] {
        let bytes = cache(kinds[0], confirmed, expired);
        assert_eq!(bytes.len(), length);
        let read = Cache::read(&bytes);
        assert_eq!(read.is_some(), sound, "{confirmed}, {expired}");
        if let Some(read) = read {
            assert_eq!((read.family, read.bytes()), (family, bytes));
        }
    }
    let mut bytes = cache(kinds[0], 1, 0);
    for kind in (0..=255).filter(|kind| *kind != head_kind) {
        bytes[0] = kind;
        assert_eq!(Cache::read(&bytes), None, "head of kind {kind}");
    }
}

/// Order 8's WITHDRAW: the kind becomes 13 and nothing else of the entry changes; the entry is not listed, and the pair is refused until it
/// expires. In an IPv6 cache it becomes 16.
#[test]
fn withdrawal_of_order_8() {
    withdrawal(V4, 3, 13, 1430);
    withdrawal(V6, 11, 16, 1550);
}

fn withdrawal(family: Family, kind: u8, withdrawn: u8, list_len: usize) {
    let held = ad(1, &address(family, 1));
    let mut cache = Cache::holding(family, 2, 1_000, vec![Entry::new(1_000, held.clone())]);
    let before = cache.bytes();
    let after = withdraw(&before, &held.service, &held.peer, 2_000, 1).unwrap();
    (cache.entries[0].withdrawn, cache.clock) = (true, 2_000);
    assert_eq!(after, cache.bytes());
    assert_eq!((before[29], after[29]), (kind, withdrawn));
    assert_eq!((&before[30..], &before[..5]), (&after[30..], &after[..5]));
    let listed = |cache: &[u8]| get_ads(cache, 2_000, &held.service, list_len).unwrap();
    assert_eq!((listed(&before).len(), listed(&after).len()), (1, 0));
    let again = withdraw(&after, &held.service, &held.peer, 2_000, 1);
    assert_eq!(again, Err(17));
    let record = held.record();
    let asked = |clock| register(&after, &ask(clock, &record, &[])).err();
    assert_eq!(
        (asked(2_000), asked(900_999), asked(901_000)),
        (Some(6), Some(6), None)
    );
}

/// The log program's example: `0 WAIT 1`, `0 NO 5`, `1 ADS 0`.
#[test]
fn log_of_the_paper() {
    let mut cache = open(&[0; 29 + 151 * 256], 4).unwrap();
    let [first, second] = [1, 2].map(|n| ad(n, &address(V4, n)).record());
    let (answer, after) = register(&cache, &ask(0, &first, &[])).unwrap();
    assert!(matches!(answer, Registered::Wait(1, _, 0)));
    cache = after;
    let mut unvouched = ask(0, &second, &[]);
    unvouched.vouched = 0;
    assert_eq!(register(&cache, &unvouched).err(), Some(5));
    assert_eq!(get_ads(&cache, 1, &[0x11; 32], 1430), Ok(vec![]));
}

/// "The wait 2^40 is a number like any other": a full cache at the last clock, with first = 0, answers WAIT 1.
#[test]
fn full_cache_at_the_last_clock() {
    let last = oracle::CLOCK_MAX;
    for family in Family::BOTH {
        let newcomer = ad(1, &address(family, 1));
        let ticket = Ticket {
            ad_hash: newcomer.hash(),
            first: 0,
            issued: last - 1,
            wait: 1,
        };
        let entry = Entry::new(last, ad(2, &address(family, 2)));
        let cache = Cache::holding(family, 1, last, vec![entry]);
        let (newcomer, ticket) = (newcomer.record(), ticket.record(&KEY));
        let (answer, after) = register(&cache.bytes(), &ask(last, &newcomer, &ticket)).unwrap();
        assert!(matches!(answer, Registered::Wait(1, _, 0)));
        assert_eq!(after, cache.bytes());
    }
}

/// The bounds that follow from the recipe, for every small load and many large ones.
#[test]
fn wait_is_within_its_bounds() {
    within_bounds(32);
}

/// The same over 128 bits.
#[test]
fn long_addresses_wait_is_within_its_bounds() {
    within_bounds(128);
}

fn within_bounds(bits: u64) {
    let small = (1..=12).flat_map(|capacity| {
        let occupied = (0..capacity).flat_map(|c| (0..=c).map(move |s| (c, s)));
        occupied.flat_map(move |(c, s)| (0..=bits).map(move |p| (capacity, c, s, p)))
    });
    let large = (13..=1000).flat_map(|capacity| {
        (0..40).map(move |i| {
            let c = (capacity * i / 40 + i) % capacity;
            (capacity, c, (i * 7) % (c + 1), (capacity + i) % (bits + 1))
        })
    });
    for (capacity, c, s, p) in small.chain(large) {
        let load = Load {
            capacity,
            c,
            s,
            p,
            bits,
        };
        let wait = load.wait();
        assert!(wait > 0);
        if wait < 1 << 40 {
            assert!(
                load.reaches_exact(wait) && !load.reaches_bound(wait),
                "{load:?}"
            );
        } else {
            assert!(!load.reaches_bound(1 << 40), "{load:?}");
        }
        if !load.reaches_exact((1 << 40) - 1) {
            assert_eq!(wait, 1 << 40, "{load:?}");
        }
    }
}
