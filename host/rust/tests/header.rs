//! The header for C against this crate, the archive and the library's source, and the table of refusals of docs/HOSTS.md.
use std::collections::{BTreeMap, BTreeSet};
use std::fs;
use std::mem::size_of;
use std::net::{IpAddr, Ipv4Addr, Ipv6Addr};
use std::path::{Path, PathBuf};

use unglassot::{ffi, Ad, AdRecord, Family, Id, Key, Refusal, Registered, Ticket};

fn root() -> PathBuf {
    Path::new(env!("CARGO_MANIFEST_DIR")).join("../..")
}

fn text(path: impl AsRef<Path>) -> String {
    let path = root().join(path);
    fs::read_to_string(&path).unwrap_or_else(|error| panic!("{}: {error}", path.display()))
}

fn header() -> String {
    text("host/include/unglassot.h")
}

/// What stands between two words that follow each other, and what follows.
fn between<'a>(text: &'a str, before: &str, after: &str) -> Option<(&'a str, &'a str)> {
    text.split_once(before)?.1.split_once(after)
}

/// The header's numbers, by their names without UNGLASSOT_.
fn numbers() -> BTreeMap<String, u64> {
    let mut found = BTreeMap::new();
    for line in header().lines() {
        let Some(define) = line.strip_prefix("#define UNGLASSOT_") else {
            continue;
        };
        let define = define.split("/*").next().unwrap().trim();
        let (name, value) = define.split_once(' ').unwrap_or((define, ""));
        let number = match value.trim() {
            "((UINT64_C(1) << 40) - 1)" => (1 << 40) - 1,
            "((UINT64_C(1) << 33) - 1)" => (1 << 33) - 1,
            "UINT64_C(2592000000)" => 2_592_000_000,
            "" if name == "H" => continue,
            value if name == "CACHE_LEN(capacity)" => {
                assert!(value.contains("HEAD_LEN + UNGLASSOT_ENTRY_LEN *"));
                continue;
            }
            _ if name == "SIZE(number)" => continue,
            value if name == "CACHE_V6_LEN(capacity)" => {
                assert!(value.contains("HEAD_LEN + UNGLASSOT_ENTRY_V6_LEN *"));
                continue;
            }
            value if name == "BOUNDS_LEN(places)" => {
                assert!(value.contains("(UNGLASSOT_BOUND_LEN *"));
                continue;
            }
            value if name == "BOUNDS_V6_LEN(places)" => {
                assert!(value.contains("(UNGLASSOT_BOUND_V6_LEN *"));
                continue;
            }
            value => value
                .parse()
                .unwrap_or_else(|_| panic!("not a number: {line}")),
        };
        assert!(found.insert(name.to_string(), number).is_none(), "{name}");
    }
    found
}

/// A refusal's name as the header has it, without UNGLASSOT_: `AdKind` is REFUSED_AD_KIND.
fn name_in_c(refusal: Refusal) -> String {
    let mut name = "REFUSED".to_string();
    for letter in format!("{refusal:?}").chars() {
        if letter.is_uppercase() {
            name.push('_');
        }
        name.push(letter.to_ascii_uppercase());
    }
    name
}

/// Where the library writes each field of a record, found by its bytes.
fn places(record: &[u8], fields: &[(&str, &[u8])]) -> Vec<(String, u64)> {
    let place = |bytes: &[u8]| record.windows(bytes.len()).position(|part| part == bytes);
    fields
        .iter()
        .map(|(name, bytes)| (name.to_string(), place(bytes).expect(name) as u64))
        .collect()
}

/// The address of this family whose bytes count up from the first.
fn address(family: Family, first: u8) -> IpAddr {
    match family {
        Family::V4 => Ipv4Addr::from([0, 1, 2, 3].map(|i| first + i)).into(),
        Family::V6 => {
            let bytes: [u8; 16] = std::array::from_fn(|i| first + i as u8);
            Ipv6Addr::from(bytes).into()
        }
    }
}

/// An address's bytes in the order of the network.
fn octets(address: IpAddr) -> Vec<u8> {
    match address {
        IpAddr::V4(address) => address.octets().to_vec(),
        IpAddr::V6(address) => address.octets().to_vec(),
    }
}

fn ad(family: Family) -> Ad {
    Ad {
        service: [0xa1; 32],
        peer: [0xa2; 32],
        address: address(family, 10),
        port: 0xb1b2,
        stamp: 0xc1c2_c3c4_c5c6_c7c8,
        signature: [0xa3; 64],
    }
}

/// A name in C, with what the family adds to it before its last word, or behind it.
fn of_family(family: Family, start: &str, end: &str) -> String {
    match (family, end) {
        (Family::V4, "") => start.to_string(),
        (Family::V4, end) => format!("{start}_{end}"),
        (Family::V6, "") => format!("{start}_V6"),
        (Family::V6, end) => format!("{start}_V6_{end}"),
    }
}

fn places_in_an_ad(family: Family) -> Vec<(String, u64)> {
    let ad = ad(family);
    let record = ad.write().unwrap();
    let later = |field| of_family(family, "AD", field);
    let mut found = places(
        &record,
        &[
            ("AD_SERVICE", &ad.service),
            ("AD_PEER", &ad.peer),
            ("AD_ADDRESS", &octets(ad.address)),
            (&later("PORT"), &ad.port.to_be_bytes()),
            (&later("STAMP"), &ad.stamp.to_be_bytes()),
            (&later("SIGNATURE"), &ad.signature),
        ],
    );
    found.push((of_family(family, "KIND_AD", ""), record[0].into()));
    found
}

fn places_in_a_ticket() -> Vec<(String, u64)> {
    let key = [7; 32];
    let ticket = Ticket {
        ad_hash: [0xa1; 32],
        first: 0xd1_d2d3_d4d5,
        issued: 0xe1_e2e3_e4e5,
        wait: 0xc1c2,
    };
    let record = ticket.write(&key).unwrap();
    let mut found = places(
        &record,
        &[
            ("TICKET_AD_HASH", &ticket.ad_hash),
            ("TICKET_FIRST", &ticket.first.to_be_bytes()),
            ("TICKET_ISSUED", &ticket.issued.to_be_bytes()),
            ("TICKET_WAIT", &ticket.wait.to_be_bytes()),
            ("TICKET_TAG", &unglassot::hmac(&key, &record[..57])),
        ],
    );
    found.push(("KIND_TICKET".into(), record[0].into()));
    found
}

/// A cache of capacity 0x102 with two entries, accepted at clocks whose bytes stand nowhere else, after one that expired; the first is
/// withdrawn.
fn places_in_a_cache(family: Family) -> Vec<(String, u64)> {
    let mut cache = vec![0; unglassot::cache_len(family, 0x102)];
    unglassot::open(&mut cache, family).unwrap();
    let clock = 0xd1_d2d3_d4d5;
    let [old, ad, other] =
        [(0xa2, 10), (0xb2, 10), (0xc2, 200)].map(|(peer, first)| ad_by(family, peer, first));
    let before = admitted(&mut cache, clock - unglassot::LIFETIME - 1_000, &old);
    assert!(before + unglassot::LIFETIME < clock);
    let accepted = admitted(&mut cache, clock, &ad);
    let clock = admitted(&mut cache, accepted, &other);
    unglassot::withdraw(&mut cache, &[0xa1; 32], &[0xb2; 32], clock, true).unwrap();
    let (head, entries) = cache.split_at(29);
    let (entry, next) = entries.split_at(entry_len(family));
    let counters = unglassot::counters(&cache).unwrap();
    assert_eq!((counters.confirmed, counters.expired), (3, 1));
    let mut found = places(
        head,
        &[
            ("HEAD_CAPACITY", &[1, 2]),
            ("HEAD_COUNT", &[0, 2, 0]),
            ("HEAD_CLOCK", &clock.to_be_bytes()),
            ("HEAD_CONFIRMED", &counters.confirmed.to_be_bytes()),
            ("HEAD_EXPIRED", &counters.expired.to_be_bytes()),
        ],
    );
    found.extend(places(
        entry,
        &[
            ("ENTRY_ACCEPTED", &accepted.to_be_bytes()),
            ("ENTRY_BODY", &ad[1..]),
        ],
    ));
    for (name, kind) in [
        ("KIND_HEAD", head[0]),
        ("KIND_ENTRY", next[0]),
        ("KIND_WITHDRAWN", entry[0]),
    ] {
        found.push((of_family(family, name, ""), kind.into()));
    }
    found
}

/// The bound that a first request leaves.
fn places_in_a_bound(family: Family) -> Vec<(String, u64)> {
    let mut cache = vec![0; unglassot::cache_len(family, 1)];
    let mut bounds = vec![0; unglassot::bounds_len(family, 1)];
    unglassot::open(&mut cache, family).unwrap();
    let (clock, ad) = (0xd1_d2d3_d4d5, ad(family));
    let record = ad.write().unwrap();
    let window = unglassot::USUAL_WINDOW;
    let key = [7; 32];
    unglassot::register_bounded(
        &mut cache,
        &mut bounds,
        &key,
        window,
        clock,
        &record,
        true,
        &[],
    )
    .unwrap();
    // On an empty registrar the wait is 1 ms.
    let until = of_family(family, "BOUND", "UNTIL");
    let mut found = places(
        &bounds,
        &[
            ("BOUND_SERVICE", &ad.service),
            ("BOUND_ADDRESS", &octets(ad.address)),
            (&until, &(clock + 1).to_be_bytes()),
        ],
    );
    found.push(("KIND_BOUND".into(), bounds[0].into()));
    found
}

fn entry_len(family: Family) -> usize {
    unglassot::cache_len(family, 1) - unglassot::cache_len(family, 0)
}

/// An ad by another peer.
fn ad_by(family: Family, peer: u8, first: u8) -> AdRecord {
    let (peer, address) = ([peer; 32], address(family, first));
    Ad {
        peer,
        address,
        ..ad(family)
    }
    .write()
    .unwrap()
}

/// Registers until the ad is confirmed, from this clock on; when it was.
fn admitted(cache: &mut [u8], mut clock: u64, ad: &[u8]) -> u64 {
    let mut brought = Vec::new();
    while let Registered::Wait { millis, ticket, .. } = unglassot::register(
        cache,
        &[7; 32],
        unglassot::USUAL_WINDOW,
        clock,
        ad,
        true,
        &brought,
    )
    .unwrap()
    {
        clock += millis;
        brought = ticket.to_vec();
    }
    clock
}

/// Every number of the header is this crate's, or what the library does; a new one has to be added here.
#[test]
fn numbers_are_the_crates() {
    let sizes = [
        ("KEY_LEN", size_of::<Key>()),
        ("ID_LEN", size_of::<Id>()),
        ("SIGNATURE_LEN", unglassot::SIGNATURE_LEN),
        ("DIGEST_LEN", unglassot::sha256(&[]).len()),
        ("TICKET_LEN", unglassot::TICKET_LEN),
        ("MESSAGE_MAX", unglassot::MESSAGE_MAX),
        ("HEAD_LEN", unglassot::cache_len(Family::V4, 0)),
        ("CAPACITY_MAX", unglassot::CAPACITY_MAX),
        ("LISTED_MAX", unglassot::LISTED_MAX),
        ("BOUNDS_MAX", unglassot::BOUNDS_MAX),
        ("SMALL_CAPACITY_MAX", unglassot::small::CAPACITY_MAX),
        ("PROTOCOL_MAX", longest_protocol()),
    ];
    let mut expected: BTreeMap<String, u64> = sizes
        .map(|(name, size)| (name.to_string(), size as u64))
        .into();
    expected.insert("VERSION".into(), unglassot::VERSION as u64);
    expected.insert("LIFETIME".into(), unglassot::LIFETIME);
    expected.insert("USUAL_WINDOW".into(), unglassot::USUAL_WINDOW);
    expected.insert("WINDOW_MIN".into(), unglassot::WINDOW_MIN);
    expected.insert("WINDOW_MAX".into(), unglassot::WINDOW_MAX);
    expected.insert("SMALL_WINDOW".into(), unglassot::small::WINDOW);
    expected.insert("STAMP_AGE_MAX".into(), unglassot::small::STAMP_AGE_MAX);
    expected.insert("CLOCK_MAX".into(), unglassot::CLOCK_MAX);
    expected.insert("EPOCH_MAX".into(), unglassot::EPOCH_MAX);
    for refusal in Refusal::ALL {
        expected.insert(name_in_c(refusal), refusal.number() as u64);
    }
    expected.extend(places_in_a_ticket());
    for family in Family::ALL {
        for (start, size) in [
            ("ADDRESS", octets(ad(family).address).len()),
            ("AD", family.ad_len()),
            ("LIST", family.ad_len() * unglassot::LISTED_MAX),
            ("ENTRY", entry_len(family)),
            ("BOUND", unglassot::bounds_len(family, 1)),
        ] {
            expected.insert(of_family(family, start, "LEN"), size as u64);
        }
        let name = format!("FAMILY_V{}", family.number());
        expected.insert(name, family.number());
        for (name, place) in places_in_an_ad(family)
            .into_iter()
            .chain(places_in_a_cache(family))
            .chain(places_in_a_bound(family))
        {
            // What stands at one place in both families has one name.
            let before = expected.insert(name.clone(), place);
            assert!(before.is_none_or(|before| before == place), "{name}");
        }
    }
    let found = numbers();
    for (name, number) in &expected {
        assert_eq!(found.get(name), Some(number), "UNGLASSOT_{name}");
    }
    let more: Vec<_> = found
        .keys()
        .filter(|name| !expected.contains_key(*name))
        .collect();
    assert!(more.is_empty(), "compared with nothing: {more:?}");
}

fn longest_protocol() -> usize {
    let taken = |length: usize| unglassot::service_id(&vec![b'x'; length]).is_ok();
    (1..1_000)
        .take_while(|length| taken(*length))
        .last()
        .unwrap()
}

#[test]
fn version_is_the_archives() {
    // SAFETY: it takes nothing.
    assert_eq!(unsafe { ffi::unglassot_version() }, unglassot::VERSION);
}

#[test]
fn sentences_are_the_same_in_c_and_on_the_hosts_page() {
    let (header, page) = (header(), text("docs/HOSTS.md"));
    for refusal in Refusal::ALL {
        let case = format!("case -UNGLASSOT_{}:", name_in_c(refusal));
        let (said, _) = between(&header, &case, "\";").expect("a case for every refusal");
        assert_eq!(said.trim(), format!("return \"{}", refusal.sentence()));
        let row = format!("| {} | {} |", refusal.number(), refusal.sentence());
        assert!(page.contains(&row), "docs/HOSTS.md has no line {row}");
    }
}

/// Parameters of each call, as `name: type` in this crate's words.
type Calls = BTreeMap<String, Vec<String>>;

/// The name and the parameters of each call in a text: between `start` and `(`, and from there to `end`.
fn pieces<'a>(mut text: &'a str, start: &str, end: &str) -> Vec<(&'a str, &'a str)> {
    let mut found = Vec::new();
    while let Some((name, rest)) = between(text, start, "(") {
        let (parameters, rest) = rest.split_once(end).expect("the end of a call");
        found.push((name, parameters));
        text = rest;
    }
    found
}

fn parameters(list: &str) -> impl Iterator<Item = String> + '_ {
    list.split(',')
        .map(|each| each.split_whitespace().collect::<Vec<_>>().join(" "))
        .filter(|each| !each.is_empty() && each != "void")
}

/// `const uint8_t *key` is `key: *const u8`, `uint8_t peer[32]` is `peer: *mut [u8; 32]`.
fn from_c(parameter: String) -> String {
    let number = |word: &str| match word {
        "size_t" => "usize".to_string(),
        word => word.replace("uint", "u").replace("_t", ""),
    };
    let (kind, name) = parameter.rsplit_once(' ').expect("a type and a name");
    if let Some((name, length)) = name.split_once('[') {
        return format!("{name}: *mut [{}; {length}", number(kind));
    }
    match (name.strip_prefix('*'), kind.strip_prefix("const ")) {
        (Some(name), Some(kind)) => format!("{name}: *const {}", number(kind)),
        (Some(name), None) => format!("{name}: *mut {}", number(kind)),
        (None, _) => format!("{name}: {}", number(kind)),
    }
}

/// `key: &[u8]` is `key: *const u8` and `key_len: usize`, `peer: &mut [u8; 32]` is `peer: *mut [u8; 32]`.
fn from_source(parameter: String) -> Vec<String> {
    let (name, kind) = parameter.split_once(": ").expect("a name and a type");
    let length = format!("{name}_len: usize");
    match kind {
        "&[u8]" => vec![format!("{name}: *const u8"), length],
        "&mut [u8]" => vec![format!("{name}: *mut u8"), length],
        kind => vec![format!("{name}: {}", kind.replace("&mut ", "*mut "))],
    }
}

/// A text of the library's source, with the lengths of its table in place of their names.
fn with_lengths(source: &str) -> String {
    let table = text("crates/record/src/layout.rt");
    table
        .lines()
        .filter_map(|line| line.strip_prefix("pub const ")?.split_once(": usize = "))
        .fold(source.to_string(), |source, (name, length)| {
            let length = length.trim_end_matches(';');
            source.replace(&format!("[u8; layout::{name}]"), &format!("[u8; {length}]"))
        })
}

#[test]
fn calls_are_the_sources() {
    let header = header();
    let in_c: Calls = pieces(&header, "\nint64_t ", ");")
        .into_iter()
        .map(|(name, list)| (name.to_string(), parameters(list).map(from_c).collect()))
        .collect();
    let ffi = text("host/rust/src/ffi.rs");
    let in_rust: Calls = pieces(&ffi, "pub fn ", ") -> i64;")
        .into_iter()
        .map(|(name, list)| (name.to_string(), parameters(list).collect()))
        .collect();
    let mut source = Calls::new();
    for file in fs::read_dir(root().join("crates/unglassot_c/src")).unwrap() {
        let file = with_lengths(&text(file.unwrap().path()));
        for (name, list) in pieces(&file, "pub extern \"C\" fn ", ") -> i64") {
            let list = parameters(list).flat_map(from_source).collect();
            source.insert(name.to_string(), list);
        }
    }
    assert_eq!(source.len(), 24);
    assert_eq!(in_c, source);
    assert_eq!(in_rust, source);
    let named: BTreeSet<&str> = header
        .split(|letter: char| !letter.is_ascii_alphanumeric() && letter != '_')
        .filter(|word| word.starts_with("unglassot_"))
        .collect();
    let helpers = ["unglassot_is_this_version", "unglassot_refusal_text"];
    let known: BTreeSet<&str> = source.keys().map(String::as_str).chain(helpers).collect();
    assert_eq!(named, known, "the header speaks of calls that there are");
}
