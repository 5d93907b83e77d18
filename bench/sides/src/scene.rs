//! Caches and requests to measure with.

pub const KEY: [u8; 32] = [0x6b; 32];
/// The clock of every call.
pub const NOW: u64 = 5_000_000_000;
const LIFETIME: u64 = 900_000;
/// Services that the entries are spread over.
pub const SERVICES: u64 = 20;
/// Requests that take turns in a sample.
pub const REQUESTS: usize = 16;

/// An address family, whose caches and requests are measured.
#[derive(Clone, Copy, Debug, PartialEq, Eq)]
pub enum Family {
    V4,
    V6,
}

impl Family {
    pub fn name(self) -> &'static str {
        match self {
            Family::V4 => "IPv4",
            Family::V6 => "IPv6",
        }
    }

    /// The number that opening takes.
    pub fn number(self) -> u64 {
        match self {
            Family::V4 => 4,
            Family::V6 => 6,
        }
    }

    pub fn address_len(self) -> usize {
        match self {
            Family::V4 => 4,
            Family::V6 => 16,
        }
    }

    pub fn ad_len(self) -> usize {
        139 + self.address_len()
    }

    pub fn entry_len(self) -> usize {
        8 + self.ad_len()
    }

    /// The length of a list buffer.
    pub fn list_len(self) -> usize {
        10 * self.ad_len()
    }

    /// The kinds of a head and of an entry.
    fn kinds(self) -> (u8, u8) {
        match self {
            Family::V4 => (14, 3),
            Family::V6 => (12, 11),
        }
    }

    /// An address from the source, as the highest bits of the number.
    pub fn address(self, random: &mut Random) -> u128 {
        match self {
            Family::V4 => u128::from(random.draw() as u32) << 96,
            Family::V6 => u128::from(random.draw()) << 64 | u128::from(random.draw()),
        }
    }
}

/// In the order of every table.
pub const FAMILIES: [Family; 2] = [Family::V4, Family::V6];

/// A seeded source of numbers (splitmix64).
pub struct Random(pub u64);

impl Random {
    pub fn draw(&mut self) -> u64 {
        self.0 = self.0.wrapping_add(0x9e37_79b9_7f4a_7c15);
        let z = (self.0 ^ (self.0 >> 30)).wrapping_mul(0xbf58_476d_1ce4_e5b9);
        let z = (z ^ (z >> 27)).wrapping_mul(0x94d0_49bb_1331_11eb);
        z ^ (z >> 31)
    }
}

/// The identifier with this number.
pub fn id(number: u64) -> [u8; 32] {
    plain::sha256(&number.to_be_bytes())
}

/// The service with this number, below 20 for one that entries have.
pub fn service(number: u64) -> [u8; 32] {
    id(number % SERVICES)
}

/// A cache with `held` entries, the `expired` oldest of them expired at `NOW`. Their addresses are mixed; where `apart`, all
/// have the first bit 0.
pub fn cache(family: Family, capacity: usize, held: usize, expired: usize, apart: bool) -> Vec<u8> {
    let mut random = Random(capacity as u64);
    let (head, kind) = family.kinds();
    let mut cache = vec![head];
    cache.extend((capacity as u16).to_be_bytes());
    cache.extend((held as u16).to_be_bytes());
    // The clock, and the counters: each entry was confirmed, and none has been removed.
    for number in [NOW, held as u64, 0] {
        cache.extend(number.to_be_bytes());
    }
    for slot in 0..held {
        let accepted = if slot < expired {
            NOW - LIFETIME - (expired - slot) as u64
        } else {
            NOW - LIFETIME / 2 + slot as u64
        };
        cache.push(kind);
        cache.extend(accepted.to_be_bytes());
        let address = family.address(&mut random) >> u32::from(apart);
        let (service, peer) = (service(random.draw()), random.draw());
        cache.extend(&ad(family, service, peer, address)[1..]);
    }
    cache.resize(29 + family.entry_len() * capacity, 0);
    cache
}

/// The services and peers of entries of such a cache, from the one after the `expired` oldest to the last.
pub fn pairs(family: Family, cache: &[u8], held: usize, expired: usize) -> Vec<[u8; 64]> {
    let live = held - expired;
    let slot = |turn| expired + (2 * turn + 1) * live / (2 * REQUESTS);
    let place = |turn| 29 + family.entry_len() * slot(turn);
    let pair = |turn| *cache[place(turn) + 9..].first_chunk().unwrap();
    (0..REQUESTS).map(pair).collect()
}

/// The advertisement of the peer with this number; the address is the highest bits.
pub fn ad(family: Family, service: [u8; 32], peer: u64, address: u128) -> Vec<u8> {
    let mut out = vec![0; family.ad_len()];
    let address = address.to_be_bytes();
    let write = match family {
        Family::V4 => plain::write_ad,
        Family::V6 => plain::write_ad_v6,
    };
    let address = &address[..family.address_len()];
    write(
        &mut out,
        &service,
        &id(peer),
        address,
        30303,
        NOW,
        &[0x5a; 64],
    )
    .expect("the fields have their lengths");
    out
}

/// An advertisement and the ticket that is brought with it, empty for a first request.
pub struct Request {
    pub ad: Vec<u8>,
    pub ticket: Vec<u8>,
}

/// Newcomers of services that entries have, from mixed addresses, with no ticket or one that has stayed two seconds.
pub fn newcomers(family: Family, with_ticket: bool) -> Vec<Request> {
    let mut random = Random(77);
    let one = |_| {
        let (service, peer) = (service(random.draw()), random.draw());
        let ad = ad(family, service, peer, family.address(&mut random));
        request(ad, with_ticket.then_some(2_000))
    };
    (0..REQUESTS).map(one).collect()
}

/// Newcomers that are confirmed: of new services, from addresses with the first bit 1, first seen long ago.
pub fn patient(family: Family) -> Vec<Request> {
    let mut random = Random(78);
    let one = |number| {
        let service = id(SERVICES + 1 + number as u64);
        let peer = random.draw();
        let ad = ad(
            family,
            service,
            peer,
            family.address(&mut random) | 1 << 127,
        );
        request(ad, Some(NOW))
    };
    (0..REQUESTS).map(one).collect()
}

/// With no ticket, or with one whose first request was so long before `NOW`; it is taken at `NOW`.
pub fn request(ad: Vec<u8>, stayed: Option<u64>) -> Request {
    let mut ticket = Vec::new();
    if let Some(stayed) = stayed {
        ticket.resize(89, 0);
        let (ad_hash, first) = (plain::sha256(&ad), NOW - stayed);
        plain::write_ticket(&KEY, &mut ticket, &ad_hash, first, NOW - 1_500, 1_000)
            .expect("the times hold");
    }
    Request { ad, ticket }
}
