//! The rows of the rush: who asks what of which cache.
use sides::scene::{ad, cache, id, request, service, Family, Random, FAMILIES, NOW, SERVICES};

/// The rush itself is of this capacity.
pub const CAPACITY: usize = 1_000;
/// The bytes of a ticket.
pub const TICKET: usize = 89;
/// Peers from this number on are those that ask; the entries have others.
const ASKING: u64 = 1 << 40;
/// Services from this number on are new.
const NEW: u64 = 1 << 41;
/// First asks come within so many milliseconds, in which no entry expires.
const SPELL: usize = 3_000;
/// Pairs of service and address that ask with lower bounds, and places for them.
const PAIRS: u64 = 1_000;
/// Returns that are made before the cache is put back; every other one is confirmed.
const RETURNS: usize = 20;

/// What is asked.
#[derive(Clone, Copy, PartialEq, Eq)]
pub enum Sort {
    First,
    Returns,
    /// With lower bounds: from as many pairs as there are places.
    Bounded,
    /// With lower bounds that are in force for other pairs: refused by 19.
    Refused,
}

/// A row: so many asks of a cache with so many live entries.
#[derive(Clone, Copy)]
pub struct Row {
    pub sort: Sort,
    pub family: Family,
    pub capacity: usize,
    pub live: usize,
}

impl Row {
    pub fn name(&self) -> &'static str {
        match self.sort {
            Sort::First => "first asks",
            Sort::Returns => "returns",
            Sort::Bounded => "bounded, first asks",
            Sort::Refused => "bounded, refused by 19",
        }
    }

    /// Asks of it before which it is not yet what it is named after: with lower bounds every pair asks once.
    pub fn early(&self) -> usize {
        match self.sort {
            Sort::Bounded => PAIRS as usize,
            _ => 0,
        }
    }

    /// Whether the answers are those that the row is about.
    pub fn is_answered(&self, answers: &[i64]) -> bool {
        let confirmed = answers.iter().filter(|answer| **answer == 0).count();
        match self.sort {
            Sort::First | Sort::Bounded => answers.iter().all(|answer| *answer > 0),
            Sort::Returns => {
                2 * confirmed == answers.len() && answers.iter().all(|answer| *answer >= 0)
            }
            Sort::Refused => answers.iter().all(|answer| *answer == -19),
        }
    }
}

/// The order's own row comes first.
pub fn rows() -> Vec<Row> {
    let sorts: [(Sort, &[usize]); 4] = [
        (Sort::First, &[999, 900, 500]),
        (Sort::Returns, &[900, 500]),
        (Sort::Bounded, &[900, 500]),
        (Sort::Refused, &[900]),
    ];
    let mut rows = Vec::new();
    for (sort, lives) in sorts {
        for live in lives {
            rows.extend(FAMILIES.map(|family| Row {
                sort,
                family,
                capacity: CAPACITY,
                live: *live,
            }));
        }
    }
    rows
}

/// A row's first cache and bounds, which are none but with lower bounds, and all that is asked, in order.
pub struct Scene {
    pub cache: Vec<u8>,
    pub bounds: Vec<u8>,
    /// The cache is put back after so many asks, if at all.
    pub put_back: Option<usize>,
    ad_len: usize,
    ads: Vec<u8>,
    /// None, or one to each ask.
    tickets: Vec<u8>,
    clocks: Vec<u64>,
}

impl Scene {
    pub fn of(row: &Row, count: usize) -> Scene {
        let Row {
            sort,
            family,
            capacity,
            live,
        } = *row;
        // At 900 live every wait with a service or an address in common is 2^40, so that those to be confirmed have neither.
        let apart = sort == Sort::Returns && live > 500;
        let mut scene = Scene {
            cache: cache(family, capacity, live, 0, apart),
            bounds: Vec::new(),
            put_back: (sort == Sort::Returns).then_some(RETURNS),
            ad_len: family.ad_len(),
            ads: Vec::new(),
            tickets: Vec::new(),
            clocks: Vec::new(),
        };
        let mut random = Random(sort as u64 + 1);
        match sort {
            Sort::First => scene.first_asks(family, count, &mut random),
            Sort::Returns => scene.returns(family, count, apart, &mut random),
            Sort::Bounded => scene.bounded(family, count, &mut random),
            Sort::Refused => {
                scene.first_asks(family, count, &mut random);
                scene.bounds = bounds_of_others(family);
            }
        }
        scene
    }

    pub fn count(&self) -> usize {
        self.clocks.len()
    }

    /// Whether the cache is put back behind so many asks.
    pub fn is_put_back_behind(&self, asks: usize) -> bool {
        self.put_back
            .is_some_and(|every| asks.is_multiple_of(every))
    }

    /// The ad, the ticket and the clock of an ask.
    #[inline(always)]
    pub fn ask(&self, number: usize) -> (&[u8], &[u8], u64) {
        let ad = &self.ads[number * self.ad_len..][..self.ad_len];
        let ticket = match self.tickets.get(number * TICKET..) {
            Some(tickets) if !tickets.is_empty() => &tickets[..TICKET],
            _ => &[],
        };
        (ad, ticket, self.clocks[number])
    }

    /// A first ask, whose clock rises with its number.
    fn push_first(&mut self, number: usize, count: usize, ad: &[u8]) {
        self.ads.extend(ad);
        self.clocks.push(NOW + (number * SPELL / count) as u64);
    }

    /// Different ads of the services that entries have and of new ones, from mixed addresses.
    fn first_asks(&mut self, family: Family, count: usize, random: &mut Random) {
        for number in 0..count {
            let service = any_service(number as u64, random);
            let address = family.address(random);
            let ad = ad(family, service, ASKING + number as u64, address);
            self.push_first(number, count, &ad);
        }
    }

    /// Returns in turns: one that has stayed two seconds, of a service that entries have, and one that has stayed all of the clock.
    fn returns(&mut self, family: Family, count: usize, apart: bool, random: &mut Random) {
        for number in 0..count {
            let mut address = family.address(random);
            let (of, stayed) = if number % 2 == 0 {
                (service(random.draw()), 2_000)
            } else if apart {
                // The first bit is no entry's, and the next four are no other's that is confirmed before the cache is put back.
                let five = 16 | (number / 2 % (RETURNS / 2)) as u128;
                address = address >> 5 | five << 123;
                (id(NEW + number as u64), NOW)
            } else {
                (any_service(number as u64 / 2, random), NOW)
            };
            let ad = ad(family, of, ASKING + number as u64, address);
            let asked = request(ad, Some(stayed));
            self.ads.extend(asked.ad);
            self.tickets.extend(asked.ticket);
            self.clocks.push(NOW);
        }
    }

    /// Different ads from as many pairs as there are places, each pair once in a thousand, and no bound yet.
    fn bounded(&mut self, family: Family, count: usize, random: &mut Random) {
        let addresses: Vec<u128> = (0..PAIRS).map(|_| family.address(random)).collect();
        for number in 0..count {
            let pair = number as u64 * 617 % PAIRS;
            let peer = ASKING + number as u64;
            let ad = ad(family, service(pair), peer, addresses[pair as usize]);
            self.push_first(number, count, &ad);
        }
        self.bounds = vec![0; PAIRS as usize * (41 + family.address_len())];
    }
}

/// Every other one is new.
fn any_service(number: u64, random: &mut Random) -> [u8; 32] {
    if number.is_multiple_of(2) {
        service(random.draw())
    } else {
        id(NEW + random.draw() % 1_000)
    }
}

/// Every place is in force, for pairs of which none asks.
fn bounds_of_others(family: Family) -> Vec<u8> {
    let mut bytes = Vec::new();
    for place in 0..PAIRS {
        let other = id(NEW + SERVICES + place);
        bytes.push(17);
        bytes.extend(id(place % 50));
        bytes.extend(&other[..family.address_len()]);
        bytes.extend((NOW + 600_000 + place).to_be_bytes());
    }
    bytes
}
