//! The registrar as an ordinary Rust program has it: it owns what it holds, in Rust's own collections, and re-checks nothing.
//!
//! Entries are a deque, oldest first; hash maps count the entries of each service and know each pair of service and peer; a prefix tree
//! counts addresses. An ask takes the same time at any capacity, and an entry takes several times the bytes of a lent cache.
//! REGISTER alone; it answers as the library does, and [`Registrar::bytes`] is the cache that the library would have left.
#![forbid(unsafe_code)]

mod tree;

use std::collections::{HashMap, VecDeque};

use best::sha256::{sha256, Keyed};
use best::ticket;
use plain::cache::{accepted, place, write_entry, Head, HEAD_LEN};
use plain::family::{Family, Record};
use plain::record::{Ad, Ticket, TICKET_LEN};
use plain::wait::wait;
use plain::{Refusal, Registered, CLOCK_MAX, LIFETIME, WINDOW_MAX};
use tree::Tree;

type Id = [u8; 32];

struct Entry<F: Family> {
    accepted: u64,
    ad: F::Ad,
}

pub struct Registrar<F: Family> {
    pub head: Head,
    keyed: Keyed,
    entries: VecDeque<Entry<F>>,
    /// How many entries each service has.
    services: HashMap<Id, u32>,
    /// When the entry of a service and a peer was accepted.
    pairs: HashMap<(Id, Id), u64>,
    addresses: Tree,
}

impl<F: Family> Registrar<F> {
    pub fn new(capacity: usize, key: &[u8; 32]) -> Self {
        Registrar {
            head: Head::opened(capacity),
            keyed: Keyed::new(key),
            entries: VecDeque::new(),
            services: HashMap::new(),
            pairs: HashMap::new(),
            addresses: Tree::new(),
        }
    }

    /// With what a well-formed cache holds, in which no entry is withdrawn and no pair stands twice.
    pub fn holding(cache: &[u8], key: &[u8; 32]) -> Option<Self> {
        let head = Head::checked::<F>(cache)?;
        let mut registrar = Registrar::new(head.capacity, key);
        for entry in F::Entry::all(&cache[HEAD_LEN..place::<F>(head.count)]) {
            let record = [&[F::AD], &entry.as_ref()[9..]].concat();
            registrar.enter(accepted(entry), Ad::read(&record).ok()?);
        }
        registrar.head = head;
        Some(registrar)
    }

    /// The cache of these entries.
    pub fn bytes(&self) -> Vec<u8> {
        let mut cache = vec![0; place::<F>(self.head.capacity)];
        self.head.write::<F>(&mut cache);
        for (slot, entry) in self.entries.iter().enumerate() {
            let ad = Ad::<F>::read(entry.ad.as_ref()).expect("it was entered");
            write_entry(&mut cache, slot, entry.accepted, ad);
        }
        cache
    }

    /// Admits the advertisement, or writes a ticket to come back with.
    pub fn register(
        &mut self,
        window: u64,
        clock: u64,
        ad: &[u8],
        vouched: u8,
        ticket: &[u8],
        reply: &mut [u8],
    ) -> Result<Registered, Refusal> {
        let reply: &mut [u8; TICKET_LEN] = reply.try_into().map_err(|_| Refusal(2))?;
        if !(1..=WINDOW_MAX).contains(&window) {
            return Err(Refusal(2));
        }
        if !(self.head.clock..=CLOCK_MAX).contains(&clock) {
            return Err(Refusal(3));
        }
        let ad = Ad::<F>::read(ad)?;
        if vouched != 1 {
            return Err(Refusal(5));
        }
        let twin = self.pairs.get(&(*ad.service(), *ad.peer()));
        if twin.is_some_and(|accepted| clock - accepted < LIFETIME) {
            return Err(Refusal(6));
        }
        let hash = sha256(ad.bytes());
        let first = self.first_asked(window, clock, &hash, ticket)?;
        Ok(self.settle(clock, ad, &hash, first, reply))
    }

    /// When the advertiser first asked: refusals 7 to 11.
    fn first_asked(
        &self,
        window: u64,
        clock: u64,
        hash: &[u8; 32],
        ticket: &[u8],
    ) -> Result<u64, Refusal> {
        if ticket.is_empty() {
            return Ok(clock);
        }
        let ticket = ticket::read(&self.keyed, ticket, clock)?;
        if ticket.ad_hash != hash {
            return Err(Refusal(10));
        }
        let due = ticket.issued + ticket.wait;
        if !(due..=due + window).contains(&clock) {
            return Err(Refusal(11));
        }
        Ok(ticket.first)
    }

    fn settle(
        &mut self,
        clock: u64,
        ad: Ad<F>,
        hash: &[u8; 32],
        first: u64,
        reply: &mut [u8; TICKET_LEN],
    ) -> Registered {
        let expired = self.expire(clock);
        self.head = self.head.moved_on(clock, expired);
        let live = self.entries.len() as u64;
        let moves = if expired > 0 { live } else { 0 };
        let same_service = self.services.get(ad.service()).copied().unwrap_or(0);
        let points = self.addresses.points(ad.address().as_ref(), live);
        let (capacity, bits) = (self.head.capacity as u64, F::BITS as u64);
        let (wait, stayed) = (
            wait(capacity, bits, live, u64::from(same_service), points),
            clock - first,
        );
        if stayed >= wait {
            self.enter(clock, ad);
            self.head = self.head.with_one_more();
            return Registered::Confirmed { moves };
        }
        let millis = LIFETIME.min(wait - stayed);
        ticket::write(&self.keyed, &Ticket::new(hash, first, clock, millis), reply);
        Registered::Wait { millis, moves }
    }

    fn enter(&mut self, accepted: u64, ad: Ad<F>) {
        let own = F::Ad::exactly(ad.bytes()).expect("an advertisement has its length");
        self.entries.push_back(Entry { accepted, ad: *own });
        *self.services.entry(*ad.service()).or_default() += 1;
        self.pairs.insert((*ad.service(), *ad.peer()), accepted);
        self.addresses.add(ad.address().as_ref());
    }

    /// Removes the entries that have expired; how many those are.
    fn expire(&mut self, clock: u64) -> usize {
        let before = self.entries.len();
        let old = |entry: &mut Entry<F>| clock - entry.accepted >= LIFETIME;
        while let Some(entry) = self.entries.pop_front_if(old) {
            self.forget(entry);
        }
        before - self.entries.len()
    }

    /// Counts an entry no more.
    fn forget(&mut self, entry: Entry<F>) {
        let ad = Ad::<F>::read(entry.ad.as_ref()).expect("it was entered");
        if let Some(count) = self.services.get_mut(ad.service()) {
            *count -= 1;
            if *count == 0 {
                self.services.remove(ad.service());
            }
        }
        self.pairs.remove(&(*ad.service(), *ad.peer()));
        self.addresses.remove(ad.address().as_ref());
    }

    /// Back to an earlier head since which no entry has expired, for a measurement that begins anew.
    pub fn put_back(&mut self, earlier: Head) {
        while self.entries.len() > earlier.count {
            let entry = self.entries.pop_back().expect("more were entered");
            self.forget(entry);
        }
        self.head = earlier;
    }
}
