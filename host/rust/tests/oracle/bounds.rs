//! Document 02, order 12, "Asking afresh must not pay": lower bounds on waits, which are its floors, and the call beside REGISTER that keeps them.
use super::cache::Cache;
use super::family::Family;
use super::record::{fields, number, Ad};
use super::registrar::{checked, decided, stayed, unjudged, Judge, Registered, Request};
use super::{CLOCK_MAX, LIFETIME};

/// "Until at most 2^40 − 1 + 900,000".
pub const UNTIL_MAX: u64 = CLOCK_MAX + 900_000;
/// "A second lent room of 1 to 1,000 floors".
pub const PLACES: std::ops::RangeInclusive<usize> = 1..=1000;

/// "Kind 17 (service 32, address of the room's family, until 8)".
#[derive(Clone, Debug, PartialEq, Eq)]
pub struct Bound {
    pub service: Vec<u8>,
    pub address: Vec<u8>,
    pub until: u64,
}

impl Bound {
    pub fn of(ad: &Ad, until: u64) -> Bound {
        Bound {
            service: ad.service.clone(),
            address: ad.address.clone(),
            until,
        }
    }

    pub fn record(&self) -> Vec<u8> {
        let until = self.until.to_be_bytes();
        [&[17][..], &self.service, &self.address, &until].concat()
    }

    fn same_pair(&self, other: &Bound) -> bool {
        self.service == other.service && self.address == other.address
    }

    fn is_of(&self, ad: &Ad) -> bool {
        self.service == ad.service && self.address == ad.address
    }
}

/// The kind, the service, the address and until: 45 bytes in IPv4 and 57 in IPv6.
pub fn bound_len(family: Family) -> usize {
    1 + 32 + family.address_len() + 8
}

/// A buffer of bounds: "no head, ... packed, in order of entry, each pair once, ... then zeros".
#[derive(Clone, Debug, PartialEq, Eq)]
pub struct Bounds {
    pub family: Family,
    pub places: usize,
    pub held: Vec<Bound>,
}

impl Bounds {
    pub fn holding(family: Family, places: usize, held: Vec<Bound>) -> Bounds {
        Bounds {
            family,
            places,
            held,
        }
    }

    /// The bounds in these bytes, or refusal 18. How long a record is follows the cache's family, never the buffer's length.
    pub fn read(family: Family, bytes: &[u8]) -> Result<Bounds, i64> {
        let size = bound_len(family);
        let places = PLACES
            .into_iter()
            .find(|places| places * size == bytes.len())
            .ok_or(18)?;
        let slots: Vec<&[u8]> = bytes.chunks(size).collect();
        let in_use = slots.iter().take_while(|slot| slot[0] == 17).count();
        let (front, behind) = slots.split_at(in_use);
        let bound = |slot: &&[u8]| {
            let [_, service, address, until] = fields(slot, [1, 32, family.address_len(), 8]);
            let until = number(&until);
            Bound {
                service,
                address,
                until,
            }
        };
        let held: Vec<Bound> = front.iter().map(bound).collect();
        let late = held.iter().any(|bound| bound.until > UNTIL_MAX);
        let twice = (0..in_use).any(|i| (0..i).any(|j| held[i].same_pair(&held[j])));
        if late || twice || behind.concat().iter().any(|byte| *byte != 0) {
            return Err(18);
        }
        Ok(Bounds::holding(family, places, held))
    }

    pub fn bytes(&self) -> Vec<u8> {
        let mut bytes: Vec<u8> = self.held.iter().flat_map(Bound::record).collect();
        bytes.resize(self.places * bound_len(self.family), 0);
        bytes
    }

    /// The until of the ad's service and address.
    fn until(&self, ad: &Ad) -> Option<u64> {
        let own = self.held.iter().find(|bound| bound.is_of(ad));
        own.map(|bound| bound.until)
    }

    /// "The pair has no floor and every place has until > now."
    fn crowded(&self, now: u64, ad: &Ad) -> bool {
        let full = self.held.len() == self.places;
        self.until(ad).is_none() && full && self.held.iter().all(|bound| bound.until > now)
    }

    /// "Floors with until ≤ now are dropped first, the pair's own is rewritten in place, a new one goes last."
    fn enter(&mut self, now: u64, ad: &Ad, until: u64) {
        self.held.retain(|bound| bound.until > now);
        match self.held.iter_mut().find(|bound| bound.is_of(ad)) {
            Some(own) => own.until = until,
            None => self.held.push(Bound::of(ad, until)),
        }
    }
}

/// REGISTER with bounds: the answer, the cache's bytes and the bounds'. "18 floor room not of this form, after 1; 19 last of all."
pub fn register_bounded(
    cache: &[u8],
    bounds: &[u8],
    request: &Request,
) -> Result<(Registered, Vec<u8>, Vec<u8>), i64> {
    register_judged(cache, bounds, request, unjudged)
}

pub fn register_judged(
    cache: &[u8],
    bounds: &[u8],
    request: &Request,
    judge: Judge,
) -> Result<(Registered, Vec<u8>, Vec<u8>), i64> {
    let now = request.clock;
    let family = Cache::read(cache).ok_or(1)?.family;
    let mut read = Bounds::read(family, bounds)?;
    let (cache, ad, ticket) = checked(cache, request, judge)?;
    // "The wait used is the larger of the recipe's and until − now."
    let left = read.until(&ad).unwrap_or(0).saturating_sub(now);
    let used = cache.load(now, &ad).wait().max(left);
    // "A ticket would be issued": stayed is less than the wait used.
    if stayed(now, &ticket) < used && read.crowded(now, &ad) {
        return Err(19);
    }
    let until = now + LIFETIME.min(used);
    let (answer, after) = decided(cache, request, ad.clone(), ticket, used);
    // "When a ticket is issued, until becomes now plus the smaller of E and the wait used"; "CONFIRMED and refusals leave floors untouched".
    if let Registered::Confirmed(_) = answer {
        return Ok((answer, after, bounds.to_vec()));
    }
    read.enter(now, &ad, until);
    Ok((answer, after, read.bytes()))
}
