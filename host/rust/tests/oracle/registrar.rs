//! The calls, as values in and values out: the answer and what every lent buffer holds afterwards. A refusal is `Err`.
use super::cache::{Cache, Entry};
use super::family::Family;
use super::record::{Ad, Ticket};
use super::sha256::sha256;
use super::{CLOCK_MAX, LIFETIME, WINDOWS};

/// Opening: the cache's bytes. The family is told by its number, 4 or 6.
pub fn open(cache: &[u8], family: u64) -> Result<Vec<u8>, i64> {
    let family = Family::of_number(family).ok_or(1)?;
    let capacity = family.capacity_of(cache.len()).ok_or(1)?;
    Ok(Cache::empty(family, capacity).bytes())
}

/// What REGISTER does where it does not refuse. Last is how many held records changed their place.
#[derive(Debug, PartialEq, Eq)]
pub enum Registered {
    Confirmed(u64),
    /// The wait and the bytes of the new ticket.
    Wait(u64, Vec<u8>, u64),
}

/// A REGISTER request.
#[derive(Clone, Debug)]
pub struct Request<'a> {
    pub key: &'a [u8],
    pub window: u64,
    pub clock: u64,
    pub ad: &'a [u8],
    pub vouched: u8,
    pub ticket: &'a [u8],
    pub reply_len: usize,
}

/// What is asked of the advertisement at this clock between refusals 5 and 6: nothing, or what order 14 asks of its stamp.
pub type Judge = fn(&Ad, u64) -> Result<(), i64>;

/// "The stamp is carried and not judged."
pub fn unjudged(_: &Ad, _: u64) -> Result<(), i64> {
    Ok(())
}

/// What the refusal table leaves to act on: the cache, the advertisement and the ticket, if one was brought.
pub fn checked(
    cache: &[u8],
    request: &Request,
    judge: Judge,
) -> Result<(Cache, Ad, Option<Ticket>), i64> {
    let now = request.clock;
    let cache = Cache::read(cache).ok_or(1)?;
    if request.key.len() != 32 || request.reply_len != 89 || !WINDOWS.contains(&request.window) {
        return Err(2);
    }
    if now < cache.clock || now > CLOCK_MAX {
        return Err(3);
    }
    let ad = Ad::read(cache.family, request.ad)?;
    if request.vouched != 1 {
        return Err(5);
    }
    judge(&ad, now)?;
    // Withdrawn or not: a quiet ad "brings refusal 6 until it expires".
    let same = |entry: &&Entry| entry.is_of(&ad.service, &ad.peer);
    if cache.live(now).iter().any(same) {
        return Err(6);
    }
    if request.ticket.is_empty() {
        return Ok((cache, ad, None));
    }
    let ticket = Ticket::read(request.ticket, request.key, now)?;
    if ticket.ad_hash != ad.hash() {
        return Err(10);
    }
    let due = ticket.issued + ticket.wait;
    if now < due || now > due + request.window {
        return Err(11);
    }
    Ok((cache, ad, Some(ticket)))
}

/// "Stayed is 0 without a ticket, else now − first."
pub fn stayed(now: u64, ticket: &Option<Ticket>) -> u64 {
    match ticket {
        None => 0,
        Some(ticket) => now - ticket.first,
    }
}

/// What a request that passes every check gets where the wait is this: the answer and the cache's bytes.
pub fn decided(
    mut cache: Cache,
    request: &Request,
    ad: Ad,
    ticket: Option<Ticket>,
    wait: u64,
) -> (Registered, Vec<u8>) {
    let now = request.clock;
    let stayed = stayed(now, &ticket);
    let earlier = cache.entries.len();
    cache.move_on(now);
    // The number of earlier ads that stay if at least one expired, and 0 otherwise.
    let stay = cache.entries.len();
    let moves = if stay < earlier { stay as u64 } else { 0 };
    if stayed >= wait {
        cache.confirm(now, ad);
        return (Registered::Confirmed(moves), cache.bytes());
    }
    let reply = Ticket {
        ad_hash: ad.hash(),
        first: ticket.map_or(now, |ticket| ticket.first),
        issued: now,
        wait: LIFETIME.min(wait - stayed),
    };
    let answer = Registered::Wait(reply.wait, reply.record(request.key), moves);
    (answer, cache.bytes())
}

/// "REGISTER, step by step": the answer and the cache's bytes.
pub fn register(cache: &[u8], request: &Request) -> Result<(Registered, Vec<u8>), i64> {
    register_judged(cache, request, unjudged)
}

pub fn register_judged(
    cache: &[u8],
    request: &Request,
    judge: Judge,
) -> Result<(Registered, Vec<u8>), i64> {
    let (cache, ad, ticket) = checked(cache, request, judge)?;
    let wait = cache.load(request.clock, &ad).wait();
    Ok(decided(cache, request, ad, ticket, wait))
}

/// WITHDRAW (document 02, order 8): the cache's bytes.
pub fn withdraw(
    cache: &[u8],
    service: &[u8],
    peer: &[u8],
    now: u64,
    vouched: u8,
) -> Result<Vec<u8>, i64> {
    let mut cache = Cache::read(cache).ok_or(1)?;
    if service.len() != 32 || peer.len() != 32 {
        return Err(2);
    }
    if now < cache.clock || now > CLOCK_MAX {
        return Err(3);
    }
    if vouched != 1 {
        return Err(5);
    }
    // "The oldest live unquiet ad of that pair": the first in place.
    let unquiet = |entry: &Entry| entry.live(now) && !entry.withdrawn;
    let wanted = |entry: &Entry| unquiet(entry) && entry.is_of(service, peer);
    let oldest = cache.entries.iter().position(wanted).ok_or(17)?;
    cache.entries[oldest].withdrawn = true;
    cache.move_on(now);
    Ok(cache.bytes())
}

/// GET_ADS: the records to be written at the front of the list buffer. A quiet ad "isn't listed" and uses up none of the ten.
pub fn get_ads(
    cache: &[u8],
    now: u64,
    service: &[u8],
    list_len: usize,
) -> Result<Vec<Vec<u8>>, i64> {
    let cache = Cache::read(cache).ok_or(1)?;
    if service.len() != 32 || list_len != cache.family.list_len() {
        return Err(2);
    }
    if now < cache.clock || now > CLOCK_MAX {
        return Err(3);
    }
    let live = cache.live(now).into_iter();
    let wanted = live.filter(|entry| entry.ad.service == service && !entry.withdrawn);
    Ok(wanted.take(10).map(|entry| entry.ad.record()).collect())
}

/// What order 9 asks of one cache before it is searched.
fn asked(cache: &[u8], now: u64, service: &[u8]) -> Result<Cache, i64> {
    let cache = Cache::read(cache).ok_or(1)?;
    if service.len() != 32 {
        return Err(2);
    }
    if now < cache.clock || now > CLOCK_MAX {
        return Err(3);
    }
    Ok(cache)
}

/// Document 02, order 9: the cache, 1 or 2, that holds "that service's live, unquiet ad accepted last", and where its body begins there: nine
/// bytes into its entry, behind the head and the entries before it. The two "may differ" in family (order 10).
/// The refusals are those "of the first room, then of the second".
pub fn newest(
    first: &[u8],
    second: &[u8],
    now: u64,
    service: &[u8],
) -> Result<Option<(i64, usize)>, i64> {
    let caches = [asked(first, now, service)?, asked(second, now, service)?];
    let mut best: Option<(u64, i64, usize)> = None;
    for (cache, which) in caches.iter().zip(1..) {
        for (place, entry) in cache.entries.iter().enumerate() {
            if !entry.live(now) || entry.withdrawn || entry.ad.service != service {
                continue;
            }
            // "Equal times in one room: the later place; in both rooms: the first room."
            let better = match best {
                None => true,
                Some((time, _, _)) if entry.accepted > time => true,
                Some((time, holder, _)) => entry.accepted == time && holder == which,
            };
            if better {
                best = Some((entry.accepted, which, place));
            }
        }
    }
    Ok(best.map(|(_, which, place)| {
        let family = caches[which as usize - 1].family;
        (which, family.cache_len(place) + 9)
    }))
}

/// The identifier of a service.
pub fn service_id(protocol: &[u8], id_len: usize) -> Result<Vec<u8>, i64> {
    if id_len != 32 {
        return Err(2);
    }
    if protocol.is_empty() || protocol.len() > 255 {
        return Err(12);
    }
    Ok(sha256(protocol))
}

/// Writing the fields of an advertisement of this family.
pub fn write_ad(family: Family, ad: &Ad, out_len: usize) -> Result<Vec<u8>, i64> {
    let lengths = [&ad.service, &ad.peer, &ad.address, &ad.signature].map(|field| field.len());
    if out_len != family.ad_len() || lengths != [32, 32, family.address_len(), 64] {
        return Err(2);
    }
    if ad.port == 0 {
        return Err(14);
    }
    Ok(ad.record())
}

/// Reading a ticket under a key.
pub fn read_ticket(key: &[u8], ticket: &[u8]) -> Result<Ticket, i64> {
    if key.len() != 32 {
        return Err(2);
    }
    Ticket::read(ticket, key, CLOCK_MAX)
}

/// Writing a ticket's fields.
pub fn write_ticket(key: &[u8], ticket: &Ticket, out_len: usize) -> Result<Vec<u8>, i64> {
    if key.len() != 32 || out_len != 89 || ticket.ad_hash.len() != 32 {
        return Err(2);
    }
    if !ticket.times_hold_alone() {
        return Err(9);
    }
    Ok(ticket.record(key))
}
