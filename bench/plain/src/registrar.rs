//! The calls on a cache, and service identifiers. Each call with a cache chooses the family once, by the head's kind.
use crate::bounds;
use crate::cache::{
    accepted, body, capacity_of, peer, place, remove_expired, service, stamp, tally,
    withdraw_entry, withdrawn, write_entry, Cache, Head,
};
use crate::family::{Family, Told, V4, V6};
use crate::record::{Ad, Ticket, TICKET_LEN};
use crate::sha256::{sha256, DIGEST_LEN};
use crate::small;
use crate::wait::wait;
use crate::{Refusal, CLOCK_MAX, LIFETIME, WINDOW_MAX};

const LISTED_MAX: usize = 10;

/// What [`register`] answers; the wait is in milliseconds, and `moves` is how many held entries changed their place.
#[derive(Clone, Copy, Debug, PartialEq, Eq)]
pub enum Registered {
    Confirmed { moves: u64 },
    Wait { millis: u64, moves: u64 },
}

/// A set of calls: the full ones, or those of small registrars. Each call is compiled once for each.
pub trait Set {
    const SMALL: bool;
}

pub struct Full;
pub struct Small;

impl Set for Full {
    const SMALL: bool = false;
}

impl Set for Small {
    const SMALL: bool = true;
}

/// Checks that the cache is well formed, and small enough: refusal 1.
#[inline(always)]
fn read<F: Family, S: Set>(cache: &[u8]) -> Result<Cache<'_, F>, Refusal> {
    let held = Cache::read(cache)?;
    if S::SMALL && held.head.capacity > small::CAPACITY_MAX {
        return Err(Refusal(1));
    }
    Ok(held)
}

/// The oldest stamp that a listing shows.
#[inline(always)]
fn oldest<S: Set>(clock: u64) -> u64 {
    if S::SMALL {
        clock.saturating_sub(small::STAMP_AGE_MAX)
    } else {
        0
    }
}

/// Whether a listing may show the entry: a stamp after the clock is not too old.
#[inline(always)]
fn is_shown<F: Family, S: Set>(entry: &F::Entry, oldest: u64) -> bool {
    !withdrawn::<F>(entry) && (!S::SMALL || stamp::<F>(entry) >= oldest)
}

/// Makes an empty cache of the bytes, of the family 4 or 6.
pub fn open(cache: &mut [u8], family: u64) -> Result<(), Refusal> {
    open_by::<Full>(cache, family)
}

pub fn open_by<S: Set>(cache: &mut [u8], family: u64) -> Result<(), Refusal> {
    match Told::by_number(family)? {
        Told::V4 => open_as::<V4, S>(cache),
        Told::V6 => open_as::<V6, S>(cache),
    }
}

fn open_as<F: Family, S: Set>(cache: &mut [u8]) -> Result<(), Refusal> {
    let capacity = capacity_of::<F>(cache.len()).ok_or(Refusal(1))?;
    if S::SMALL && capacity > small::CAPACITY_MAX {
        return Err(Refusal(1));
    }
    cache.fill(0);
    Head::opened(capacity).write::<F>(cache);
    Ok(())
}

/// What [`register`] is asked, but for the cache and the reply.
pub struct Request<'a> {
    pub key: &'a [u8],
    pub window: u64,
    pub clock: u64,
    pub ad: &'a [u8],
    pub vouched: u8,
    pub ticket: &'a [u8],
}

/// Admits the advertisement, or writes a ticket to come back with.
#[allow(clippy::too_many_arguments)]
pub fn register(
    cache: &mut [u8],
    key: &[u8],
    window: u64,
    clock: u64,
    ad: &[u8],
    vouched: u8,
    ticket: &[u8],
    reply: &mut [u8],
) -> Result<Registered, Refusal> {
    let request = Request {
        key,
        window,
        clock,
        ad,
        vouched,
        ticket,
    };
    register_by::<Full>(cache, &request, reply)
}

#[inline(always)]
pub fn register_by<S: Set>(
    cache: &mut [u8],
    request: &Request,
    reply: &mut [u8],
) -> Result<Registered, Refusal> {
    match Told::by_head(cache)? {
        Told::V4 => register_in::<V4, S>(cache, request, reply),
        Told::V6 => register_in::<V6, S>(cache, request, reply),
    }
}

fn register_in<F: Family, S: Set>(
    cache: &mut [u8],
    request: &Request,
    reply: &mut [u8],
) -> Result<Registered, Refusal> {
    let held = read::<F, S>(cache)?;
    let reply = reply.try_into().map_err(|_| Refusal(2))?;
    let passed = pass::<F, S>(&held, request)?;
    Ok(settle(cache, request.key, reply, &passed, passed.wait))
}

/// [`register`] where nobody waits less for asking afresh: with the lower bounds of those who were told to wait.
#[allow(clippy::too_many_arguments)]
pub fn register_bounded(
    cache: &mut [u8],
    bounds: &mut [u8],
    key: &[u8],
    window: u64,
    clock: u64,
    ad: &[u8],
    vouched: u8,
    ticket: &[u8],
    reply: &mut [u8],
) -> Result<Registered, Refusal> {
    let request = Request {
        key,
        window,
        clock,
        ad,
        vouched,
        ticket,
    };
    register_bounded_by::<Full>(cache, bounds, &request, reply)
}

#[inline(always)]
pub fn register_bounded_by<S: Set>(
    cache: &mut [u8],
    bounds: &mut [u8],
    request: &Request,
    reply: &mut [u8],
) -> Result<Registered, Refusal> {
    match Told::by_head(cache)? {
        Told::V4 => register_bounded_in::<V4, S>(cache, bounds, request, reply),
        Told::V6 => register_bounded_in::<V6, S>(cache, bounds, request, reply),
    }
}

fn register_bounded_in<F: Family, S: Set>(
    cache: &mut [u8],
    bounds: &mut [u8],
    request: &Request,
    reply: &mut [u8],
) -> Result<Registered, Refusal> {
    let clock = request.clock;
    let held = read::<F, S>(cache)?;
    let found = bounds::read::<F>(bounds, request.key, request.ad)?;
    let reply = reply.try_into().map_err(|_| Refusal(2))?;
    let passed = pass::<F, S>(&held, request)?;
    let used = found.used(passed.wait, clock);
    if clock - passed.first < used && found.crowded(clock) {
        return Err(Refusal(19));
    }
    let answer = settle(cache, request.key, reply, &passed, used);
    if let Registered::Wait { .. } = answer {
        found.enter(bounds, clock, passed.ad, clock + LIFETIME.min(used));
    }
    Ok(answer)
}

/// What is known of a request that passes refusals 2 to 11, and 20 among them; the wait is the recipe's.
struct Passed<'a, F: Family> {
    ad: Ad<'a, F>,
    ad_hash: [u8; DIGEST_LEN],
    clock: u64,
    first: u64,
    wait: u64,
    head: Head,
    expired: usize,
}

#[inline(always)]
fn pass<'a, F: Family, S: Set>(
    held: &Cache<F>,
    request: &Request<'a>,
) -> Result<Passed<'a, F>, Refusal> {
    let clock = request.clock;
    if request.key.len() != 32 || !(1..=WINDOW_MAX).contains(&request.window) {
        return Err(Refusal(2));
    }
    check_clock(held, clock)?;
    let ad = Ad::<F>::read(request.ad)?;
    if request.vouched != 1 {
        return Err(Refusal(5));
    }
    if S::SMALL && !(oldest::<S>(clock)..=clock).contains(&ad.stamp()) {
        return Err(Refusal(20));
    }
    let expired = held.expired(clock);
    let live = &held.entries[expired..];
    let counts = tally(live, ad)?;
    let (ad_hash, first) = brought(request, ad)?;
    let (capacity, c) = (held.head.capacity as u64, live.len() as u64);
    let bits = F::BITS as u64;
    Ok(Passed {
        ad,
        ad_hash,
        clock,
        first,
        wait: wait(capacity, bits, c, counts.same_service, counts.similarity),
        head: held.head,
        expired,
    })
}

/// Confirms one who stayed as long as the wait, or writes a ticket.
#[inline(always)]
fn settle<F: Family>(
    cache: &mut [u8],
    key: &[u8],
    reply: &mut [u8; TICKET_LEN],
    passed: &Passed<F>,
    wait: u64,
) -> Registered {
    let (clock, expired) = (passed.clock, passed.expired);
    let stayed = clock - passed.first;
    remove_expired::<F>(cache, passed.head.count, expired);
    let head = passed.head.moved_on(clock, expired);
    let moves = if expired > 0 { head.count as u64 } else { 0 };
    if stayed >= wait {
        head.with_one_more().write::<F>(cache);
        write_entry(cache, head.count, clock, passed.ad);
        return Registered::Confirmed { moves };
    }
    head.write::<F>(cache);
    let millis = LIFETIME.min(wait - stayed);
    Ticket::new(&passed.ad_hash, passed.first, clock, millis).write(key, reply);
    Registered::Wait { millis, moves }
}

/// The advertisement's hash and the time of its first request: refusals 7 to 11. The hash is made once, for a first ticket or to compare
/// with the one that is brought.
fn brought<F: Family>(request: &Request, ad: Ad<F>) -> Result<([u8; DIGEST_LEN], u64), Refusal> {
    let clock = request.clock;
    if request.ticket.is_empty() {
        return Ok((ad.hash(), clock));
    }
    let ticket = Ticket::read(request.key, request.ticket, clock)?;
    if *ticket.ad_hash != ad.hash() {
        return Err(Refusal(10));
    }
    let due = ticket.issued + ticket.wait;
    if !(due..=due + request.window).contains(&clock) {
        return Err(Refusal(11));
    }
    Ok((*ticket.ad_hash, ticket.first))
}

/// Withdraws the oldest live entry of the service and the peer that is not withdrawn.
pub fn withdraw(
    cache: &mut [u8],
    wanted: &[u8],
    wanted_peer: &[u8],
    clock: u64,
    vouched: u8,
) -> Result<(), Refusal> {
    withdraw_by::<Full>(cache, wanted, wanted_peer, clock, vouched)
}

#[inline(always)]
pub fn withdraw_by<S: Set>(
    cache: &mut [u8],
    wanted: &[u8],
    wanted_peer: &[u8],
    clock: u64,
    vouched: u8,
) -> Result<(), Refusal> {
    match Told::by_head(cache)? {
        Told::V4 => withdraw_in::<V4, S>(cache, wanted, wanted_peer, clock, vouched),
        Told::V6 => withdraw_in::<V6, S>(cache, wanted, wanted_peer, clock, vouched),
    }
}

fn withdraw_in<F: Family, S: Set>(
    cache: &mut [u8],
    wanted: &[u8],
    wanted_peer: &[u8],
    clock: u64,
    vouched: u8,
) -> Result<(), Refusal> {
    let held = read::<F, S>(cache)?;
    if wanted.len() != 32 || wanted_peer.len() != 32 {
        return Err(Refusal(2));
    }
    check_clock(&held, clock)?;
    if vouched != 1 {
        return Err(Refusal(5));
    }
    let expired = held.expired(clock);
    let slot = held.entries[expired..]
        .iter()
        .position(|entry| {
            service(entry) == wanted && peer(entry) == wanted_peer && !withdrawn::<F>(entry)
        })
        .ok_or(Refusal(17))?;
    let earlier = held.head;
    remove_expired::<F>(cache, earlier.count, expired);
    earlier.moved_on(clock, expired).write::<F>(cache);
    withdraw_entry::<F>(cache, slot);
    Ok(())
}

/// Writes the first ten live advertisements of the service that are not withdrawn to the front of the list; gives how many.
pub fn get_ads(cache: &[u8], clock: u64, wanted: &[u8], list: &mut [u8]) -> Result<usize, Refusal> {
    get_ads_by::<Full>(cache, clock, wanted, list)
}

#[inline(always)]
pub fn get_ads_by<S: Set>(
    cache: &[u8],
    clock: u64,
    wanted: &[u8],
    list: &mut [u8],
) -> Result<usize, Refusal> {
    match Told::by_head(cache)? {
        Told::V4 => get_ads_in::<V4, S>(cache, clock, wanted, list),
        Told::V6 => get_ads_in::<V6, S>(cache, clock, wanted, list),
    }
}

fn get_ads_in<F: Family, S: Set>(
    cache: &[u8],
    clock: u64,
    wanted: &[u8],
    list: &mut [u8],
) -> Result<usize, Refusal> {
    let held = read::<F, S>(cache)?;
    if wanted.len() != 32 || list.len() != LISTED_MAX * F::AD_LEN {
        return Err(Refusal(2));
    }
    check_clock(&held, clock)?;
    let live = &held.entries[held.expired(clock)..];
    let oldest = oldest::<S>(clock);
    let found = live
        .iter()
        .filter(|entry| service(*entry) == wanted && is_shown::<F, S>(entry, oldest));
    let mut count = 0;
    for (entry, record) in found.zip(list.chunks_exact_mut(F::AD_LEN)) {
        record[0] = F::AD;
        record[1..].copy_from_slice(body(entry));
        count += 1;
    }
    Ok(count)
}

/// When the newest wanted entry of a cache was accepted, and where its body begins; the refusals are a search's of this cache.
fn newest_of<S: Set>(
    cache: &[u8],
    clock: u64,
    wanted: &[u8],
) -> Result<Option<(u64, usize)>, Refusal> {
    match Told::by_head(cache)? {
        Told::V4 => newest_in::<V4, S>(cache, clock, wanted),
        Told::V6 => newest_in::<V6, S>(cache, clock, wanted),
    }
}

/// Accepted times never fall, so that the newest is the last one.
fn newest_in<F: Family, S: Set>(
    cache: &[u8],
    clock: u64,
    wanted: &[u8],
) -> Result<Option<(u64, usize)>, Refusal> {
    let held = read::<F, S>(cache)?;
    if wanted.len() != 32 {
        return Err(Refusal(2));
    }
    check_clock(&held, clock)?;
    let expired = held.expired(clock);
    let oldest = oldest::<S>(clock);
    let found = held.entries[expired..]
        .iter()
        .rposition(|entry| service(entry) == wanted && is_shown::<F, S>(entry, oldest));
    Ok(found.map(|found| {
        let slot = expired + found;
        (accepted(&held.entries[slot]), place::<F>(slot) + 9)
    }))
}

/// The newest live advertisement of the service in two caches that is not withdrawn: which cache, 1 or 2, and where its body begins.
/// The caches may be of different families.
pub fn newest(
    first: &[u8],
    second: &[u8],
    clock: u64,
    wanted: &[u8],
) -> Result<Option<(usize, usize)>, Refusal> {
    newest_by::<Full>(first, second, clock, wanted)
}

#[inline(always)]
pub fn newest_by<S: Set>(
    first: &[u8],
    second: &[u8],
    clock: u64,
    wanted: &[u8],
) -> Result<Option<(usize, usize)>, Refusal> {
    let mine = newest_of::<S>(first, clock, wanted)?;
    let other = newest_of::<S>(second, clock, wanted)?;
    Ok(match (mine, other) {
        (Some((time, _)), Some((later, at))) if later > time => Some((2, at)),
        (Some((_, at)), _) => Some((1, at)),
        (None, Some((_, at))) => Some((2, at)),
        (None, None) => None,
    })
}

/// The identifier of a service.
pub fn service_id(protocol: &[u8], id: &mut [u8]) -> Result<(), Refusal> {
    let id: &mut [u8; 32] = id.try_into().map_err(|_| Refusal(2))?;
    if !(1..=255).contains(&protocol.len()) {
        return Err(Refusal(12));
    }
    *id = sha256(protocol);
    Ok(())
}

/// Refusal 3.
fn check_clock<F: Family>(held: &Cache<F>, clock: u64) -> Result<(), Refusal> {
    if (held.head.clock..=CLOCK_MAX).contains(&clock) {
        Ok(())
    } else {
        Err(Refusal(3))
    }
}
