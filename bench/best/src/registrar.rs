//! The calls on a cache, and service identifiers. Each call with a cache chooses the family once, by the head's kind.
//!
//! What refuses a call without a look at the entries is asked before them and told behind them, so that one walk checks and counts.
use plain::cache::{
    accepted, body, peer, place, remove_expired, service, withdraw_entry, withdrawn, write_entry,
    Head,
};
use plain::family::{Family, Told};
use plain::record::{Ad, Ticket, TICKET_LEN};
use plain::sha256::DIGEST_LEN;
use plain::wait::wait;
use plain::{Refusal, Registered, CLOCK_MAX, LIFETIME, V4, V6, WINDOW_MAX};

use crate::bounds;
use crate::cache::{begins, Cache, Counts};
use crate::sha256::{sha256, Keyed};
use crate::ticket;

const LISTED_MAX: usize = 10;

/// What [`register`] is asked, but for the cache and the reply.
struct Request<'a> {
    key: &'a [u8],
    window: u64,
    clock: u64,
    ad: &'a [u8],
    vouched: u8,
    ticket: &'a [u8],
}

/// Admits the advertisement, or writes a ticket to come back with.
#[allow(clippy::too_many_arguments)]
pub fn register(
    cache: &mut [u8],
    key: &[u8],
    window: u64,
    clock: u64,
    ad: &[u8],
    vouched: u8,
    ticket: &[u8],
    reply: &mut [u8],
) -> Result<Registered, Refusal> {
    let request = Request {
        key,
        window,
        clock,
        ad,
        vouched,
        ticket,
    };
    match Told::by_head(cache)? {
        Told::V4 => register_in::<V4>(cache, &request, reply),
        Told::V6 => register_in::<V6>(cache, &request, reply),
    }
}

fn register_in<F: Family>(
    cache: &mut [u8],
    request: &Request,
    reply: &mut [u8],
) -> Result<Registered, Refusal> {
    let held = Cache::<F>::read(cache)?;
    let (ad, counts) = counted(&held, request, reply.len())?;
    let (ad, counts) = (ad?, counts?);
    let keyed = Keyed::new(request.key);
    let passed = pass(held.head, request, ad, &counts, &keyed)?;
    let reply = reply.try_into().map_err(|_| Refusal(2))?;
    Ok(settle(cache, &keyed, reply, &passed, passed.wait))
}

/// [`register`] where nobody waits less for asking afresh: with the lower bounds of those who were told to wait.
#[allow(clippy::too_many_arguments)]
pub fn register_bounded(
    cache: &mut [u8],
    bounds: &mut [u8],
    key: &[u8],
    window: u64,
    clock: u64,
    ad: &[u8],
    vouched: u8,
    ticket: &[u8],
    reply: &mut [u8],
) -> Result<Registered, Refusal> {
    let request = Request {
        key,
        window,
        clock,
        ad,
        vouched,
        ticket,
    };
    match Told::by_head(cache)? {
        Told::V4 => register_bounded_in::<V4>(cache, bounds, &request, reply),
        Told::V6 => register_bounded_in::<V6>(cache, bounds, &request, reply),
    }
}

fn register_bounded_in<F: Family>(
    cache: &mut [u8],
    bounds: &mut [u8],
    request: &Request,
    reply: &mut [u8],
) -> Result<Registered, Refusal> {
    let clock = request.clock;
    let held = Cache::<F>::read(cache)?;
    let (ad, counts) = counted(&held, request, reply.len())?;
    let keyed = Keyed::new(request.key);
    let found = bounds::read::<F>(bounds, keyed.secret(), request.ad)?;
    let (ad, counts) = (ad?, counts?);
    let passed = pass(held.head, request, ad, &counts, &keyed)?;
    let used = found.used(passed.wait, clock);
    if clock - passed.first < used && found.crowded(clock) {
        return Err(Refusal(19));
    }
    let reply = reply.try_into().map_err(|_| Refusal(2))?;
    let answer = settle(cache, &keyed, reply, &passed, used);
    if let Registered::Wait { .. } = answer {
        found.enter(bounds, clock, passed.ad, clock + LIFETIME.min(used));
    }
    Ok(answer)
}

/// Refusals 2 to 5, which neither the entries nor the ticket tell.
#[inline(always)]
fn asked<'a, F: Family>(
    head: &Head,
    request: &Request<'a>,
    reply_len: usize,
) -> Result<Ad<'a, F>, Refusal> {
    let lengths = (request.key.len(), reply_len) == (32, TICKET_LEN);
    if !lengths || !(1..=WINDOW_MAX).contains(&request.window) {
        return Err(Refusal(2));
    }
    check_clock(head, request.clock)?;
    let ad = Ad::read(request.ad)?;
    if request.vouched != 1 {
        return Err(Refusal(5));
    }
    Ok(ad)
}

/// Refusals 2 to 5 and then 6 with what was counted, each as a value; refusal 1 at once.
type Counted<'a, F> = (Result<Ad<'a, F>, Refusal>, Result<Counts, Refusal>);

#[inline(always)]
fn counted<'a, F: Family>(
    held: &Cache<F>,
    request: &Request<'a>,
    reply_len: usize,
) -> Result<Counted<'a, F>, Refusal> {
    match asked::<F>(&held.head, request, reply_len) {
        Ok(ad) => {
            let counts = held.count(request.clock, ad)?;
            let told = if counts.twin {
                Err(Refusal(6))
            } else {
                Ok(counts)
            };
            Ok((Ok(ad), told))
        }
        Err(refusal) => {
            held.check()?;
            Ok((Err(refusal), Err(refusal)))
        }
    }
}

/// What is known of a request that passes refusals 1 to 11; the wait is the recipe's.
struct Passed<'a, F: Family> {
    ad: Ad<'a, F>,
    ad_hash: [u8; DIGEST_LEN],
    clock: u64,
    first: u64,
    wait: u64,
    head: Head,
    expired: usize,
}

#[inline(always)]
fn pass<'a, F: Family>(
    head: Head,
    request: &Request<'a>,
    ad: Ad<'a, F>,
    counts: &Counts,
    keyed: &Keyed,
) -> Result<Passed<'a, F>, Refusal> {
    let (ad_hash, first) = brought(request, keyed)?;
    let live = (head.count - counts.expired) as u64;
    let (capacity, bits) = (head.capacity as u64, F::BITS as u64);
    Ok(Passed {
        ad,
        ad_hash,
        clock: request.clock,
        first,
        wait: wait(capacity, bits, live, counts.same_service, counts.similarity),
        head,
        expired: counts.expired,
    })
}

/// The advertisement's hash and the time of its first request: refusals 7 to 11.
#[inline(always)]
fn brought(request: &Request, keyed: &Keyed) -> Result<([u8; DIGEST_LEN], u64), Refusal> {
    let clock = request.clock;
    if request.ticket.is_empty() {
        return Ok((sha256(request.ad), clock));
    }
    let ticket = ticket::read(keyed, request.ticket, clock)?;
    if *ticket.ad_hash != sha256(request.ad) {
        return Err(Refusal(10));
    }
    let due = ticket.issued + ticket.wait;
    if !(due..=due + request.window).contains(&clock) {
        return Err(Refusal(11));
    }
    Ok((*ticket.ad_hash, ticket.first))
}

/// Confirms one who stayed as long as the wait, or writes a ticket.
#[inline(always)]
fn settle<F: Family>(
    cache: &mut [u8],
    keyed: &Keyed,
    reply: &mut [u8; TICKET_LEN],
    passed: &Passed<F>,
    wait: u64,
) -> Registered {
    let (clock, expired) = (passed.clock, passed.expired);
    let stayed = clock - passed.first;
    remove_expired::<F>(cache, passed.head.count, expired);
    let head = passed.head.moved_on(clock, expired);
    let moves = if expired > 0 { head.count as u64 } else { 0 };
    if stayed >= wait {
        head.with_one_more().write::<F>(cache);
        write_entry(cache, head.count, clock, passed.ad);
        return Registered::Confirmed { moves };
    }
    head.write::<F>(cache);
    let millis = LIFETIME.min(wait - stayed);
    let issued = Ticket::new(&passed.ad_hash, passed.first, clock, millis);
    ticket::write(keyed, &issued, reply);
    Registered::Wait { millis, moves }
}

/// Withdraws the oldest live entry of the service and the peer that is not withdrawn.
pub fn withdraw(
    cache: &mut [u8],
    wanted: &[u8],
    wanted_peer: &[u8],
    clock: u64,
    vouched: u8,
) -> Result<(), Refusal> {
    match Told::by_head(cache)? {
        Told::V4 => withdraw_in::<V4>(cache, wanted, wanted_peer, clock, vouched),
        Told::V6 => withdraw_in::<V6>(cache, wanted, wanted_peer, clock, vouched),
    }
}

fn withdraw_in<F: Family>(
    cache: &mut [u8],
    wanted: &[u8],
    wanted_peer: &[u8],
    clock: u64,
    vouched: u8,
) -> Result<(), Refusal> {
    let held = Cache::<F>::read(cache)?;
    let (Ok(wanted), Ok(wanted_peer)) = (exactly(wanted), exactly(wanted_peer)) else {
        held.check()?;
        return Err(Refusal(2));
    };
    let mut found = None;
    let expired = held.walk(clock, |slot, entry| {
        let same = is_of(entry, wanted) && peer(entry) == wanted_peer;
        if same && found.is_none() && !withdrawn::<F>(entry) {
            found = Some(slot);
        }
    })?;
    check_clock(&held.head, clock)?;
    if vouched != 1 {
        return Err(Refusal(5));
    }
    let slot = found.ok_or(Refusal(17))? - expired;
    let earlier = held.head;
    remove_expired::<F>(cache, earlier.count, expired);
    earlier.moved_on(clock, expired).write::<F>(cache);
    withdraw_entry::<F>(cache, slot);
    Ok(())
}

/// Writes the first ten live advertisements of the service that are not withdrawn to the front of the list; gives how many.
pub fn get_ads(cache: &[u8], clock: u64, wanted: &[u8], list: &mut [u8]) -> Result<usize, Refusal> {
    match Told::by_head(cache)? {
        Told::V4 => get_ads_in::<V4>(cache, clock, wanted, list),
        Told::V6 => get_ads_in::<V6>(cache, clock, wanted, list),
    }
}

/// A search ends with the tenth, so that it goes behind the check and not with it; so in [`newest_in`], which begins at the end.
fn get_ads_in<F: Family>(
    cache: &[u8],
    clock: u64,
    wanted: &[u8],
    list: &mut [u8],
) -> Result<usize, Refusal> {
    let held = Cache::<F>::read(cache)?;
    held.check()?;
    let wanted = exactly(wanted)?;
    if list.len() != LISTED_MAX * F::AD_LEN {
        return Err(Refusal(2));
    }
    check_clock(&held.head, clock)?;
    let found = held
        .live(clock)
        .iter()
        .filter(|entry| is_of(*entry, wanted) && !withdrawn::<F>(entry));
    let mut count = 0;
    for (entry, record) in found.zip(list.chunks_exact_mut(F::AD_LEN)) {
        record[0] = F::AD;
        record[1..].copy_from_slice(body(entry));
        count += 1;
    }
    Ok(count)
}

/// When the newest wanted entry of a cache was accepted, and where its body begins; the refusals are a search's of this cache.
fn newest_of(cache: &[u8], clock: u64, wanted: &[u8]) -> Result<Option<(u64, usize)>, Refusal> {
    match Told::by_head(cache)? {
        Told::V4 => newest_in::<V4>(cache, clock, wanted),
        Told::V6 => newest_in::<V6>(cache, clock, wanted),
    }
}

/// Accepted times never fall, so that the newest is the last one.
fn newest_in<F: Family>(
    cache: &[u8],
    clock: u64,
    wanted: &[u8],
) -> Result<Option<(u64, usize)>, Refusal> {
    let held = Cache::<F>::read(cache)?;
    held.check()?;
    let wanted = exactly(wanted)?;
    check_clock(&held.head, clock)?;
    let live = held.live(clock);
    let found = live
        .iter()
        .rposition(|entry| is_of(entry, wanted) && !withdrawn::<F>(entry));
    Ok(found.map(|found| {
        let slot = held.entries.len() - live.len() + found;
        (accepted(&live[found]), place::<F>(slot) + 9)
    }))
}

/// The newest live advertisement of the service in two caches that is not withdrawn: which cache, 1 or 2, and where its body begins.
/// The caches may be of different families.
pub fn newest(
    first: &[u8],
    second: &[u8],
    clock: u64,
    wanted: &[u8],
) -> Result<Option<(usize, usize)>, Refusal> {
    let mine = newest_of(first, clock, wanted)?;
    let other = newest_of(second, clock, wanted)?;
    Ok(match (mine, other) {
        (Some((time, _)), Some((later, at))) if later > time => Some((2, at)),
        (Some((_, at)), _) => Some((1, at)),
        (None, Some((_, at))) => Some((2, at)),
        (None, None) => None,
    })
}

/// The identifier of a service.
pub fn service_id(protocol: &[u8], id: &mut [u8]) -> Result<(), Refusal> {
    let id: &mut [u8; 32] = id.try_into().map_err(|_| Refusal(2))?;
    if !(1..=255).contains(&protocol.len()) {
        return Err(Refusal(12));
    }
    *id = sha256(protocol);
    Ok(())
}

/// An identifier: refusal 2.
fn exactly(id: &[u8]) -> Result<&[u8; 32], Refusal> {
    id.try_into().map_err(|_| Refusal(2))
}

#[inline(always)]
fn is_of(entry: &impl plain::family::Record, wanted: &[u8; 32]) -> bool {
    let own = service(entry);
    begins(own) == begins(wanted) && own == wanted
}

/// Refusal 3.
fn check_clock(head: &Head, clock: u64) -> Result<(), Refusal> {
    if (head.clock..=CLOCK_MAX).contains(&clock) {
        Ok(())
    } else {
        Err(Refusal(3))
    }
}
