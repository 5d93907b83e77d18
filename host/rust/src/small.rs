//! The small-registrar profile (document 02's hall-desk profile): the calls on a cache once more, for a registrar of at most [`CAPACITY_MAX`] places
//! that also wants the stamps of advertisements judged.
//!
//! Each call takes what the full one takes, but for the window, which is [`WINDOW`]. A larger cache is refused ([`Cache`](Refusal::Cache)). An
//! advertisement whose stamp is after the clock, or more than [`STAMP_AGE_MAX`] before it, is not registered ([`Stamp`](Refusal::Stamp)), neither at a
//! first request nor at a return: who waited until its stamp was too old renews it, which is another advertisement, and starts afresh. An entry whose
//! stamp has since grown older than that is neither listed nor handed out; it keeps its place, counts in everybody's wait, brings
//! [`Held`](Refusal::Held), can be withdrawn and expires as every other. In all else the calls answer what the full ones answer with that window, and
//! leave the same bytes.
//!
//! A stamp is compared with the clock that the host hands in: advertisers stamp in milliseconds of the registrar's [`Epoch`](crate::Epoch), which the host
//! lets them know. Unix milliseconds are after now and refused, and so is an advertiser whose clock is ahead by a millisecond.
//!
//! The same cache may be served by both sets of calls. What the full [`register`](crate::register) admits may have any stamp; one after now is listed
//! here, as it has not grown older.
//!
//! ```
//! use std::net::Ipv4Addr;
//! use unglassot::small::{get_ads, open, register, CAPACITY_MAX, STAMP_AGE_MAX};
//! use unglassot::{cache_len, Ad, Family, Refusal, Registered};
//!
//! let (key, vouched, service) = ([7; 32], true, [1; 32]);
//! let mut cache = vec![0; cache_len(Family::V4, CAPACITY_MAX)];
//! open(&mut cache, Family::V4)?;
//! let stamped = |stamp| {
//!     let address = Ipv4Addr::new(192, 0, 2, 1).into();
//!     Ad { service, peer: [2; 32], address, port: 30303, stamp, signature: [0; 64] }.write()
//! };
//!
//! // Thirty days old is not too old, and a millisecond later it is; a stamp after now is refused too.
//! let clock = STAMP_AGE_MAX;
//! let ad = stamped(1)?;
//! let Registered::Wait { millis: 1, ticket, .. } = register(&mut cache, &key, clock, &ad, vouched, &[])? else { panic!() };
//! let answer = register(&mut cache, &key, clock + 1, &ad, vouched, &ticket)?;
//! assert_eq!(answer, Registered::Confirmed { moves: 0 });
//! let late = stamped(clock + 2)?;
//! assert_eq!(register(&mut cache, &key, clock + 1, &late, vouched, &[]), Err(Refusal::Stamp));
//!
//! // It is listed as long as its stamp is not too old.
//! assert_eq!(get_ads(&cache, clock + 1, &service)?.len(), 1);
//! assert!(get_ads(&cache, clock + 2, &service)?.is_empty());
//! assert_eq!(unglassot::get_ads(&cache, clock + 2, &service)?.len(), 1);
//! # Ok::<(), Refusal>(())
//! ```
use crate::{answer, ffi, registered, Family, Id, Key, Listing, Refusal, Registered, TICKET_LEN};

/// The most advertisements that a cache can hold here; the least is 1.
pub const CAPACITY_MAX: usize = 64;
/// The registration window that is in force.
pub const WINDOW: u64 = 10_000;
/// The most milliseconds that a stamp may be before the clock: thirty days.
pub const STAMP_AGE_MAX: u64 = 2_592_000_000;

/// [`open`](crate::open), for a capacity of at most [`CAPACITY_MAX`].
///
/// Refusals: [`Refusal::Cache`].
pub fn open(cache: &mut [u8], family: Family) -> Result<(), Refusal> {
    crate::open_by(ffi::unglassot_small_open, cache, family)
}

/// REGISTER: [`register`](crate::register) with the window [`WINDOW`], of an advertisement whose stamp is not after `clock` and at most
/// [`STAMP_AGE_MAX`] before it. A stamp of exactly `clock`, and one of exactly that age, are taken.
///
/// Refusals: those of the full call but for the window's, with [`Refusal::Stamp`] between [`Signature`](Refusal::Signature) and
/// [`Held`](Refusal::Held).
pub fn register(
    cache: &mut [u8],
    key: &Key,
    clock: u64,
    ad: &[u8],
    vouched: bool,
    ticket: &[u8],
) -> Result<Registered, Refusal> {
    let mut reply = [0; TICKET_LEN];
    let mut moves = 0;
    // SAFETY: pointers and lengths are those of slices; `cache` is lent alone, and `reply` and `moves` are variables of their own.
    let millis = answer(unsafe {
        ffi::unglassot_small_register(
            cache.as_mut_ptr(),
            cache.len(),
            key.as_ptr(),
            key.len(),
            clock,
            ad.as_ptr(),
            ad.len(),
            u8::from(vouched),
            ticket.as_ptr(),
            ticket.len(),
            reply.as_mut_ptr(),
            reply.len(),
            &mut moves,
        )
    })?;
    Ok(registered(millis, reply, moves))
}

/// REGISTER with lower bounds: [`register_bounded`](crate::register_bounded), with the window and the stamps of [`register`]. The two calls with bounds
/// may take turns on one cache and one buffer of bounds.
///
/// Refusals: those of the full call but for the window's, with [`Refusal::Stamp`] between [`Signature`](Refusal::Signature) and
/// [`Held`](Refusal::Held).
pub fn register_bounded(
    cache: &mut [u8],
    bounds: &mut [u8],
    key: &Key,
    clock: u64,
    ad: &[u8],
    vouched: bool,
    ticket: &[u8],
) -> Result<Registered, Refusal> {
    let mut reply = [0; TICKET_LEN];
    let mut moves = 0;
    // SAFETY: pointers and lengths are those of slices; `cache` and `bounds` are each lent alone, and `reply` and `moves` are variables of their own.
    let millis = answer(unsafe {
        ffi::unglassot_small_register_bounded(
            cache.as_mut_ptr(),
            cache.len(),
            bounds.as_mut_ptr(),
            bounds.len(),
            key.as_ptr(),
            key.len(),
            clock,
            ad.as_ptr(),
            ad.len(),
            u8::from(vouched),
            ticket.as_ptr(),
            ticket.len(),
            reply.as_mut_ptr(),
            reply.len(),
            &mut moves,
        )
    })?;
    Ok(registered(millis, reply, moves))
}

/// WITHDRAW: [`withdraw`](crate::withdraw), also of an entry whose stamp has grown too old.
///
/// Refusals: those of the full call.
pub fn withdraw(
    cache: &mut [u8],
    service: &Id,
    peer: &Id,
    clock: u64,
    vouched: bool,
) -> Result<(), Refusal> {
    crate::withdraw_by(
        ffi::unglassot_small_withdraw,
        cache,
        service,
        peer,
        clock,
        vouched,
    )
}

/// GET_ADS: [`get_ads`](crate::get_ads), of those whose stamp is at most [`STAMP_AGE_MAX`] before `clock`, or after it. The others use up none of the ten.
///
/// Refusals: those of the full call.
pub fn get_ads(cache: &[u8], clock: u64, service: &Id) -> Result<Listing, Refusal> {
    crate::list_by(ffi::unglassot_small_get_ads, cache, clock, service)
}

/// The newest of two caches: [`newest`](crate::newest), of those whose stamp is at most [`STAMP_AGE_MAX`] before `clock`, or after it.
///
/// Refusals: those of the full call; either cache may have at most [`CAPACITY_MAX`] places.
pub fn newest<'a>(
    first: &'a [u8],
    second: &'a [u8],
    clock: u64,
    service: &Id,
) -> Result<Option<&'a [u8]>, Refusal> {
    crate::newest_by(ffi::unglassot_small_newest, first, second, clock, service)
}
