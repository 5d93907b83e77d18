//! A registrar for Logos Capability Discovery, proved and then linked: safe Rust over `libunglassot.a`.
//!
//! The host does the network and the signatures. It keeps a cache, which is a slice of bytes, and hands it with the clock
//! and a request's bytes to [`register`], [`withdraw`] or [`get_ads`]. Nothing is kept between calls, nothing is allocated, and no call
//! panics: what cannot be done is answered with a [`Refusal`], and a refusal changes nothing.
//!
//! A cache holds advertisements of one [`Family`], IPv4 or IPv6, which is told when it is opened. A host that serves both keeps a cache
//! for each.
//!
//! [`register_bounded`] is `register` with a second buffer beside the cache, of lower bounds on waits, so that asking again from the start never
//! shortens a wait.
//!
//! [`small`] has the same calls for a small registrar that also wants stamps judged.
//!
//! A clock is in milliseconds from an epoch of the host's choosing, at most [`CLOCK_MAX`], which is 34 years. The
//! system's clock in milliseconds since 1970 is past that since 2004, and every call with a clock refuses it: [`Epoch`]
//! turns a `SystemTime` into a clock. The epoch is kept as long as the cache.
//!
//! The archive is asked for its version when this crate is built: one that is not of [`VERSION`] is an error.
//!
//! ```
//! use std::net::Ipv6Addr;
//! use std::time::SystemTime;
//! use unglassot::{
//!     cache_len, counters, get_ads, open, register, service_id, withdraw, Ad, Counters, Epoch, Family, Refusal, Registered, USUAL_WINDOW,
//! };
//!
//! let epoch = Epoch::at(SystemTime::now())?; // chosen once, and stored with the cache and the key
//! let key = [7; 32]; // the registrar's secret
//! let mut cache = vec![0; cache_len(Family::V6, 256)];
//! open(&mut cache, Family::V6)?;
//!
//! let service = service_id(b"/waku/store/1.0.0")?;
//! let ad = Ad {
//!     service,
//!     peer: [1; 32],
//!     address: Ipv6Addr::new(0x2001, 0xdb8, 0, 0, 0, 0, 0, 1).into(),
//!     port: 30303,
//!     stamp: 0,
//!     signature: [0; 64],
//! }
//! .write()?;
//!
//! // A first request is never admitted at once: it gets a ticket and the time to come back.
//! let vouched = true; // the host has checked the signature
//! let clock = epoch.clock(SystemTime::now())?;
//! let first = register(&mut cache, &key, USUAL_WINDOW, clock, &ad, vouched, &[])?;
//! let Registered::Wait { millis, ticket, .. } = first else {
//!     panic!("a first request waits");
//! };
//! assert_eq!(millis, 1);
//! assert!(get_ads(&cache, clock, &service)?.is_empty());
//!
//! // Too early, then in time.
//! let early = register(&mut cache, &key, USUAL_WINDOW, clock, &ad, vouched, &ticket);
//! assert_eq!(early, Err(Refusal::Window));
//! let due = clock + millis;
//! let answer = register(&mut cache, &key, USUAL_WINDOW, due, &ad, vouched, &ticket)?;
//! assert_eq!(answer, Registered::Confirmed { moves: 0 });
//! assert!(get_ads(&cache, due, &service)?.ads().eq([ad.bytes()]));
//!
//! // It withdraws: it is off the list at once, and its entry still counts until it expires.
//! withdraw(&mut cache, &service, &[1; 32], due, vouched)?;
//! assert!(get_ads(&cache, due, &service)?.is_empty());
//! assert_eq!(register(&mut cache, &key, USUAL_WINDOW, due, &ad, vouched, &[]), Err(Refusal::Held));
//! assert_eq!(counters(&cache), Some(Counters { confirmed: 1, expired: 0 }));
//! # Ok::<(), Refusal>(())
//! ```
mod epoch;
mod family;
pub mod ffi;
mod message;
mod record;
mod refusal;
pub mod small;
mod version;

pub use epoch::Epoch;
pub use family::{family, Family};
pub use message::{read_message, write_message, Message};
pub use record::{Ad, AdRecord, Ticket};
pub use refusal::Refusal;
pub use version::VERSION;

/// Milliseconds that an accepted advertisement is live.
pub const LIFETIME: u64 = 900_000;
/// The registration window for a host without a reason for another: milliseconds after the end of a ticket's wait in which it is taken.
pub const USUAL_WINDOW: u64 = 10_000;
/// The shortest registration window that [`register`] takes.
pub const WINDOW_MIN: u64 = 1;
/// The longest registration window that [`register`] takes.
pub const WINDOW_MAX: u64 = 60_000;
/// The largest clock: 34 years in milliseconds.
pub const CLOCK_MAX: u64 = (1 << 40) - 1;
/// The last epoch under which messages are read and written, in Unix seconds.
pub const EPOCH_MAX: u64 = (1 << 33) - 1;
/// The most advertisements that a cache can hold; the least is 1.
pub const CAPACITY_MAX: usize = 1_000;
/// The most places that a buffer of lower bounds can have; the least is 1.
pub const BOUNDS_MAX: usize = 1_000;
/// The most advertisements in a listing.
pub const LISTED_MAX: usize = 10;
/// Bytes of a signature.
pub const SIGNATURE_LEN: usize = 64;
/// Bytes of an IPv4 advertisement.
pub const AD_LEN: usize = 143;
/// Bytes of an IPv6 advertisement.
pub const AD_V6_LEN: usize = 155;
/// The most bytes of a [`Message`].
pub const MESSAGE_MAX: usize = 150;
/// Bytes of a ticket.
pub const TICKET_LEN: usize = 89;

/// The registrar's secret, under which its tickets are tagged.
pub type Key = [u8; 32];
/// A service identifier or a peer identifier.
pub type Id = [u8; 32];

/// Bytes of a cache of this family and this capacity, from 1 to [`CAPACITY_MAX`].
pub const fn cache_len(family: Family, capacity: usize) -> usize {
    HEAD_LEN + family.entry_len() * capacity
}

/// Bytes of a buffer of lower bounds of this family, with so many places, from 1 to [`BOUNDS_MAX`].
pub const fn bounds_len(family: Family, places: usize) -> usize {
    family.bound_len() * places
}

/// Bytes of a cache's head.
const HEAD_LEN: usize = 29;

/// What a cache's head counts since it was opened, each modulo 2^64.
///
/// Over any run of calls from an opening, `confirmed` is how many of them answered [`Registered::Confirmed`], and `expired` how many
/// entries they removed as expired. The difference is how many entries the cache holds, withdrawn ones included.
#[derive(Clone, Copy, Debug, PartialEq, Eq)]
pub struct Counters {
    pub confirmed: u64,
    pub expired: u64,
}

/// The counters of a cache; `None` where it is shorter than a head. Whether it is well formed is not asked: every call does.
pub fn counters(cache: &[u8]) -> Option<Counters> {
    let head: &[u8; HEAD_LEN] = cache.first_chunk()?;
    let number = |at: usize| {
        head[at..]
            .first_chunk()
            .map(|field| u64::from_be_bytes(*field))
    };
    Some(Counters {
        confirmed: number(13)?,
        expired: number(21)?,
    })
}

/// What [`register`] answers when it does not refuse.
///
/// `moves` is how many held entries changed their place in the call, which is what it had to carry: those that stay, if at least
/// one expired, and else 0. The newcomer is not counted, so it is at most the capacity less 1.
#[derive(Clone, Copy, Debug, PartialEq, Eq)]
pub enum Registered {
    /// The advertisement is in the cache.
    Confirmed { moves: u64 },
    /// Come back after `millis` milliseconds, and not more than the window of the call later, with `ticket` and the same
    /// advertisement.
    ///
    /// The wait is reckoned anew on return, less the time since the first request.
    Wait {
        millis: u64,
        ticket: [u8; TICKET_LEN],
        moves: u64,
    },
}

/// What [`get_ads`] found: live advertisements of a service that are not withdrawn, oldest first.
#[derive(Clone, Copy, Debug, PartialEq, Eq)]
pub struct Listing {
    records: [u8; LISTED_MAX * AD_V6_LEN],
    count: usize,
    family: Family,
}

impl Listing {
    /// The advertisements, each a record that [`Ad::read`] reads as one of the listing's [`family`](Listing::family).
    pub fn ads(&self) -> impl ExactSizeIterator<Item = &[u8]> {
        self.records
            .chunks_exact(self.family.ad_len())
            .take(self.count)
    }

    /// The family of the cache, and so of the advertisements.
    pub fn family(&self) -> Family {
        self.family
    }

    /// How many there are.
    pub fn len(&self) -> usize {
        self.count
    }

    /// Whether there are none.
    pub fn is_empty(&self) -> bool {
        self.count == 0
    }
}

/// Makes an empty cache of this family of all of `cache`, whatever it was; its length is [`cache_len`] of the family and a capacity. Every
/// other call reads the family off the cache.
///
/// Refusals: [`Refusal::Cache`].
pub fn open(cache: &mut [u8], family: Family) -> Result<(), Refusal> {
    open_by(ffi::unglassot_open, cache, family)
}

/// The call that opens a cache.
type Open = unsafe extern "C" fn(*mut u8, usize, u64) -> i64;

fn open_by(open: Open, cache: &mut [u8], family: Family) -> Result<(), Refusal> {
    // SAFETY: pointer and length are those of a slice.
    answer(unsafe { open(cache.as_mut_ptr(), cache.len(), family.number()) }).map(drop)
}

/// REGISTER: admits the advertisement, which is of the cache's family, or gives a ticket to come back with.
///
/// `window` is for how many milliseconds after the end of its wait a ticket is taken, from [`WINDOW_MIN`] to [`WINDOW_MAX`];
/// [`USUAL_WINDOW`] if nothing speaks for another. The window of the call that brings a ticket back decides, not that of the
/// call that wrote it. `clock` is now, from the host's [`Epoch`]; not before that of the last call of `register` or
/// [`withdraw`] that was not refused. `vouched`
/// says that the host has checked the advertisement's signature and found it good. `ticket` is what the advertiser brought
/// back, empty for a first request. Expired entries leave the cache with either answer.
///
/// A ticket belongs to the very advertisement that it was written for, every byte of it: service and peer, and address, port,
/// stamp and signature too. With any other it is refused ([`Other`](Refusal::Other)), however long its bearer has stayed: who moves
/// to another address, or renews the stamp or the signature, starts afresh, with an empty `ticket`. It names the advertisement by its
/// SHA-256. Two advertisements with one hash would be taken for each other; that would be a collision of SHA-256, which nothing here
/// excludes.
///
/// Refusals: [`Refusal::Cache`], [`Length`](Refusal::Length) of the window, [`Clock`](Refusal::Clock),
/// [`AdLength`](Refusal::AdLength), [`AdKind`](Refusal::AdKind), [`AdPort`](Refusal::AdPort), [`Signature`](Refusal::Signature), [`Held`](Refusal::Held), and with a ticket
/// [`Ticket`](Refusal::Ticket), [`Tag`](Refusal::Tag), [`Times`](Refusal::Times), [`Other`](Refusal::Other),
/// [`Window`](Refusal::Window).
pub fn register(
    cache: &mut [u8],
    key: &Key,
    window: u64,
    clock: u64,
    ad: &[u8],
    vouched: bool,
    ticket: &[u8],
) -> Result<Registered, Refusal> {
    let mut reply = [0; TICKET_LEN];
    let mut moves = 0;
    // SAFETY: pointers and lengths are those of slices; `cache` is lent alone, and `reply` and `moves` are variables of their own.
    let millis = answer(unsafe {
        ffi::unglassot_register(
            cache.as_mut_ptr(),
            cache.len(),
            key.as_ptr(),
            key.len(),
            window,
            clock,
            ad.as_ptr(),
            ad.len(),
            u8::from(vouched),
            ticket.as_ptr(),
            ticket.len(),
            reply.as_mut_ptr(),
            reply.len(),
            &mut moves,
        )
    })?;
    Ok(registered(millis, reply, moves))
}

/// [`register`] with lower bounds: asking again from the start never shortens a wait. Who drops a ticket and asks again when the registrar looks emptier is told to come back
/// no earlier than before.
///
/// `bounds` is what the last such call on this cache left, or zeros, which are empty bounds: [`bounds_len`] bytes of the cache's family, for as many
/// places as pairs of service and address may be waiting at once. Set them to zero whenever the cache is opened, and store them with it. The promise is
/// over calls that are each given both as the last left them; `register` on the same cache knows no bounds, so a host that wants the promise registers
/// by this call alone.
///
/// The wait used is the larger of `register`'s and what is left of the pair's bound. A ticket leaves a bound for its service and address, until now
/// plus the wait used, at most a [`LIFETIME`]; bounds past their time are dropped then. CONFIRMED and refusals leave the bounds as they were. Who keeps
/// its ticket loses nothing by its own bound. Peers behind one address that ask for one service share a bound, so that one's ticket can hold another
/// back; where every place is in force, nobody else gets a ticket.
///
/// Refusals: those of `register`, with [`Refusal::Bounds`] directly behind [`Cache`](Refusal::Cache), and last of all [`NoPlace`](Refusal::NoPlace).
///
/// ```
/// use std::net::Ipv4Addr;
/// use unglassot::{bounds_len, cache_len, open, register_bounded, Ad, Family, Refusal, Registered, USUAL_WINDOW};
///
/// let (key, vouched) = ([7; 32], true);
/// let mut cache = vec![0; cache_len(Family::V4, 256)];
/// let mut bounds = vec![0; bounds_len(Family::V4, 100)];
/// open(&mut cache, Family::V4)?;
/// let ad = |peer| {
///     let address = Ipv4Addr::new(192, 0, 2, peer).into();
///     Ad { service: [1; 32], peer: [peer; 32], address, port: 30303, stamp: 0, signature: [0; 64] }.write()
/// };
/// let mut ask = |clock, ad: &[u8], ticket: &[u8]| register_bounded(&mut cache, &mut bounds, &key, USUAL_WINDOW, clock, ad, vouched, ticket);
///
/// // One is admitted, and a neighbour is told to wait as long as a ticket can tell.
/// let (one, neighbour) = (ad(1)?, ad(2)?);
/// let Registered::Wait { millis: 1, ticket, .. } = ask(1_000, &one, &[])? else { panic!() };
/// assert_eq!(ask(1_001, &one, &ticket)?, Registered::Confirmed { moves: 0 });
/// let told = ask(800_000, &neighbour, &[])?;
/// assert!(matches!(told, Registered::Wait { millis: 881_085, .. }));
///
/// // The one has expired, and the registrar is empty. Asking afresh, the neighbour is told the rest of that time.
/// let again = ask(901_001, &neighbour, &[])?;
/// assert!(matches!(again, Registered::Wait { millis: 780_084, .. }));
/// # Ok::<(), Refusal>(())
/// ```
#[allow(clippy::too_many_arguments)]
pub fn register_bounded(
    cache: &mut [u8],
    bounds: &mut [u8],
    key: &Key,
    window: u64,
    clock: u64,
    ad: &[u8],
    vouched: bool,
    ticket: &[u8],
) -> Result<Registered, Refusal> {
    let mut reply = [0; TICKET_LEN];
    let mut moves = 0;
    // SAFETY: pointers and lengths are those of slices; `cache` and `bounds` are each lent alone, and `reply` and `moves` are variables of their own.
    let millis = answer(unsafe {
        ffi::unglassot_register_bounded(
            cache.as_mut_ptr(),
            cache.len(),
            bounds.as_mut_ptr(),
            bounds.len(),
            key.as_ptr(),
            key.len(),
            window,
            clock,
            ad.as_ptr(),
            ad.len(),
            u8::from(vouched),
            ticket.as_ptr(),
            ticket.len(),
            reply.as_mut_ptr(),
            reply.len(),
            &mut moves,
        )
    })?;
    Ok(registered(millis, reply, moves))
}

/// What REGISTER answered, with the ticket where it wrote one.
fn registered(millis: u64, ticket: [u8; TICKET_LEN], moves: u64) -> Registered {
    match millis {
        0 => Registered::Confirmed { moves },
        millis => Registered::Wait {
            millis,
            ticket,
            moves,
        },
    }
}

/// WITHDRAW: takes the peer's advertisement for the service off the list at once.
///
/// Of the live entries of this service and peer that are not withdrawn, the oldest is withdrawn; in a cache that [`register`] filled
/// there is one at most. It is no longer listed, and nothing else of it changes: it keeps its place, counts for everybody's wait like any
/// other, and is why a REGISTER of the pair is refused ([`Held`](Refusal::Held)), until it expires. So leaving and returning gains
/// nothing. Expired entries leave the cache, and its clock is `clock`, which is as for `register`. `vouched` says that the host has checked
/// the peer's signature of this request and found it good.
///
/// Refusals: [`Refusal::Cache`], [`Clock`](Refusal::Clock), [`Signature`](Refusal::Signature), [`NotHeld`](Refusal::NotHeld).
pub fn withdraw(
    cache: &mut [u8],
    service: &Id,
    peer: &Id,
    clock: u64,
    vouched: bool,
) -> Result<(), Refusal> {
    withdraw_by(
        ffi::unglassot_withdraw,
        cache,
        service,
        peer,
        clock,
        vouched,
    )
}

/// The call that withdraws.
type Withdraw =
    unsafe extern "C" fn(*mut u8, usize, *const u8, usize, *const u8, usize, u64, u8) -> i64;

fn withdraw_by(
    withdraw: Withdraw,
    cache: &mut [u8],
    service: &Id,
    peer: &Id,
    clock: u64,
    vouched: bool,
) -> Result<(), Refusal> {
    // SAFETY: pointers and lengths are those of slices, and `cache` is lent alone.
    answer(unsafe {
        withdraw(
            cache.as_mut_ptr(),
            cache.len(),
            service.as_ptr(),
            service.len(),
            peer.as_ptr(),
            peer.len(),
            clock,
            u8::from(vouched),
        )
    })
    .map(drop)
}

/// GET_ADS: the first ten live advertisements of a service that are not withdrawn, oldest first.
///
/// Refusals: [`Refusal::Cache`], [`Refusal::Clock`].
pub fn get_ads(cache: &[u8], clock: u64, service: &Id) -> Result<Listing, Refusal> {
    list_by(ffi::unglassot_get_ads, cache, clock, service)
}

/// The call that lists.
type List = unsafe extern "C" fn(*const u8, usize, u64, *const u8, usize, *mut u8, usize) -> i64;

fn list_by(get_ads: List, cache: &[u8], clock: u64, service: &Id) -> Result<Listing, Refusal> {
    // A cache of neither family is refused, whatever the buffer's length.
    let family = family(cache).unwrap_or(Family::V4);
    let mut records = [0; LISTED_MAX * AD_V6_LEN];
    let list = &mut records[..family.list_len()];
    // SAFETY: pointers and lengths are those of slices, and `list` is lent alone.
    let count = answer(unsafe {
        get_ads(
            cache.as_ptr(),
            cache.len(),
            clock,
            service.as_ptr(),
            service.len(),
            list.as_mut_ptr(),
            list.len(),
        )
    })?;
    Ok(Listing {
        records,
        count: count as usize,
        family,
    })
}

/// The body of the newest advertisement of a service in two caches, as a part of the cache that holds it: of the live ones that are not
/// withdrawn the one that was accepted last; at equal times the later place in one cache, and the first of the two caches, which may be
/// the same bytes. They may differ in family: the body has 142 bytes in an IPv4 cache and 154 in an IPv6 one, which is
/// [`body_len`](Family::body_len) of the family.
///
/// Refusals: [`Refusal::Cache`], [`Refusal::Clock`], of the first cache and then of the second.
pub fn newest<'a>(
    first: &'a [u8],
    second: &'a [u8],
    clock: u64,
    service: &Id,
) -> Result<Option<&'a [u8]>, Refusal> {
    newest_by(ffi::unglassot_newest, first, second, clock, service)
}

/// The call that looks for the newest.
type Newest = unsafe extern "C" fn(
    *const u8,
    usize,
    *const u8,
    usize,
    u64,
    *const u8,
    usize,
    *mut u64,
) -> i64;

fn newest_by<'a>(
    newest: Newest,
    first: &'a [u8],
    second: &'a [u8],
    clock: u64,
    service: &Id,
) -> Result<Option<&'a [u8]>, Refusal> {
    let mut offset = 0;
    // SAFETY: pointers and lengths are those of slices, and `offset` is a variable of its own.
    let which = answer(unsafe {
        newest(
            first.as_ptr(),
            first.len(),
            second.as_ptr(),
            second.len(),
            clock,
            service.as_ptr(),
            service.len(),
            &mut offset,
        )
    })?;
    let holder = match which {
        1 => first,
        2 => second,
        _ => return Ok(None),
    };
    let at = offset as usize;
    Ok(family(holder).map(|family| &holder[at..at + family.body_len()]))
}

/// The identifier of a service: the SHA-256 of its protocol ID.
///
/// Refusals: [`Refusal::Protocol`].
pub fn service_id(protocol: &[u8]) -> Result<Id, Refusal> {
    let mut id = [0; 32];
    // SAFETY: pointers and lengths are those of slices, and `id` is a variable of its own.
    answer(unsafe {
        ffi::unglassot_service_id(protocol.as_ptr(), protocol.len(), id.as_mut_ptr(), id.len())
    })?;
    Ok(id)
}

/// The SHA-256 of a message (FIPS 180-4).
pub fn sha256(message: &[u8]) -> [u8; 32] {
    let mut digest = [0; 32];
    // SAFETY: pointers and lengths are those of slices, and `digest` is a variable of its own.
    unsafe {
        ffi::unglassot_sha256(
            message.as_ptr(),
            message.len(),
            digest.as_mut_ptr(),
            digest.len(),
        )
    };
    digest
}

/// The HMAC-SHA-256 of a message under a key of any length (RFC 2104).
pub fn hmac(key: &[u8], message: &[u8]) -> [u8; 32] {
    let mut tag = [0; 32];
    // SAFETY: pointers and lengths are those of slices, and `tag` is a variable of its own.
    unsafe {
        ffi::unglassot_hmac(
            key.as_ptr(),
            key.len(),
            message.as_ptr(),
            message.len(),
            tag.as_mut_ptr(),
            tag.len(),
        )
    };
    tag
}

/// The C answer as a result: a number, or the refusal that its negative names.
fn answer(number: i64) -> Result<u64, Refusal> {
    match u64::try_from(number) {
        Ok(number) => Ok(number),
        Err(_) => Err(Refusal::from_number(-number).expect("a refusal's number is 1 to 20")),
    }
}
