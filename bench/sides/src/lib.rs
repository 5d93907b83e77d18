//! The implementations behind one shape, with answers as C has them: the proved library, plain Rust, and better plain Rust; and the first two once
//! more with the calls of small registrars.
pub mod scene;

use plain::{small, Refusal, Registered};
use unglassot::{ffi, USUAL_WINDOW};

/// The cache, the key, the clock, the ad and the ticket; the reply, and how many entries moved.
type Register = fn(&mut [u8], &[u8], u64, &[u8], &[u8], &mut [u8], &mut u64) -> i64;
/// The same with the bounds behind the cache.
type Bounded = fn(&mut [u8], &mut [u8], &[u8], u64, &[u8], &[u8], &mut [u8], &mut u64) -> i64;

/// What is measured of an implementation.
#[derive(Clone, Copy)]
pub struct Side {
    pub name: &'static str,
    pub open: fn(&mut [u8], u64) -> i64,
    pub register: Register,
    pub register_bounded: Bounded,
    pub withdraw: fn(&mut [u8], &[u8], &[u8], u64) -> i64,
    pub get_ads: fn(&[u8], u64, &[u8], &mut [u8]) -> i64,
    pub newest: fn(&[u8], &[u8], u64, &[u8], &mut u64) -> i64,
    pub service_id: fn(&[u8], &mut [u8]) -> i64,
    pub read_message: fn(&[u8], u64, &mut [u8]) -> i64,
    pub write_message: fn(&[u8], u64, &mut [u8]) -> i64,
    pub sha256: fn(&[u8], &mut [u8]) -> i64,
    pub hmac: fn(&[u8], &[u8], &mut [u8]) -> i64,
}

/// Three that are compared in a table.
pub type Sides = [Side; 3];

/// In the order of every table but one.
pub const SIDES: Sides = [PROVED, PLAIN, BEST];

/// The calls of small registrars, in the order of their table: the library's, plain Rust's, and the library's full ones.
pub const SMALL_SIDES: Sides = [PROVED_SMALL, PLAIN_SMALL, PROVED];

/// The names of a table's columns of numbers: of each side's time, and of the ratios to plain Rust's.
pub const COLUMNS: [&str; 5] = [
    "proved ns",
    "plain ns",
    "best ns",
    "ratio to plain",
    "ratio to best",
];

/// The same for [`SMALL_SIDES`].
pub const SMALL_COLUMNS: [&str; 5] = [
    "small ns",
    "plain ns",
    "full ns",
    "ratio to plain",
    "ratio to full",
];

/// The proved library, through its C interface.
pub const PROVED: Side = Side {
    name: "proved",
    // SAFETY, here and below: pointers and lengths are those of slices; what is written is lent alone.
    open: |cache, family| unsafe { ffi::unglassot_open(cache.as_mut_ptr(), cache.len(), family) },
    register: |cache, key, clock, ad, ticket, reply, moves| unsafe {
        ffi::unglassot_register(
            cache.as_mut_ptr(),
            cache.len(),
            key.as_ptr(),
            key.len(),
            USUAL_WINDOW,
            clock,
            ad.as_ptr(),
            ad.len(),
            1,
            ticket.as_ptr(),
            ticket.len(),
            reply.as_mut_ptr(),
            reply.len(),
            moves,
        )
    },
    register_bounded: |cache, bounds, key, clock, ad, ticket, reply, moves| unsafe {
        ffi::unglassot_register_bounded(
            cache.as_mut_ptr(),
            cache.len(),
            bounds.as_mut_ptr(),
            bounds.len(),
            key.as_ptr(),
            key.len(),
            USUAL_WINDOW,
            clock,
            ad.as_ptr(),
            ad.len(),
            1,
            ticket.as_ptr(),
            ticket.len(),
            reply.as_mut_ptr(),
            reply.len(),
            moves,
        )
    },
    withdraw: |cache, service, peer, clock| unsafe {
        ffi::unglassot_withdraw(
            cache.as_mut_ptr(),
            cache.len(),
            service.as_ptr(),
            service.len(),
            peer.as_ptr(),
            peer.len(),
            clock,
            1,
        )
    },
    get_ads: |cache, clock, service, list| unsafe {
        ffi::unglassot_get_ads(
            cache.as_ptr(),
            cache.len(),
            clock,
            service.as_ptr(),
            service.len(),
            list.as_mut_ptr(),
            list.len(),
        )
    },
    newest: |first, second, clock, service, offset| unsafe {
        ffi::unglassot_newest(
            first.as_ptr(),
            first.len(),
            second.as_ptr(),
            second.len(),
            clock,
            service.as_ptr(),
            service.len(),
            offset,
        )
    },
    service_id: |protocol, id| unsafe {
        let (id, id_len) = (id.as_mut_ptr(), id.len());
        ffi::unglassot_service_id(protocol.as_ptr(), protocol.len(), id, id_len)
    },
    read_message: |message, epoch, ad| unsafe {
        let (ad, ad_len) = (ad.as_mut_ptr(), ad.len());
        ffi::unglassot_read_message(message.as_ptr(), message.len(), epoch, ad, ad_len)
    },
    write_message: |ad, epoch, out| unsafe {
        let (out, out_len) = (out.as_mut_ptr(), out.len());
        ffi::unglassot_write_message(ad.as_ptr(), ad.len(), epoch, out, out_len)
    },
    sha256: |message, digest| unsafe {
        let (digest, digest_len) = (digest.as_mut_ptr(), digest.len());
        ffi::unglassot_sha256(message.as_ptr(), message.len(), digest, digest_len)
    },
    hmac: |key, message, tag| unsafe {
        let (tag, tag_len) = (tag.as_mut_ptr(), tag.len());
        let (message, message_len) = (message.as_ptr(), message.len());
        ffi::unglassot_hmac(key.as_ptr(), key.len(), message, message_len, tag, tag_len)
    },
};

/// Its calls of small registrars.
pub const PROVED_SMALL: Side = Side {
    name: "small",
    open: |cache, family| unsafe {
        ffi::unglassot_small_open(cache.as_mut_ptr(), cache.len(), family)
    },
    register: |cache, key, clock, ad, ticket, reply, moves| unsafe {
        ffi::unglassot_small_register(
            cache.as_mut_ptr(),
            cache.len(),
            key.as_ptr(),
            key.len(),
            clock,
            ad.as_ptr(),
            ad.len(),
            1,
            ticket.as_ptr(),
            ticket.len(),
            reply.as_mut_ptr(),
            reply.len(),
            moves,
        )
    },
    register_bounded: |cache, bounds, key, clock, ad, ticket, reply, moves| unsafe {
        ffi::unglassot_small_register_bounded(
            cache.as_mut_ptr(),
            cache.len(),
            bounds.as_mut_ptr(),
            bounds.len(),
            key.as_ptr(),
            key.len(),
            clock,
            ad.as_ptr(),
            ad.len(),
            1,
            ticket.as_ptr(),
            ticket.len(),
            reply.as_mut_ptr(),
            reply.len(),
            moves,
        )
    },
    withdraw: |cache, service, peer, clock| unsafe {
        ffi::unglassot_small_withdraw(
            cache.as_mut_ptr(),
            cache.len(),
            service.as_ptr(),
            service.len(),
            peer.as_ptr(),
            peer.len(),
            clock,
            1,
        )
    },
    get_ads: |cache, clock, service, list| unsafe {
        ffi::unglassot_small_get_ads(
            cache.as_ptr(),
            cache.len(),
            clock,
            service.as_ptr(),
            service.len(),
            list.as_mut_ptr(),
            list.len(),
        )
    },
    newest: |first, second, clock, service, offset| unsafe {
        ffi::unglassot_small_newest(
            first.as_ptr(),
            first.len(),
            second.as_ptr(),
            second.len(),
            clock,
            service.as_ptr(),
            service.len(),
            offset,
        )
    },
    ..PROVED
};

/// An answer as C has it.
fn number(result: Result<i64, Refusal>) -> i64 {
    result.unwrap_or_else(|refusal| -i64::from(refusal.0))
}

fn registered(result: Result<Registered, Refusal>, told: &mut u64) -> i64 {
    number(result.map(|registered| match registered {
        Registered::Confirmed { moves } => {
            *told = moves;
            0
        }
        Registered::Wait { millis, moves } => {
            *told = moves;
            millis as i64
        }
    }))
}

fn found(result: Result<Option<(usize, usize)>, Refusal>, offset: &mut u64) -> i64 {
    number(result.map(|found| match found {
        None => 0,
        Some((which, at)) => {
            *offset = at as u64;
            which as i64
        }
    }))
}

/// A crate of plain Rust. The functions' names are for a profiler that counts what is run between their beginning and their end (bench/count).
macro_rules! rust {
    (
        $side:ident = $of:ident: $open:ident $register:ident $register_bounded:ident $withdraw:ident $get_ads:ident $newest:ident
        $service_id:ident $read_message:ident $write_message:ident $sha256:ident $hmac:ident
    ) => {
        #[no_mangle]
        fn $open(cache: &mut [u8], family: u64) -> i64 {
            number($of::open(cache, family).map(|()| 0))
        }

        #[no_mangle]
        fn $register(
            cache: &mut [u8],
            key: &[u8],
            clock: u64,
            ad: &[u8],
            ticket: &[u8],
            reply: &mut [u8],
            moves: &mut u64,
        ) -> i64 {
            let answer = $of::register(cache, key, USUAL_WINDOW, clock, ad, 1, ticket, reply);
            registered(answer, moves)
        }

        #[no_mangle]
        #[allow(clippy::too_many_arguments)]
        fn $register_bounded(
            cache: &mut [u8],
            bounds: &mut [u8],
            key: &[u8],
            clock: u64,
            ad: &[u8],
            ticket: &[u8],
            reply: &mut [u8],
            moves: &mut u64,
        ) -> i64 {
            let window = USUAL_WINDOW;
            let answer =
                $of::register_bounded(cache, bounds, key, window, clock, ad, 1, ticket, reply);
            registered(answer, moves)
        }

        #[no_mangle]
        fn $withdraw(cache: &mut [u8], service: &[u8], peer: &[u8], clock: u64) -> i64 {
            number($of::withdraw(cache, service, peer, clock, 1).map(|()| 0))
        }

        #[no_mangle]
        fn $get_ads(cache: &[u8], clock: u64, service: &[u8], list: &mut [u8]) -> i64 {
            number($of::get_ads(cache, clock, service, list).map(|count| count as i64))
        }

        #[no_mangle]
        fn $newest(
            first: &[u8],
            second: &[u8],
            clock: u64,
            service: &[u8],
            offset: &mut u64,
        ) -> i64 {
            found($of::newest(first, second, clock, service), offset)
        }

        #[no_mangle]
        fn $service_id(protocol: &[u8], id: &mut [u8]) -> i64 {
            number($of::service_id(protocol, id).map(|()| 0))
        }

        #[no_mangle]
        fn $read_message(message: &[u8], epoch: u64, ad: &mut [u8]) -> i64 {
            number($of::read_message(message, epoch, ad).map(|()| 0))
        }

        #[no_mangle]
        fn $write_message(ad: &[u8], epoch: u64, out: &mut [u8]) -> i64 {
            number($of::write_message(ad, epoch, out).map(|length| length as i64))
        }

        #[no_mangle]
        fn $sha256(message: &[u8], digest: &mut [u8]) -> i64 {
            digest.copy_from_slice(&$of::sha256(message));
            0
        }

        #[no_mangle]
        fn $hmac(key: &[u8], message: &[u8], tag: &mut [u8]) -> i64 {
            tag.copy_from_slice(&$of::hmac(key, message));
            0
        }

        pub const $side: Side = Side {
            name: stringify!($of),
            open: $open,
            register: $register,
            register_bounded: $register_bounded,
            withdraw: $withdraw,
            get_ads: $get_ads,
            newest: $newest,
            service_id: $service_id,
            read_message: $read_message,
            write_message: $write_message,
            sha256: $sha256,
            hmac: $hmac,
        };
    };
}

rust! {
    PLAIN = plain: plain_open plain_register plain_register_bounded plain_withdraw plain_get_ads plain_newest
    plain_service_id plain_read_message plain_write_message plain_sha256 plain_hmac
}

rust! {
    BEST = best: best_open best_register best_register_bounded best_withdraw best_get_ads best_newest
    best_service_id best_read_message best_write_message best_sha256 best_hmac
}

#[no_mangle]
fn plain_small_open(cache: &mut [u8], family: u64) -> i64 {
    number(small::open(cache, family).map(|()| 0))
}

#[no_mangle]
fn plain_small_register(
    cache: &mut [u8],
    key: &[u8],
    clock: u64,
    ad: &[u8],
    ticket: &[u8],
    reply: &mut [u8],
    moves: &mut u64,
) -> i64 {
    let answer = small::register(cache, key, clock, ad, 1, ticket, reply);
    registered(answer, moves)
}

#[no_mangle]
#[allow(clippy::too_many_arguments)]
fn plain_small_register_bounded(
    cache: &mut [u8],
    bounds: &mut [u8],
    key: &[u8],
    clock: u64,
    ad: &[u8],
    ticket: &[u8],
    reply: &mut [u8],
    moves: &mut u64,
) -> i64 {
    let answer = small::register_bounded(cache, bounds, key, clock, ad, 1, ticket, reply);
    registered(answer, moves)
}

#[no_mangle]
fn plain_small_withdraw(cache: &mut [u8], service: &[u8], peer: &[u8], clock: u64) -> i64 {
    number(small::withdraw(cache, service, peer, clock, 1).map(|()| 0))
}

#[no_mangle]
fn plain_small_get_ads(cache: &[u8], clock: u64, service: &[u8], list: &mut [u8]) -> i64 {
    number(small::get_ads(cache, clock, service, list).map(|count| count as i64))
}

#[no_mangle]
fn plain_small_newest(
    first: &[u8],
    second: &[u8],
    clock: u64,
    service: &[u8],
    offset: &mut u64,
) -> i64 {
    found(small::newest(first, second, clock, service), offset)
}

/// Plain Rust's calls of small registrars.
pub const PLAIN_SMALL: Side = Side {
    open: plain_small_open,
    register: plain_small_register,
    register_bounded: plain_small_register_bounded,
    withdraw: plain_small_withdraw,
    get_ads: plain_small_get_ads,
    newest: plain_small_newest,
    ..PLAIN
};
