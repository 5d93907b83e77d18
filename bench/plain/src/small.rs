//! The calls of small registrars, which judge stamps: those of [`registrar`](crate::registrar), compiled for the other set.
use crate::registrar::{self, Registered, Request, Small};
use crate::Refusal;

pub const CAPACITY_MAX: usize = 64;
pub const WINDOW: u64 = 10_000;
pub const STAMP_AGE_MAX: u64 = 2_592_000_000;

pub fn open(cache: &mut [u8], family: u64) -> Result<(), Refusal> {
    registrar::open_by::<Small>(cache, family)
}

pub fn register(
    cache: &mut [u8],
    key: &[u8],
    clock: u64,
    ad: &[u8],
    vouched: u8,
    ticket: &[u8],
    reply: &mut [u8],
) -> Result<Registered, Refusal> {
    let request = Request {
        key,
        window: WINDOW,
        clock,
        ad,
        vouched,
        ticket,
    };
    registrar::register_by::<Small>(cache, &request, reply)
}

#[allow(clippy::too_many_arguments)]
pub fn register_bounded(
    cache: &mut [u8],
    bounds: &mut [u8],
    key: &[u8],
    clock: u64,
    ad: &[u8],
    vouched: u8,
    ticket: &[u8],
    reply: &mut [u8],
) -> Result<Registered, Refusal> {
    let request = Request {
        key,
        window: WINDOW,
        clock,
        ad,
        vouched,
        ticket,
    };
    registrar::register_bounded_by::<Small>(cache, bounds, &request, reply)
}

pub fn withdraw(
    cache: &mut [u8],
    wanted: &[u8],
    wanted_peer: &[u8],
    clock: u64,
    vouched: u8,
) -> Result<(), Refusal> {
    registrar::withdraw_by::<Small>(cache, wanted, wanted_peer, clock, vouched)
}

pub fn get_ads(cache: &[u8], clock: u64, wanted: &[u8], list: &mut [u8]) -> Result<usize, Refusal> {
    registrar::get_ads_by::<Small>(cache, clock, wanted, list)
}

pub fn newest(
    first: &[u8],
    second: &[u8],
    clock: u64,
    wanted: &[u8],
) -> Result<Option<(usize, usize)>, Refusal> {
    registrar::newest_by::<Small>(first, second, clock, wanted)
}
