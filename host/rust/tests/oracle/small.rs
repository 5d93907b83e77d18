//! Document 02, order 14, "The hall-desk profile": the calls of a small registrar, which judges stamps. What they have in common with the full calls is
//! theirs.
use super::bounds;
use super::cache::Cache;
use super::family::Family;
use super::record::Ad;
use super::registrar::{self, Registered, Request};

/// "C at most 64".
pub const CAPACITY_MAX: usize = 64;
/// "Window 10,000".
pub const WINDOW: u64 = 10_000;
/// "2,592,000,000 ms (thirty days)".
pub const STAMP_AGE_MAX: u64 = 30 * 24 * 60 * 60 * 1_000;

/// How long before this clock a stamp is, in ms; below 0 for one after it.
fn age(now: u64, stamp: u64) -> i128 {
    i128::from(now) - i128::from(stamp)
}

/// "An ad's stamp is not after now and not older than 2,592,000,000 ms": refusal 20.
fn judge(ad: &Ad, now: u64) -> Result<(), i64> {
    if (0..=i128::from(STAMP_AGE_MAX)).contains(&age(now, ad.stamp)) {
        Ok(())
    } else {
        Err(20)
    }
}

/// "C above 64 is refusal 1", as is a cache that is not well formed.
fn small(cache: &[u8]) -> Result<Cache, i64> {
    let cache = Cache::read(cache).ok_or(1)?;
    if cache.capacity > CAPACITY_MAX {
        return Err(1);
    }
    Ok(cache)
}

pub fn open(cache: &[u8], family: u64) -> Result<Vec<u8>, i64> {
    let told = Family::of_number(family).ok_or(1)?;
    if told.capacity_of(cache.len()).ok_or(1)? > CAPACITY_MAX {
        return Err(1);
    }
    registrar::open(cache, family)
}

/// The request with the window that is in force; its own is not looked at.
fn windowed<'a>(request: &Request<'a>) -> Request<'a> {
    let mut request = request.clone();
    request.window = WINDOW;
    request
}

pub fn register(cache: &[u8], request: &Request) -> Result<(Registered, Vec<u8>), i64> {
    small(cache)?;
    registrar::register_judged(cache, &windowed(request), judge)
}

pub fn register_bounded(
    cache: &[u8],
    bounds: &[u8],
    request: &Request,
) -> Result<(Registered, Vec<u8>, Vec<u8>), i64> {
    small(cache)?;
    bounds::register_judged(cache, bounds, &windowed(request), judge)
}

pub fn withdraw(
    cache: &[u8],
    service: &[u8],
    peer: &[u8],
    now: u64,
    vouched: u8,
) -> Result<Vec<u8>, i64> {
    small(cache)?;
    registrar::withdraw(cache, service, peer, now, vouched)
}

/// The cache as a listing shows it: "skips ads grown older than that". To a listing they are as quiet ads, which keep their places and are passed over;
/// an ad whose stamp is after now has not grown older.
fn shown(cache: &[u8], now: u64) -> Result<Vec<u8>, i64> {
    let mut cache = small(cache)?;
    for entry in &mut cache.entries {
        entry.withdrawn |= age(now, entry.ad.stamp) > i128::from(STAMP_AGE_MAX);
    }
    Ok(cache.bytes())
}

pub fn get_ads(
    cache: &[u8],
    now: u64,
    service: &[u8],
    list_len: usize,
) -> Result<Vec<Vec<u8>>, i64> {
    registrar::get_ads(&shown(cache, now)?, now, service, list_len)
}

/// Document 02, order 9, under the profile. What the first cache is refused for comes before the second is looked at.
pub fn newest(
    first: &[u8],
    second: &[u8],
    now: u64,
    service: &[u8],
) -> Result<Option<(i64, usize)>, i64> {
    let mine = shown(first, now)?;
    registrar::newest(&mine, &mine, now, service)?;
    let theirs = shown(second, now)?;
    registrar::newest(&mine, &theirs, now, service)
}
