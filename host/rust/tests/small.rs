//! The oracle's calls of small registrars (document 02, order 14) against tables made by hand, in both families; and the linked library against the
//! oracle.
mod oracle;
mod profile;
mod stored;

use oracle::family::Family;
use oracle::record::Ad;
use oracle::registrar::Request;
use oracle::small::{self, STAMP_AGE_MAX};
use profile::Small;
use stored::small::{
    asking, day, fault_lines, lettered, newcomer, stamps, CLOCKS, LISTED, NOW, TWO,
};
use stored::Line;
use unglassot::ffi;

/// The calls as C makes them.
struct Library;

// SAFETY, of all of them: pointers and lengths are those of slices, and a buffer that is written is lent alone.
impl Small for Library {
    fn open(&self, cache: &mut [u8], family: u64) -> i64 {
        unsafe { ffi::unglassot_small_open(cache.as_mut_ptr(), cache.len(), family) }
    }

    fn register(
        &self,
        cache: &mut [u8],
        request: &Request,
        reply: &mut [u8],
        moves: &mut u64,
    ) -> i64 {
        unsafe {
            ffi::unglassot_small_register(
                cache.as_mut_ptr(),
                cache.len(),
                request.key.as_ptr(),
                request.key.len(),
                request.clock,
                request.ad.as_ptr(),
                request.ad.len(),
                request.vouched,
                request.ticket.as_ptr(),
                request.ticket.len(),
                reply.as_mut_ptr(),
                reply.len(),
                moves,
            )
        }
    }

    fn register_bounded(
        &self,
        cache: &mut [u8],
        bounds: &mut [u8],
        request: &Request,
        reply: &mut [u8],
        moves: &mut u64,
    ) -> i64 {
        unsafe {
            ffi::unglassot_small_register_bounded(
                cache.as_mut_ptr(),
                cache.len(),
                bounds.as_mut_ptr(),
                bounds.len(),
                request.key.as_ptr(),
                request.key.len(),
                request.clock,
                request.ad.as_ptr(),
                request.ad.len(),
                request.vouched,
                request.ticket.as_ptr(),
                request.ticket.len(),
                reply.as_mut_ptr(),
                reply.len(),
                moves,
            )
        }
    }

    fn withdraw(
        &self,
        cache: &mut [u8],
        service: &[u8],
        peer: &[u8],
        clock: u64,
        vouched: u8,
    ) -> i64 {
        unsafe {
            ffi::unglassot_small_withdraw(
                cache.as_mut_ptr(),
                cache.len(),
                service.as_ptr(),
                service.len(),
                peer.as_ptr(),
                peer.len(),
                clock,
                vouched,
            )
        }
    }

    fn get_ads(&self, cache: &[u8], clock: u64, service: &[u8], list: &mut [u8]) -> i64 {
        unsafe {
            ffi::unglassot_small_get_ads(
                cache.as_ptr(),
                cache.len(),
                clock,
                service.as_ptr(),
                service.len(),
                list.as_mut_ptr(),
                list.len(),
            )
        }
    }

    fn newest(
        &self,
        first: &[u8],
        second: &[u8],
        clock: u64,
        service: &[u8],
        offset: &mut u64,
    ) -> i64 {
        unsafe {
            ffi::unglassot_small_newest(
                first.as_ptr(),
                first.len(),
                second.as_ptr(),
                second.len(),
                clock,
                service.as_ptr(),
                service.len(),
                offset,
            )
        }
    }
}

#[test]
fn stored_requests() {
    profile::stored_requests(&Library);
}

#[test]
fn drawn_registers() {
    profile::drawn_registers(&Library);
}

#[test]
fn drawn_others() {
    profile::drawn_others(&Library);
}

/// Which of the stamps are taken at each clock, by hand: those from thirty days before it to it.
#[test]
fn stamps_are_taken_from_thirty_days_before_to_now() {
    const DAYS: u64 = 2_592_000_000;
    let taken: [&[u64]; 7] = [
        &[0],
        &[0, 1, 100_000_000],
        &[0, 1, DAYS - 1],
        &[0, 1, DAYS],
        &[1, DAYS + 1],
        &[2_408_000_000, 5_000_000_000],
        &[1_096_919_627_775, 1_099_511_627_775],
    ];
    for family in Family::BOTH {
        for (now, taken) in CLOCKS.into_iter().zip(taken) {
            let cache = small::open(&vec![0; family.cache_len(64)], family.number()).unwrap();
            let is_taken = |stamp: &u64| {
                let ad = newcomer(family, *stamp).record();
                match small::register(&cache, &asking(now, &ad, &[])) {
                    Ok(_) => true,
                    refused => {
                        assert_eq!(refused, Err(20));
                        false
                    }
                }
            };
            let found: Vec<u64> = stamps(now).into_iter().filter(is_taken).collect();
            assert_eq!(found, taken, "at {now}");
        }
    }
    assert_eq!(STAMP_AGE_MAX, DAYS);
}

#[test]
fn older_entries_are_passed_over() {
    for family in Family::BOTH {
        for (letters, now, count, newest) in LISTED {
            let cache = lettered(family, now, letters);
            let listed = small::get_ads(&cache, now, &[b'S'; 32], family.list_len()).unwrap();
            assert_eq!(listed.len(), count, "{letters}");
            let old = |ad: &Vec<u8>| {
                let stamp = Ad::read(family, ad).unwrap().stamp;
                stamp < now.saturating_sub(STAMP_AGE_MAX)
            };
            assert!(!listed.iter().any(old), "{letters}");
            let found = small::newest(&cache, &cache, now, &[b'S'; 32]).unwrap();
            let place = (newest > 0).then(|| (1, family.cache_len(newest - 1) + 9));
            assert_eq!(found, place, "{letters}");
        }
        for (first, second, which) in TWO {
            let [first, second] = [first, second].map(|letters| lettered(family, NOW, letters));
            let found = small::newest(&first, &second, NOW, &[b'S'; 32]).unwrap();
            assert_eq!(found.map_or(0, |(which, _)| which), which);
        }
    }
}

/// What the REGISTERs of the day answer: waits by the recipe, worked out by hand where nothing is held or what is held is alone.
#[test]
fn a_day_of_both_sets() {
    for family in Family::BOTH {
        let told = day(family).told;
        // One waits a ms and is confirmed; the same stamp again is too old, though it is held; renewed, it is held.
        assert_eq!(told[..4], [1, 0, -20, -6]);
        // Another is too old, with a ticket too; by the full call it is confirmed, and then held.
        assert_eq!(told[4..8], [-20, -20, 0, -6]);
        // A third waits until it is too old; renewed, its ticket is another's, and it starts afresh; by the full call it is confirmed.
        assert!(told[8] > 5);
        assert_eq!(told[9..11], [-20, -10]);
        assert!(told[11] > 0);
        assert_eq!(told[12], 0);
        // When the first two have expired, one begins anew.
        assert!(told[13] > 0);
        assert_eq!(told.len(), 14);
    }
}

/// The refusal of a fault is its number without the last digit; of two, that of the first. Some are the good side of an edge.
#[test]
fn refusals_in_their_order() {
    let good = [0, 171, 178, 204, 205, 113, 114, 176, 177, 194, 195];
    for family in Family::BOTH {
        let mut calls = std::collections::BTreeMap::new();
        for line in fault_lines(family) {
            let text = Line::text(&line);
            let words: Vec<&str> = text.trim_start_matches("IPv6 ").split(' ').collect();
            let fault = words[2].trim_end_matches(':').split('+').next().unwrap();
            let answer = words[3].parse::<i64>().unwrap();
            let expected = match fault.parse::<i64>().unwrap() {
                171 if words[1] == "withdraw" => -17,
                202 if words[1] == "get_ads" => 1,
                fault if good.contains(&fault) => answer.max(0),
                1..=3 => -1,
                fault => -(fault / 10),
            };
            assert_eq!(answer, expected, "{text}");
            *calls.entry(words[1].to_string()).or_insert(0) += 1;
        }
        assert_eq!(calls.len(), 4);
    }
}
