//! The oracle's REGISTER with lower bounds (document 02, order 12) against a day and cases worked out by hand, in both families; and the
//! linked library against the oracle.
mod bounded;
mod oracle;
mod stored;

use oracle::bounds::Bounds;
use oracle::family::Family;
use oracle::registrar::Request;
use stored::bounds::{
    asker, asking, bounds_in, case_line, day, fault_lines, forms, held, left, CASES, NOW,
};
use stored::Line;
use unglassot::ffi;

/// The call as C makes it.
fn library(
    cache: &mut [u8],
    bounds: &mut [u8],
    request: &Request,
    reply: &mut [u8],
    moves: &mut u64,
) -> i64 {
    // SAFETY: pointers and lengths are those of slices, and a buffer that is written is lent alone.
    unsafe {
        ffi::unglassot_register_bounded(
            cache.as_mut_ptr(),
            cache.len(),
            bounds.as_mut_ptr(),
            bounds.len(),
            request.key.as_ptr(),
            request.key.len(),
            request.window,
            request.clock,
            request.ad.as_ptr(),
            request.ad.len(),
            request.vouched,
            request.ticket.as_ptr(),
            request.ticket.len(),
            reply.as_mut_ptr(),
            reply.len(),
            moves,
        )
    }
}

#[test]
fn stored_requests() {
    bounded::stored_requests(library);
}

#[test]
fn many_places() {
    bounded::many_places(library);
}

#[test]
fn drawn_runs() {
    bounded::drawn_runs(library);
}

/// Whoever asks afresh when two entries are gone waits as long as before, and whoever keeps its ticket is confirmed: what each call answers, and the until of
/// its pair afterwards.
#[test]
fn asking_afresh_does_not_pay() {
    for family in Family::BOTH {
        let told = [
            (38_635, 10_038_635),
            (29_550, 10_106_820),
            (68_184, 10_106_820),
            (-11, 10_106_820),
            (0, 10_106_820),
        ];
        assert_eq!(day(family).told, told);
        assert_eq!(day(family).lines.len(), 6);
    }
}

#[test]
fn bounds_are_entered_in_place_or_last() {
    for family in Family::BOTH {
        for case in &CASES {
            let (what, _, places, _, answer, after) = case;
            let (left, _) = case_line(family, case);
            let told = (left.answer, left.bounds);
            assert_eq!(told, (*answer, bounds_in(family, after, *places)), "{what}");
        }
    }
}

/// What A is answered with each of the buffers: most are of the form or not for a reason that their name tells.
#[test]
fn form_of_bounds() {
    let refused = [
        "no bytes",
        "a byte less than a place",
        "a byte more than a place",
        "a place of the other family",
        "a byte less than the most",
        "a byte more than the most",
        "a place too many",
        "2565 bytes, two of the other family",
        "an until after the last",
        "a second until after the last",
        "the largest number for until",
        "a pair twice",
        "a pair twice, other untils",
        "a pair twice, apart",
        "kind 16 behind",
        "kind 18 behind",
        "two records of zeros but their kind",
        "a byte behind a kind of 0",
        "a last byte",
        "a record behind a gap",
    ];
    let own = [
        "2565 bytes, its own in front",
        "2565 bytes, two in front",
        "an address twice",
        "full",
    ];
    for family in Family::BOTH {
        let ad = asker(family, 'A').record();
        for (form, mut bounds, length) in forms(family) {
            bounds.resize(length, 0);
            let expected = match form {
                form if refused.contains(&form) => -18,
                // An IPv4 record and zeros are an IPv6 record whose until is 0.
                "2565 bytes, one of the other family" if family == Family::V4 => -18,
                form if own.contains(&form) => 50_000,
                "a last until" => 900_000,
                _ => 38_635,
            };
            let left = left(&held(family), &bounds, &asking(NOW, &ad, &[]));
            assert_eq!(left.answer, expected, "{family:?} {form}");
            assert!(left.answer > 0 || left.bounds == bounds, "{form}");
        }
        let named = |form: &&str| forms(family).iter().any(|each| each.0 == *form);
        assert!(refused.iter().chain(&own).all(named));
    }
    let places = |family| Bounds::read(family, &[0; 2565]).unwrap().places;
    assert_eq!([places(Family::V4), places(Family::V6)], [57, 45]);
}

/// The refusal of a fault is its number without the last digit; of two, that of the first. Some are the good side of an edge.
#[test]
fn refusals_in_their_order() {
    let good = [0, 171, 178, 193, 194, 195];
    for family in Family::BOTH {
        for line in fault_lines(family) {
            let text = Line::text(&line);
            let words: Vec<&str> = text.trim_start_matches("IPv6 ").split(' ').collect();
            let fault: i64 = words[1]
                .trim_end_matches(':')
                .split('+')
                .next()
                .unwrap()
                .parse()
                .unwrap();
            let expected = match fault {
                fault if good.contains(&fault) => 900_000,
                1 => -1,
                fault => -(fault / 10),
            };
            assert_eq!(words[2].parse::<i64>().unwrap(), expected, "{text}");
        }
    }
}
