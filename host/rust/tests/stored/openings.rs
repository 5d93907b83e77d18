//! Openings of every family's number and of those that are none, at the edges of both families' lengths.
use super::{buffer, digest, hex, number, Buffer, Call, Given, Line, Shown, UNTOUCHED};
use crate::oracle::registrar;

/// A buffer of this length opened for a family's number: its bytes, or where they are many its head and their digest.
fn opened(label: String, family: u64, length: usize) -> Line {
    let answer = registrar::open(&vec![UNTOUCHED; length], family);
    let cache = buffer(length, &answer);
    let (how, shown) = if length < 400 {
        (Shown::Bytes, hex(&cache))
    } else {
        let headed = format!("{} {}", hex(&cache[..29]), digest(&cache));
        (Shown::Headed, headed)
    };
    Line {
        label,
        said: format!(" {} {shown}", number(&answer)),
        given: Given {
            call: Call::Open,
            anew: true,
            cache: Buffer(length, length, how),
            numbers: vec![family],
            ..Given::default()
        },
    }
}

/// As IPv4, whose lines do not name the family.
pub fn v4(length: usize) -> Line {
    opened(format!("open {length}:"), 4, length)
}

pub fn told(family: u64, length: usize) -> Line {
    opened(format!("open {length} as {family}:"), family, length)
}

/// The lengths of capacity 1, and one that is a capacity's in both families: 163 of IPv4, 151 of IPv6.
const LENGTHS: [usize; 3] = [180, 192, 24_642];
const NO_FAMILIES: [u64; 10] = [0, 1, 2, 3, 5, 7, 10, (1 << 32) + 4, (1 << 32) + 6, u64::MAX];

pub fn lines() -> Vec<Line> {
    let short = [179, 180, 181, 29, 164, 151_029, 151_180];
    let long = [191, 192, 193, 29, 180, 24_642, 163_029, 163_192];
    let mut lines: Vec<Line> = short.map(v4).into_iter().collect();
    lines.extend([192, 24_642].map(v4));
    lines.extend(long.map(|length| told(6, length)));
    for family in NO_FAMILIES {
        lines.extend(LENGTHS.map(|length| told(family, length)));
    }
    lines
}
