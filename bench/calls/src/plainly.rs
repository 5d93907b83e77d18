//! The calls without a cache to look through: SHA-256, HMAC, identifiers, messages, and opening.
use std::hint::black_box;
use std::time::Duration;

use measure::{in_a_row, Measured};
use sides::scene::{newcomers, Family, FAMILIES, KEY};
use sides::{Side, SIDES};

use crate::{counting, measured, print_row, CAPACITIES};

/// What a buffer holds before a call.
const UNWRITTEN: u8 = 0xa5;
/// The Unix second at which the clock is 0; the advertisement's stamp is a whole second.
const EPOCH: u64 = 1_700_000_000;
const PROTOCOL: &[u8] = b"/logos/service/storage/1.0.0";

/// A call that fills a buffer of this length: every side answers the same and writes the same, and then they are measured.
fn filling(len: usize, call: impl Fn(Side, &mut [u8]) -> i64 + Copy) -> Measured<3> {
    let written = SIDES.map(|side| {
        let mut buffer = vec![UNWRITTEN; len];
        (call(side, &mut buffer), buffer)
    });
    assert!(
        written.iter().all(|each| *each == written[0]),
        "the implementations differ"
    );
    assert!(written[0].0 >= 0, "not the answer to measure");
    measured(SIDES.map(|side| sampler(len, move |buffer| call(side, buffer))))
}

fn sampler(len: usize, call: impl Fn(&mut [u8]) -> i64) -> impl FnMut(u32) -> Duration {
    let mut buffer = vec![UNWRITTEN; len];
    in_a_row(move || {
        black_box(call(black_box(&mut buffer)));
    })
}

/// A MiB is not for a profiler, which takes long.
fn hashes() {
    let message: Vec<u8> = (0..1u32 << 20)
        .map(|i| (i * 167 + (i >> 8)) as u8)
        .collect();
    let lengths = [
        ("sha256, 64 bytes", 64),
        ("sha256, an ad's 143 bytes", 143),
        ("sha256, an ad's 155 bytes", 155),
        ("sha256, 1 MiB", 1 << 20),
    ];
    for (name, len) in lengths {
        if len < 1 << 20 || !counting() {
            let message = &message[..len];
            let hashed = filling(32, |side, digest| {
                black_box(side.sha256)(black_box(message), digest)
            });
            print_row(name, None, None, hashed);
        }
    }
    let tagged = filling(32, |side, tag| {
        black_box(side.hmac)(black_box(&KEY), black_box(&message[..57]), tag)
    });
    print_row("hmac, a ticket's 57 bytes", None, None, tagged);
}

/// A message of an advertisement, written and read.
fn messages() {
    let ad = newcomers(Family::V4, false).swap_remove(0).ad;
    let mut message = [0; 160];
    let length = (sides::PLAIN.write_message)(&ad, EPOCH, &mut message) as usize;
    let message = &message[..length];
    let read = filling(ad.len(), |side, ad| {
        black_box(side.read_message)(black_box(message), EPOCH, ad)
    });
    print_row("read_message", None, None, read);
    let written = filling(length, |side, out| {
        black_box(side.write_message)(black_box(&ad), EPOCH, out)
    });
    print_row("write_message", None, None, written);
}

pub fn rows() {
    hashes();
    let told = filling(32, |side, id| {
        black_box(side.service_id)(black_box(PROTOCOL), id)
    });
    print_row("service_id", None, None, told);
    messages();
    for family in FAMILIES {
        for capacity in CAPACITIES {
            let len = 29 + family.entry_len() * capacity;
            let opened = filling(len, |side, cache| {
                black_box(side.open)(cache, family.number())
            });
            print_row("open", Some(family), Some((capacity, 0)), opened);
        }
    }
}
