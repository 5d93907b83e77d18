//! The Advertisement message in Protocol Buffers wire form (document 02, order 6).
use super::calls::Calls;
use super::compare::Compare;
use super::inputs::{ad, address, unwritten};
use super::random::Random;
use crate::oracle::family::Family;
use crate::oracle::message::{len_field, message, tag, varint, varint_field, EPOCH_END};
use crate::oracle::record::Ad;
use crate::oracle::CLOCK_MAX;

/// The clock's whole seconds: 2^40 − 1 ms.
const LAST_SECOND: u64 = 1_099_511_627;
/// 2026-01-01 00:00 UTC.
const EPOCH: u64 = 1_767_225_600;

/// Epochs at which a timestamp's varint gets longer, and those at the end of their range.
fn some_epochs() -> Vec<u64> {
    let longer = (1..5).flat_map(|bytes| [(1 << (7 * bytes)) - 1, 1 << (7 * bytes)]);
    longer.chain([0, 1, EPOCH, EPOCH_END - 1]).collect()
}

/// A whole second of the clock: its first and last, those at which a varint gets longer, and any.
fn second(random: &mut Random) -> u64 {
    match random.below(4) {
        0 => random.pick(&[0, 1, LAST_SECOND - 1, LAST_SECOND]),
        1 => ((1 << (7 * random.below(5))) + random.below(2))
            .saturating_sub(1)
            .min(LAST_SECOND),
        _ => random.below(LAST_SECOND + 1),
    }
}

fn an_ad(random: &mut Random) -> Ad {
    let mut ad = ad(random, Family::V4, 5, 50);
    ad.port = random.pick(&[1, 255, 256, 443, 0x0606, 0x3000, 65535]);
    ad.stamp = second(random) * 1000;
    ad
}

fn second_of(ad: &Ad, epoch: u64) -> u64 {
    epoch + ad.stamp / 1000
}

/// What was written reads back as the ad, and an ad that was read is written as its message; bytes behind it stay.
pub fn round_trips<C: Calls>(calls: &C) {
    let both = Compare(calls);
    let mut random = Random::new(61);
    for epoch in some_epochs() {
        for _ in 0..100 {
            let ad = an_ad(&mut random);
            let record = ad.record();
            let mut out = unwritten(150 + random.index(3) * 50);
            let length = both.write_message(&record, epoch, &mut out);
            assert!((146..=150).contains(&length));
            let (written, behind) = out.split_at(length as usize);
            assert_eq!(written, message(&ad, second_of(&ad, epoch)));
            assert!(behind.iter().all(|byte| *byte == 0xc3));
            let mut again = unwritten(143);
            assert_eq!(both.read_message(written, epoch, &mut again), 0);
            assert_eq!(again, record);
        }
    }
}

/// Every value of every byte of messages of each length: what is still accepted is, byte for byte, what its ad is written as.
pub fn every_byte_changed<C: Calls>(calls: &C) {
    let both = Compare(calls);
    let mut random = Random::new(62);
    let mut lengths = Vec::new();
    for (epoch, second) in [
        (0, 0),
        (0, 300),
        (0, 20_000),
        (0, 1 << 27),
        (EPOCH, EPOCH),
        (EPOCH_END - 1, EPOCH_END + 9),
    ] {
        let right = message(&an_ad(&mut random), second);
        lengths.push(right.len());
        for at in 0..right.len() {
            for value in 0..=255 {
                let mut changed = right.clone();
                changed[at] = value;
                let mut record = unwritten(143);
                if both.read_message(&changed, epoch, &mut record) == 0 {
                    let mut out = unwritten(changed.len());
                    let length = both.write_message(&record, epoch, &mut out);
                    assert_eq!((length as usize, out), (changed.len(), changed));
                }
            }
        }
    }
    assert_eq!(lengths, [146, 147, 148, 149, 150, 150]);
}

/// Every cut, and every byte behind a message or before it.
pub fn every_cut_and_more<C: Calls>(calls: &C) {
    let both = Compare(calls);
    let mut random = Random::new(63);
    for second in [0, 127, 128, LAST_SECOND] {
        let right = message(&an_ad(&mut random), second);
        for length in 0..right.len() {
            let answer = both.read_message(&right[..length], 0, &mut unwritten(143));
            assert_eq!(answer, -15);
        }
        for byte in 0..=255 {
            for more in [
                [&right[..], &[byte]].concat(),
                [&[byte], &right[..]].concat(),
            ] {
                assert_eq!(both.read_message(&more, 0, &mut unwritten(143)), -15);
            }
        }
        for length in [1, 2, 10, 146, 1000] {
            let more = [right.clone(), vec![0; length]].concat();
            assert_eq!(both.read_message(&more, 0, &mut unwritten(143)), -15);
            let random_bytes = random.bytes(length);
            assert_eq!(
                both.read_message(&random_bytes, 0, &mut unwritten(143)),
                -15
            );
        }
    }
}

/// A varint with bytes more than it needs.
fn padded(number: u64, more: usize) -> Vec<u8> {
    let mut bytes = varint(number);
    *bytes.last_mut().unwrap() |= 0x80;
    bytes.extend(vec![0x80; more - 1]);
    bytes.push(0);
    bytes
}

/// Doubled, missing, exchanged and unknown fields, other wire types, padded varints, wrong lengths, other addresses.
pub fn other_forms<C: Calls>(calls: &C) {
    let both = Compare(calls);
    let mut random = Random::new(64);
    let refused = |parts: &[Vec<u8>]| {
        let answer = both.read_message(&parts.concat(), 0, &mut unwritten(143));
        assert_eq!(answer, -15, "{:02x?}", parts.concat());
    };
    for second in [0, 1, 5_000, LAST_SECOND] {
        let ad = an_ad(&mut random);
        let place = [&[4], &ad.address[..], &[6], &ad.port.to_be_bytes()].concat();
        let contents = [&ad.service, &ad.peer, &place, &ad.signature];
        let mut fields: Vec<Vec<u8>> = (1..)
            .zip(contents)
            .map(|(number, content)| len_field(number, content))
            .collect();
        fields.push(varint_field(6, second));
        assert_eq!(fields.concat(), message(&ad, second));
        assert_eq!(
            both.read_message(&fields.concat(), 0, &mut unwritten(143)),
            0
        );

        for one in 0..5 {
            // left out, doubled, at every other place
            let mut parts = fields.clone();
            parts.remove(one);
            refused(&parts);
            for at in 0..5 {
                let mut doubled = fields.clone();
                doubled.insert(at, fields[one].clone());
                refused(&doubled);
                if at != one {
                    let mut moved = parts.clone();
                    moved.insert(at, fields[one].clone());
                    refused(&moved);
                }
            }
            // fields that are not the message's, among them the metadata, of every wire type
            for number in [0, 1, 2, 3, 4, 5, 6, 7, 15, 16, 100, (1 << 29) - 1] {
                for more in [
                    len_field(number, b""),
                    len_field(number, b"metadata"),
                    varint_field(number, 1),
                    [tag(number, 1), vec![0; 8]].concat(),
                    [tag(number, 3), tag(number, 4)].concat(),
                    [tag(number, 5), vec![0; 4]].concat(),
                ] {
                    for at in [one, one + 1] {
                        let mut parts = fields.clone();
                        parts.insert(at, more.clone());
                        refused(&parts);
                    }
                }
            }
            // every other tag of one byte, and the same tag padded
            for wrong in (0..=255).filter(|wrong| *wrong != fields[one][0]) {
                let mut parts = fields.clone();
                parts[one][0] = wrong;
                refused(&parts);
            }
            for more in 1..10 {
                let mut parts = fields.clone();
                parts[one] = [
                    padded(fields[one][0].into(), more),
                    fields[one][1..].to_vec(),
                ]
                .concat();
                refused(&parts);
            }
        }
        // lengths padded, and contents of other lengths
        for (one, content) in contents.iter().enumerate() {
            let number = one as u64 + 1;
            for more in 1..10 {
                let mut parts = fields.clone();
                parts[one] = [
                    &tag(number, 2)[..],
                    &padded(content.len() as u64, more),
                    content,
                ]
                .concat();
                refused(&parts);
            }
            for length in [
                0,
                1,
                content.len() - 1,
                content.len() + 1,
                2 * content.len(),
                127,
                128,
                300,
            ] {
                let mut parts = fields.clone();
                let bytes = content
                    .iter()
                    .copied()
                    .cycle()
                    .take(length)
                    .collect::<Vec<_>>();
                parts[one] = len_field(number, &bytes);
                refused(&parts);
            }
            // a length that claims more than there is, up to 2^64 − 1
            for claimed in [content.len() as u64 + 1, 127, 1 << 32, 1 << 63, u64::MAX] {
                let mut parts = fields.clone();
                parts[one] = [&tag(number, 2)[..], &varint(claimed), content].concat();
                refused(&parts);
            }
        }
        // the timestamp padded
        for more in 1..10 {
            let mut parts = fields.clone();
            parts[4] = [tag(6, 0), padded(second, more)].concat();
            refused(&parts);
        }
        // no address, two, port 0, other codes
        let with_place = |place: &[u8]| {
            let mut parts = fields.clone();
            parts[2] = len_field(3, place);
            parts
        };
        refused(&with_place(&[]));
        refused(&with_place(&[&place[..], &place].concat()));
        refused(&with_place(&[&place[..6], &[0, 0]].concat()));
        for code in 0..=255 {
            if code != 4 {
                refused(&with_place(&[&[code], &place[1..]].concat()));
            }
            if code != 6 {
                refused(&with_place(&[&place[..5], &[code], &place[6..]].concat()));
            }
        }
    }
}

/// Both sides of the first and the last second, and timestamps up to 2^64 − 1 and past it.
pub fn seconds<C: Calls>(calls: &C) {
    let both = Compare(calls);
    let mut random = Random::new(65);
    let ad = an_ad(&mut random);
    for epoch in some_epochs() {
        let read = |second| both.read_message(&message(&ad, second), epoch, &mut unwritten(143));
        assert_eq!(read(epoch), 0);
        assert_eq!(read(epoch + LAST_SECOND), 0);
        assert_eq!(read(epoch + LAST_SECOND + 1), -15);
        if epoch > 0 {
            assert_eq!(read(epoch - 1), -15);
            assert_eq!(read(0), -15);
        }
        for high in (33..64).map(|bits| 1 << bits).chain([u64::MAX]) {
            for second in [high - 1, high, high + (high < u64::MAX) as u64 * epoch] {
                let within = (epoch..=epoch + LAST_SECOND).contains(&second);
                assert_eq!(read(second), if within { 0 } else { -15 });
            }
        }
        // numbers of 65 to 70 bits, and varints of eleven bytes and more, that come to the epoch modulo 2^64
        let front = message(&ad, 0);
        let front = &front[..front.len() - 1];
        for high in 2..128 {
            let mut bytes = varint((1 << 63) | epoch);
            bytes[9] = high;
            let answer = both.read_message(&[front, &bytes].concat(), epoch, &mut unwritten(143));
            assert_eq!(answer, -15);
        }
        for more in [1, 5, 20] {
            let mut bytes = varint((1 << 63) | epoch);
            bytes[9] |= 0x80;
            bytes.extend(vec![0x80; more]);
            bytes.push(1);
            let answer = both.read_message(&[front, &bytes].concat(), epoch, &mut unwritten(143));
            assert_eq!(answer, -15);
        }
    }
}

/// Epochs on both sides of 2^33, and the order of refusals: 2, 16, 15 of reading, 16, 2 of writing.
pub fn epochs<C: Calls>(calls: &C) {
    let both = Compare(calls);
    let mut random = Random::new(66);
    let ad = an_ad(&mut random);
    let mut odd = ad.clone();
    odd.stamp += 1;
    let mut portless = ad.clone();
    portless.port = 0;
    let beyond = [EPOCH_END, EPOCH_END + 1, 1 << 40, 1 << 63, u64::MAX];
    for epoch in some_epochs().into_iter().chain(beyond) {
        let right = message(&ad, second_of(&ad, epoch & 0xff_ffff_ffff));
        for message in [&right[..], &right[..140], &[]] {
            for length in [143, 142, 144, 0, 286] {
                let answer = both.read_message(message, epoch, &mut unwritten(length));
                let expected = match (length, epoch < EPOCH_END, message.len() > 140) {
                    (143, true, true) => 0,
                    (143, true, false) => -15,
                    (143, false, _) => -16,
                    _ => -2,
                };
                assert_eq!(answer, expected);
            }
        }
        for record in [ad.record(), odd.record(), portless.record(), vec![1; 142]] {
            for length in [0, 145, 150] {
                let answer = both.write_message(&record, epoch, &mut unwritten(length));
                let fine = record == ad.record() && epoch < EPOCH_END;
                assert_eq!(answer == -16, !fine);
                assert_eq!(answer == -2, fine && length < 146);
            }
        }
    }
}

/// Buffers of every length; ads of every fault; stamps on both sides of every edge.
pub fn written<C: Calls>(calls: &C) {
    let both = Compare(calls);
    let mut random = Random::new(67);
    for second in [0, 127, 128, 16_383, 16_384, LAST_SECOND] {
        let mut ad = an_ad(&mut random);
        ad.stamp = second * 1000;
        for length in 0..=300 {
            both.write_message(&ad.record(), EPOCH, &mut unwritten(length));
            both.write_message(&ad.record(), 0, &mut unwritten(length));
        }
        for stamp in [
            1,
            999,
            1000,
            1001,
            CLOCK_MAX - 775,
            CLOCK_MAX,
            CLOCK_MAX + 1,
            CLOCK_MAX + 225,
            1 << 63,
            u64::MAX,
            u64::MAX - 615,
        ] {
            ad.stamp = stamp;
            let answer = both.write_message(&ad.record(), EPOCH, &mut unwritten(150));
            let fine = stamp <= CLOCK_MAX && stamp % 1000 == 0;
            assert_eq!(answer, if fine { 150 } else { -16 }, "{stamp}");
        }
        ad.stamp = 0;
        for length in (0..=290).filter(|length| *length != 143) {
            let mut record = ad.record();
            record.resize(length, 0);
            assert_eq!(both.write_message(&record, EPOCH, &mut unwritten(150)), -16);
        }
        // Messages stay with IPv4: an ad of IPv6 has none.
        let mut longer = ad.clone();
        longer.address = address(Family::V6, 1);
        let record = longer.record();
        assert_eq!(both.write_message(&record, EPOCH, &mut unwritten(300)), -16);
        for kind in 0..=255 {
            let mut record = ad.record();
            record[0] = kind;
            let answer = both.write_message(&record, EPOCH, &mut unwritten(150));
            assert_eq!(answer, if kind == 1 { 150 } else { -16 });
        }
    }
}
