//! Messages at their edges (document 02, order 6): a varint of each length, buffers that just fit and just do not, each form that is not accepted, each cause
//! of 16, and the refusals with the next.
use super::{buffer, hex, Buffer, Call, Given, Line, Shown};
use crate::oracle::family::Family;
use crate::oracle::message;
use crate::oracle::record::Ad;

/// The last whole second of the clock in milliseconds, the last epoch, and a place behind every message.
const LAST: u64 = 1_099_511_627_000;
const LAST_EPOCH: u64 = 8_589_934_591;
const BEHIND: usize = 151;

fn fields(family: Family, port: u16, stamp: u64) -> Ad {
    let mut address = vec![0; family.address_len()];
    address[..4].copy_from_slice(&[10, 0, 8, 1]);
    Ad {
        service: vec![0x11; 32],
        peer: vec![0x22; 32],
        address,
        port,
        stamp,
        signature: vec![0x44; 64],
    }
}

/// An advertisement; with port 0 there is none, and the record is zeros.
fn ad(port: u16, stamp: u64) -> Vec<u8> {
    if port == 0 {
        return vec![0; 143];
    }
    fields(Family::V4, port, stamp).record()
}

/// A record written as a message into a buffer of this size.
fn write(label: String, record: Vec<u8>, epoch: u64, size: usize) -> Line {
    let written = message::write(&record, epoch, size);
    let answer = written.as_ref().map_or_else(|n| -n, |it| it.len() as i64);
    Line {
        label,
        said: format!(" {answer} {}", hex(&buffer(152, &written))),
        given: Given {
            call: Call::WriteMessage,
            output: Buffer(152, size, Shown::Bytes),
            numbers: vec![epoch],
            parts: vec![record],
            ..Given::default()
        },
    }
}

fn written((port, stamp, epoch, size): (u16, u64, u64, usize)) -> Line {
    let label = format!("write {port} {stamp} {epoch} {size}:");
    write(label, ad(port, stamp), epoch, size)
}

/// The message of an advertisement with port 256 and this stamp under epoch 0, with the byte at a place changed and cut or prolonged by zeros to a length,
/// read into a buffer of this size.
fn read((stamp, at, value, length, epoch, size): (u64, usize, u8, usize, u64, usize)) -> Line {
    let mut given = message::write(&ad(256, stamp), 0, 152).unwrap();
    given.resize(152, 0);
    given[at] = value;
    given.truncate(length);
    let answer = message::read(&given, epoch, size);
    Line {
        label: format!("read {stamp} {at} {value} {length} {epoch} {size}:"),
        said: format!(" {} {}", super::number(&answer), hex(&buffer(144, &answer))),
        given: Given {
            call: Call::ReadMessage,
            output: Buffer(144, size, Shown::Bytes),
            numbers: vec![epoch],
            parts: vec![given],
            ..Given::default()
        },
    }
}

/// Records that 4, 13 and 14 refuse, each with room for a message and without: cut, prolonged, IPv6's, of a kind that is no ad's, with port 0.
fn no_ads() -> Vec<Line> {
    let good = ad(443, 0);
    let mut kind = good.clone();
    kind[0] = 10;
    let records = [
        ("142 bytes", good[..142].to_vec()),
        ("144 bytes", [&good[..], &[0]].concat()),
        ("an IPv6 ad", fields(Family::V6, 443, 0).record()),
        ("kind 10", kind),
        ("port 0", fields(Family::V4, 0, 0).record()),
    ];
    let line = |(name, record): &(&str, Vec<u8>), size| {
        write(format!("write {name} {size}:"), record.clone(), 0, size)
    };
    let sizes = [152, 145];
    let lines = records
        .iter()
        .flat_map(|it| sizes.map(|size| line(it, size)));
    lines.collect()
}

pub fn lines() -> Vec<Line> {
    let out = [
        (443, 0, 0, 152),
        (443, 127_000, 0, 152),
        (443, 128_000, 0, 152),
        (443, 16_383_000, 0, 152),
        (443, 16_384_000, 0, 152),
        (443, 2_097_151_000, 0, 152),
        (443, 2_097_152_000, 0, 152),
        (443, 268_435_455_000, 0, 152),
        (443, 268_435_456_000, 0, 152),
        (443, LAST, LAST_EPOCH, 152),
        (65_535, 0, 0, 146),
        (65_535, 0, 0, 145),
        (65_535, LAST, LAST_EPOCH, 150),
        (65_535, LAST, LAST_EPOCH, 149),
        (0, 0, 0, 152),
        (443, 0, LAST_EPOCH + 1, 152),
        (443, LAST + 1_000, 0, 152),
        (443, 999, 0, 152),
        (443, 999, 0, 145),
    ];
    let back = [
        (0, BEHIND, 0, 146, 0, 143),
        (0, BEHIND, 0, 145, 0, 143),
        (0, BEHIND, 0, 144, 0, 143),
        (0, BEHIND, 0, 147, 0, 143),
        (0, 145, 0x80, 147, 0, 143),
        (0, 144, 0x2a, 146, 0, 143),
        (0, 144, 0x32, 146, 0, 143),
        (0, 76, 0, 146, 0, 143),
        (0, 70, 5, 146, 0, 143),
        (5_000, BEHIND, 0, 146, 5, 143),
        (5_000, BEHIND, 0, 146, 6, 143),
        (LAST, BEHIND, 0, 150, 0, 143),
        (LAST, 145, 0xcc, 150, 0, 143),
        (LAST, 145, 0xcc, 150, 1, 143),
        (0, BEHIND, 0, 146, 0, 142),
        (0, BEHIND, 0, 146, 0, 144),
        (0, BEHIND, 0, 146, LAST_EPOCH + 1, 143),
        (0, BEHIND, 0, 146, LAST_EPOCH + 1, 142),
        (0, BEHIND, 0, 145, LAST_EPOCH + 1, 143),
        (0, BEHIND, 0, 145, 0, 142),
    ];
    let mut lines: Vec<Line> = out.map(written).into_iter().collect();
    lines.extend(no_ads());
    lines.extend(back.map(read));
    lines
}
