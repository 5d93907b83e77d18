//! The Advertisement message in Protocol Buffers wire form. Every byte of an accepted one but the timestamp's has a fixed place.
use crate::{be64, read_ad, Refusal, CLOCK_MAX};

const EPOCH_END: u64 = 1 << 33;
/// The places of the tags, the lengths and the multiaddr's codes, and what stands there.
const FIXED: [(usize, &[u8]); 6] = [
    (0, &[0x0a, 0x20]),
    (34, &[0x12, 0x20]),
    (68, &[0x1a, 0x08, 0x04]),
    (75, &[0x06]),
    (78, &[0x22, 0x40]),
    (144, &[0x30]),
];
const TIMESTAMP: usize = 145;

/// The number in a shortest varint that is all of the bytes, of which there are at most five.
fn varint(bytes: &[u8]) -> Option<u64> {
    let (last, others) = bytes.split_last()?;
    let ends = *last < 0x80 && (*last > 0 || others.is_empty());
    if others.len() > 4 || !ends || others.iter().any(|byte| *byte < 0x80) {
        return None;
    }
    Some(others.iter().rev().fold(u64::from(*last), |number, byte| {
        number << 7 | u64::from(byte & 0x7f)
    }))
}

fn stamp(message: &[u8], epoch: u64) -> Option<u64> {
    let second = varint(message.get(TIMESTAMP..)?)?;
    let fixed = FIXED
        .iter()
        .all(|(at, bytes)| message[*at..].starts_with(bytes));
    let stamp = second.checked_sub(epoch)? * 1000;
    (fixed && message[76..78] != [0, 0] && stamp <= CLOCK_MAX).then_some(stamp)
}

pub fn read_message(message: &[u8], epoch: u64, ad: &mut [u8]) -> Result<(), Refusal> {
    if ad.len() != 143 {
        return Err(Refusal(2));
    }
    if epoch >= EPOCH_END {
        return Err(Refusal(16));
    }
    let stamp = stamp(message, epoch).ok_or(Refusal(15))?;
    ad[0] = 1;
    ad[1..33].copy_from_slice(&message[2..34]);
    ad[33..65].copy_from_slice(&message[36..68]);
    ad[65..69].copy_from_slice(&message[71..75]);
    ad[69..71].copy_from_slice(&message[76..78]);
    ad[71..79].copy_from_slice(&stamp.to_be_bytes());
    ad[79..].copy_from_slice(&message[80..144]);
    Ok(())
}

pub fn write_message(ad: &[u8], epoch: u64, out: &mut [u8]) -> Result<usize, Refusal> {
    read_ad(ad).map_err(|_| Refusal(16))?;
    let stamp = be64(ad, 71);
    if epoch >= EPOCH_END || stamp > CLOCK_MAX || stamp % 1000 != 0 {
        return Err(Refusal(16));
    }
    let second = epoch + stamp / 1000;
    let bits = (64 - second.leading_zeros()).max(1) as usize;
    let length = TIMESTAMP + bits.div_ceil(7);
    let out = out.get_mut(..length).ok_or(Refusal(2))?;
    for (at, bytes) in FIXED {
        out[at..at + bytes.len()].copy_from_slice(bytes);
    }
    out[2..34].copy_from_slice(&ad[1..33]);
    out[36..68].copy_from_slice(&ad[33..65]);
    out[71..75].copy_from_slice(&ad[65..69]);
    out[76..78].copy_from_slice(&ad[69..71]);
    out[80..144].copy_from_slice(&ad[79..]);
    for (place, byte) in out[TIMESTAMP..].iter_mut().enumerate() {
        *byte = (second >> (7 * place)) as u8 | 0x80;
    }
    out[length - 1] &= 0x7f;
    Ok(length)
}
