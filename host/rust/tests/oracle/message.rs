//! Order 6: the Advertisement message of source 000 in Protocol Buffers wire form ("Encoding" of its documentation), read as any
//! message is read, field by field, with what the order asks beside it. "Order 6 and the programs stay with IPv4" (order 10).
use super::family::Family;
use super::record::{number, Ad};
use super::CLOCK_MAX;

/// "The desk's epoch in Unix seconds, below 2^33."
pub const EPOCH_END: u64 = 1 << 33;

/// "Varints": seven bits to a byte, the lowest first, with the highest bit set in all but the last.
pub fn varint(mut number: u64) -> Vec<u8> {
    let mut bytes = Vec::new();
    while number > 0x7f {
        bytes.push(number as u8 | 0x80);
        number >>= 7;
    }
    bytes.push(number as u8);
    bytes
}

/// "Message structure": a tag is the field's number and its wire type.
pub fn tag(field: u64, wire_type: u64) -> Vec<u8> {
    varint(field << 3 | wire_type)
}

/// A length-delimited field.
pub fn len_field(field: u64, payload: &[u8]) -> Vec<u8> {
    [&tag(field, 2)[..], &varint(payload.len() as u64), payload].concat()
}

pub fn varint_field(field: u64, number: u64) -> Vec<u8> {
    [tag(field, 0), varint(number)].concat()
}

/// What a field holds.
enum Payload {
    Varint(u64),
    Len(Vec<u8>),
}

/// Takes a varint off the front: none where it is cut, does not fit 64 bits, or is longer than it need be.
fn take_varint(bytes: &mut &[u8]) -> Option<u64> {
    let last = bytes.iter().take(10).position(|byte| byte & 0x80 == 0)?;
    let (these, rest) = bytes.split_at(last + 1);
    *bytes = rest;
    let number = these
        .iter()
        .rev()
        .fold(0u128, |number, byte| number << 7 | u128::from(byte & 0x7f));
    u64::try_from(number)
        .ok()
        .filter(|number| varint(*number) == these)
}

/// Takes a field off the front, of the two wire types that the message has.
fn take_field(bytes: &mut &[u8]) -> Option<(u64, Payload)> {
    let tag = take_varint(bytes)?;
    let payload = match tag & 7 {
        0 => Payload::Varint(take_varint(bytes)?),
        2 => {
            let length = usize::try_from(take_varint(bytes)?).ok()?;
            let (these, rest) = bytes.split_at_checked(length)?;
            *bytes = rest;
            Payload::Len(these.to_vec())
        }
        _ => return None,
    };
    Some((tag >> 3, payload))
}

/// The address and the port of a multiaddr: "ip4 (code 4, four bytes) then tcp (code 6, two bytes)".
fn take_multiaddr(bytes: &[u8]) -> Option<(Vec<u8>, u16)> {
    match bytes {
        [4, address @ .., 6, _, _] if address.len() == 4 => {
            Some((address.to_vec(), number(&bytes[6..]) as u16))
        }
        _ => None,
    }
}

/// The advertisement in a message: fields in rising order, each once, and no other.
fn advertisement(mut message: &[u8], epoch: u64) -> Option<Ad> {
    let mut fields = Vec::new();
    while !message.is_empty() {
        fields.push(take_field(&mut message)?);
    }
    let [(1, Payload::Len(service)), (2, Payload::Len(peer)), (3, Payload::Len(place)), (4, Payload::Len(signature)), (6, Payload::Varint(second))] =
        &fields[..]
    else {
        return None;
    };
    let (address, port) = take_multiaddr(place)?;
    let stamp = second.checked_sub(epoch)?.checked_mul(1000)?;
    let ad = Ad {
        service: service.clone(),
        peer: peer.clone(),
        address,
        port,
        stamp,
        signature: signature.clone(),
    };
    let sized = [service.len(), peer.len(), signature.len()] == [32, 32, 64];
    (sized && port != 0 && stamp <= CLOCK_MAX).then_some(ad)
}

/// "Reading gives 2 (ad buffer not 143), 16 (epoch out of range), 15."
pub fn read(message: &[u8], epoch: u64, buffer_len: usize) -> Result<Vec<u8>, i64> {
    if buffer_len != 143 {
        return Err(2);
    }
    if epoch >= EPOCH_END {
        return Err(16);
    }
    let ad = advertisement(message, epoch).ok_or(15)?;
    Ok(ad.record())
}

/// The message of an advertisement's fields, with the timestamp in Unix seconds.
pub fn message(ad: &Ad, second: u64) -> Vec<u8> {
    let port = ad.port.to_be_bytes();
    let place = [&[4], &ad.address[..], &[6], &port].concat();
    [
        len_field(1, &ad.service),
        len_field(2, &ad.peer),
        len_field(3, &place),
        len_field(4, &ad.signature),
        varint_field(6, second),
    ]
    .concat()
}

/// "Writing gives 16 (an ad that 4, 13 or 14 would refuse, epoch or stamp out of range, stamp no whole second), 2 (buffer too short)."
pub fn write(record: &[u8], epoch: u64, buffer_len: usize) -> Result<Vec<u8>, i64> {
    let ad = Ad::read(Family::V4, record).map_err(|_| 16)?;
    if epoch >= EPOCH_END || ad.stamp > CLOCK_MAX || ad.stamp % 1000 != 0 {
        return Err(16);
    }
    let message = message(&ad, epoch + ad.stamp / 1000);
    if buffer_len < message.len() {
        return Err(2);
    }
    Ok(message)
}
