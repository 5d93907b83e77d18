//! The Advertisement message of Logos Capability Discovery in Protocol Buffers wire form, of IPv4 advertisements.
use crate::{answer, ffi, Refusal, AD_LEN, MESSAGE_MAX};

/// A message that was written: 146 to [`MESSAGE_MAX`] bytes.
#[derive(Clone, Copy, Debug, PartialEq, Eq)]
pub struct Message {
    buffer: [u8; MESSAGE_MAX],
    length: usize,
}

impl Message {
    /// The message's bytes.
    pub fn bytes(&self) -> &[u8] {
        &self.buffer[..self.length]
    }
}

/// The record of a message's advertisement, which is of [`Family::V4`](crate::Family::V4): messages are IPv4's.
///
/// `epoch` is the registrar's in Unix seconds, at most [`EPOCH_MAX`](crate::EPOCH_MAX), so that its [`Epoch`](crate::Epoch) is at a
/// whole second. A message's timestamp is in Unix seconds and is given as milliseconds since the epoch. One form of a message is
/// accepted (the header says which), and under one epoch no two messages give one advertisement.
///
/// Refusals: [`Refusal::NoMessage`] of the epoch, [`Refusal::Message`].
///
/// ```
/// use unglassot::{read_message, write_message, Ad, Refusal};
///
/// let epoch = 1_767_225_600; // 2026-01-01 00:00 UTC
/// let ad = Ad {
///     service: [1; 32],
///     peer: [2; 32],
///     address: [10, 0, 0, 1].into(), // IPv4
///     port: 30303,
///     stamp: 5_000, // five seconds later
///     signature: [3; 64],
/// }
/// .write()?;
/// let message = write_message(&ad, epoch)?;
/// assert_eq!(read_message(message.bytes(), epoch)?, ad.bytes());
/// # Ok::<(), Refusal>(())
/// ```
pub fn read_message(message: &[u8], epoch: u64) -> Result<[u8; AD_LEN], Refusal> {
    let mut ad = [0; AD_LEN];
    // SAFETY: pointers and lengths are those of slices, and `ad` is a variable of its own.
    answer(unsafe {
        ffi::unglassot_read_message(
            message.as_ptr(),
            message.len(),
            epoch,
            ad.as_mut_ptr(),
            ad.len(),
        )
    })?;
    Ok(ad)
}

/// An IPv4 advertisement's record as a message. Its stamp is in whole seconds: a multiple of 1,000, at most [`CLOCK_MAX`](crate::CLOCK_MAX).
/// An IPv6 one has no message.
///
/// Refusals: [`Refusal::NoMessage`].
pub fn write_message(ad: &[u8], epoch: u64) -> Result<Message, Refusal> {
    let mut buffer = [0; MESSAGE_MAX];
    // SAFETY: pointers and lengths are those of slices, and `buffer` is a variable of its own.
    let length = answer(unsafe {
        ffi::unglassot_write_message(
            ad.as_ptr(),
            ad.len(),
            epoch,
            buffer.as_mut_ptr(),
            buffer.len(),
        )
    })?;
    Ok(Message {
        buffer,
        length: length as usize,
    })
}
