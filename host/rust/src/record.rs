//! Advertisements and tickets by themselves.
use std::net::{IpAddr, Ipv4Addr, Ipv6Addr};
use std::ops::Deref;

use crate::{answer, ffi, Family, Id, Key, Refusal, AD_V6_LEN, SIGNATURE_LEN, TICKET_LEN};

/// The fields of an advertisement of either family.
#[derive(Clone, Copy, Debug, PartialEq, Eq)]
pub struct Ad {
    pub service: Id,
    pub peer: Id,
    /// Its family is the advertisement's. An IPv4 address in the form of an IPv6 one (`::ffff:10.0.0.1`) is an IPv6 address here.
    pub address: IpAddr,
    /// Not 0.
    pub port: u16,
    /// When the advertiser made it. The full calls carry it and do not judge it; those of [`small`](crate::small) take it for milliseconds from the
    /// registrar's epoch and judge it.
    pub stamp: u64,
    /// For the host to check.
    pub signature: [u8; SIGNATURE_LEN],
}

impl Ad {
    /// The fields of the advertisement of this family in `bytes`. The family is the caller's to tell, as a rule that of the cache that it
    /// is for or from; it is not guessed, and an advertisement of the other has a wrong length.
    ///
    /// Refusals: [`Refusal::AdLength`], [`Refusal::AdKind`], [`Refusal::AdPort`].
    ///
    /// ```
    /// use std::net::Ipv6Addr;
    /// use unglassot::{Ad, Family, Refusal};
    ///
    /// let ad = Ad {
    ///     service: [1; 32],
    ///     peer: [2; 32],
    ///     address: Ipv6Addr::new(0x2001, 0xdb8, 0, 0, 0, 0, 0, 1).into(),
    ///     port: 30303,
    ///     stamp: 0,
    ///     signature: [3; 64],
    /// };
    /// let record = ad.write()?;
    /// assert_eq!(Ad::read(Family::V6, &record)?, ad);
    /// assert_eq!(Ad::read(Family::V4, &record), Err(Refusal::AdLength));
    /// # Ok::<(), Refusal>(())
    /// ```
    pub fn read(family: Family, bytes: &[u8]) -> Result<Ad, Refusal> {
        let mut ad = Ad {
            service: [0; 32],
            peer: [0; 32],
            address: IpAddr::V4(Ipv4Addr::UNSPECIFIED),
            port: 0,
            stamp: 0,
            signature: [0; SIGNATURE_LEN],
        };
        let (mut short, mut long) = ([0; 4], [0; 16]);
        // SAFETY: `bytes` is a slice, and each pointer is to a variable of its own.
        answer(unsafe {
            match family {
                Family::V4 => ffi::unglassot_read_ad(
                    bytes.as_ptr(),
                    bytes.len(),
                    &mut ad.service,
                    &mut ad.peer,
                    &mut short,
                    &mut ad.port,
                    &mut ad.stamp,
                    &mut ad.signature,
                ),
                Family::V6 => ffi::unglassot_read_ad_v6(
                    bytes.as_ptr(),
                    bytes.len(),
                    &mut ad.service,
                    &mut ad.peer,
                    &mut long,
                    &mut ad.port,
                    &mut ad.stamp,
                    &mut ad.signature,
                ),
            }
        })?;
        ad.address = match family {
            Family::V4 => Ipv4Addr::from(short).into(),
            Family::V6 => Ipv6Addr::from(long).into(),
        };
        Ok(ad)
    }

    /// The advertisement as a record, of its address's family. Refusals: [`Refusal::AdPort`].
    pub fn write(&self) -> Result<AdRecord, Refusal> {
        match self.address {
            IpAddr::V4(address) => self.written(ffi::unglassot_write_ad, &address.octets()),
            IpAddr::V6(address) => self.written(ffi::unglassot_write_ad_v6, &address.octets()),
        }
    }

    /// The record that the call of the address's family writes.
    fn written(&self, write: WriteAd, address: &[u8]) -> Result<AdRecord, Refusal> {
        let family = Family::from(self.address);
        let mut record = AdRecord {
            buffer: [0; AD_V6_LEN],
            family,
        };
        let out = &mut record.buffer[..family.ad_len()];
        // SAFETY: pointers and lengths are those of slices, and `out` is lent alone.
        answer(unsafe {
            write(
                out.as_mut_ptr(),
                out.len(),
                self.service.as_ptr(),
                self.service.len(),
                self.peer.as_ptr(),
                self.peer.len(),
                address.as_ptr(),
                address.len(),
                self.port,
                self.stamp,
                self.signature.as_ptr(),
                self.signature.len(),
            )
        })?;
        Ok(record)
    }
}

/// The call that writes an advertisement of a family.
type WriteAd = unsafe extern "C" fn(
    *mut u8,
    usize,
    *const u8,
    usize,
    *const u8,
    usize,
    *const u8,
    usize,
    u16,
    u64,
    *const u8,
    usize,
) -> i64;

/// An advertisement that was written: the bytes of its record, [`AD_LEN`](crate::AD_LEN) or [`AD_V6_LEN`] of them.
#[derive(Clone, Copy, Debug, PartialEq, Eq)]
pub struct AdRecord {
    buffer: [u8; AD_V6_LEN],
    family: Family,
}

impl AdRecord {
    /// The record's bytes.
    pub fn bytes(&self) -> &[u8] {
        &self.buffer[..self.family.ad_len()]
    }

    /// The family of the advertisement's address.
    pub fn family(&self) -> Family {
        self.family
    }
}

impl Deref for AdRecord {
    type Target = [u8];

    fn deref(&self) -> &[u8] {
        self.bytes()
    }
}

/// The fields of a ticket, without its tag.
///
/// A ticket belongs to the very advertisement that its hash names ([`register`](crate::register)).
#[derive(Clone, Copy, Debug, PartialEq, Eq)]
pub struct Ticket {
    /// The [`sha256`](crate::sha256) of the advertisement's bytes, all of them, as [`Ad::write`] gives them.
    pub ad_hash: [u8; 32],
    /// The clock of the first request.
    pub first: u64,
    /// The clock at which this ticket was written.
    pub issued: u64,
    /// Milliseconds from `issued` until the ticket is taken, 1 to 900,000.
    pub wait: u64,
}

impl Ticket {
    /// The fields of the ticket in `bytes`, which was written under `key`.
    ///
    /// Refusals: [`Refusal::Ticket`], [`Refusal::Tag`], [`Refusal::Times`].
    pub fn read(key: &Key, bytes: &[u8]) -> Result<Ticket, Refusal> {
        let mut ticket = Ticket {
            ad_hash: [0; 32],
            first: 0,
            issued: 0,
            wait: 0,
        };
        // SAFETY: `key` and `bytes` are slices, and each pointer is to a variable of its own.
        answer(unsafe {
            ffi::unglassot_read_ticket(
                key.as_ptr(),
                key.len(),
                bytes.as_ptr(),
                bytes.len(),
                &mut ticket.ad_hash,
                &mut ticket.first,
                &mut ticket.issued,
                &mut ticket.wait,
            )
        })?;
        Ok(ticket)
    }

    /// The ticket as a record, with its tag under `key`. Refusals: [`Refusal::Times`].
    pub fn write(&self, key: &Key) -> Result<[u8; TICKET_LEN], Refusal> {
        let mut out = [0; TICKET_LEN];
        // SAFETY: pointers and lengths are those of slices, and `out` is a variable of its own.
        answer(unsafe {
            ffi::unglassot_write_ticket(
                key.as_ptr(),
                key.len(),
                out.as_mut_ptr(),
                out.len(),
                self.ad_hash.as_ptr(),
                self.ad_hash.len(),
                self.first,
                self.issued,
                self.wait,
            )
        })?;
        Ok(out)
    }
}
