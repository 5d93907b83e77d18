//! The linked library against the oracle, through the C interface.
#[macro_use]
mod differential;
mod oracle;

use differential::calls::{AdFields, Calls, TicketFields};
use oracle::family::Family;
use unglassot::ffi;

/// The calls as C makes them.
struct Library;

/// Bytes on each side of a field.
const FENCE: usize = 16;

/// A field that is lent by a pointer without a length, between bytes that must stay.
#[repr(C)]
struct Fenced<T> {
    before: [u8; FENCE],
    field: T,
    after: [u8; FENCE],
}

impl<T: Copy> Fenced<T> {
    fn new(field: &T) -> Fenced<T> {
        Fenced {
            before: [0xa5; FENCE],
            field: *field,
            after: [0x5a; FENCE],
        }
    }

    /// The field, if nothing beside it was written.
    fn into_field(self) -> T {
        assert_eq!((self.before, self.after), ([0xa5; FENCE], [0x5a; FENCE]));
        self.field
    }
}

/// The pointer of a slice as a C programmer has it: null for an empty one.
fn pointer(slice: &[u8]) -> *const u8 {
    if slice.is_empty() {
        std::ptr::null()
    } else {
        slice.as_ptr()
    }
}

fn pointer_mut(slice: &mut [u8]) -> *mut u8 {
    if slice.is_empty() {
        std::ptr::null_mut()
    } else {
        slice.as_mut_ptr()
    }
}

/// The call that reads an advertisement whose address has this many bytes.
type ReadAd<const N: usize> = unsafe extern "C" fn(
    *const u8,
    usize,
    *mut [u8; 32],
    *mut [u8; 32],
    *mut [u8; N],
    *mut u16,
    *mut u64,
    *mut [u8; 64],
) -> i64;

fn read<const N: usize>(read_ad: ReadAd<N>, ad: &[u8], fields: &mut AdFields) -> i64 {
    let own: [u8; N] = fields.address[..].try_into().unwrap();
    let (mut service, mut peer) = (Fenced::new(&fields.service), Fenced::new(&fields.peer));
    let (mut address, mut port) = (Fenced::new(&own), Fenced::new(&fields.port));
    let mut stamp = Fenced::new(&fields.stamp);
    let mut signature = Fenced::new(&fields.signature);
    // SAFETY: pointer and length are those of a slice, null only where the length is 0, and each field is lent alone.
    let answer = unsafe {
        read_ad(
            pointer(ad),
            ad.len(),
            &mut service.field,
            &mut peer.field,
            &mut address.field,
            &mut port.field,
            &mut stamp.field,
            &mut signature.field,
        )
    };
    *fields = AdFields {
        service: service.into_field(),
        peer: peer.into_field(),
        address: address.into_field().to_vec(),
        port: port.into_field(),
        stamp: stamp.into_field(),
        signature: signature.into_field(),
    };
    answer
}

// SAFETY, for every call below: pointers and lengths are those of slices, null only where the length is 0, and a buffer that
// is written is lent alone.
impl Calls for Library {
    fn open(&self, cache: &mut [u8], family: u64) -> i64 {
        unsafe { ffi::unglassot_open(pointer_mut(cache), cache.len(), family) }
    }

    fn register(
        &self,
        cache: &mut [u8],
        key: &[u8],
        window: u64,
        clock: u64,
        ad: &[u8],
        vouched: u8,
        ticket: &[u8],
        reply: &mut [u8],
        moves: &mut u64,
    ) -> i64 {
        unsafe {
            ffi::unglassot_register(
                pointer_mut(cache),
                cache.len(),
                pointer(key),
                key.len(),
                window,
                clock,
                pointer(ad),
                ad.len(),
                vouched,
                pointer(ticket),
                ticket.len(),
                pointer_mut(reply),
                reply.len(),
                moves,
            )
        }
    }

    fn withdraw(
        &self,
        cache: &mut [u8],
        service: &[u8],
        peer: &[u8],
        clock: u64,
        vouched: u8,
    ) -> i64 {
        unsafe {
            ffi::unglassot_withdraw(
                pointer_mut(cache),
                cache.len(),
                pointer(service),
                service.len(),
                pointer(peer),
                peer.len(),
                clock,
                vouched,
            )
        }
    }

    fn get_ads(&self, cache: &[u8], clock: u64, service: &[u8], list: &mut [u8]) -> i64 {
        unsafe {
            ffi::unglassot_get_ads(
                pointer(cache),
                cache.len(),
                clock,
                pointer(service),
                service.len(),
                pointer_mut(list),
                list.len(),
            )
        }
    }

    fn newest(
        &self,
        first: &[u8],
        second: &[u8],
        clock: u64,
        service: &[u8],
        offset: &mut u64,
    ) -> i64 {
        unsafe {
            ffi::unglassot_newest(
                pointer(first),
                first.len(),
                pointer(second),
                second.len(),
                clock,
                pointer(service),
                service.len(),
                offset,
            )
        }
    }

    fn service_id(&self, protocol: &[u8], id: &mut [u8]) -> i64 {
        unsafe {
            ffi::unglassot_service_id(pointer(protocol), protocol.len(), pointer_mut(id), id.len())
        }
    }

    fn write_ad(
        &self,
        family: Family,
        out: &mut [u8],
        service: &[u8],
        peer: &[u8],
        address: &[u8],
        port: u16,
        stamp: u64,
        signature: &[u8],
    ) -> i64 {
        let write_ad = match family {
            Family::V4 => ffi::unglassot_write_ad,
            Family::V6 => ffi::unglassot_write_ad_v6,
        };
        unsafe {
            write_ad(
                pointer_mut(out),
                out.len(),
                pointer(service),
                service.len(),
                pointer(peer),
                peer.len(),
                pointer(address),
                address.len(),
                port,
                stamp,
                pointer(signature),
                signature.len(),
            )
        }
    }

    fn read_ad(&self, family: Family, ad: &[u8], fields: &mut AdFields) -> i64 {
        match family {
            Family::V4 => read(ffi::unglassot_read_ad, ad, fields),
            Family::V6 => read(ffi::unglassot_read_ad_v6, ad, fields),
        }
    }

    fn write_ticket(
        &self,
        key: &[u8],
        out: &mut [u8],
        ad_hash: &[u8],
        first: u64,
        issued: u64,
        wait: u64,
    ) -> i64 {
        unsafe {
            ffi::unglassot_write_ticket(
                pointer(key),
                key.len(),
                pointer_mut(out),
                out.len(),
                pointer(ad_hash),
                ad_hash.len(),
                first,
                issued,
                wait,
            )
        }
    }

    fn read_ticket(&self, key: &[u8], ticket: &[u8], fields: &mut TicketFields) -> i64 {
        let mut ad_hash = Fenced::new(&fields.ad_hash);
        let (mut first, mut issued) = (Fenced::new(&fields.first), Fenced::new(&fields.issued));
        let mut wait = Fenced::new(&fields.wait);
        let answer = unsafe {
            ffi::unglassot_read_ticket(
                pointer(key),
                key.len(),
                pointer(ticket),
                ticket.len(),
                &mut ad_hash.field,
                &mut first.field,
                &mut issued.field,
                &mut wait.field,
            )
        };
        *fields = TicketFields {
            ad_hash: ad_hash.into_field(),
            first: first.into_field(),
            issued: issued.into_field(),
            wait: wait.into_field(),
        };
        answer
    }

    fn read_message(&self, message: &[u8], epoch: u64, ad: &mut [u8]) -> i64 {
        unsafe {
            ffi::unglassot_read_message(
                pointer(message),
                message.len(),
                epoch,
                pointer_mut(ad),
                ad.len(),
            )
        }
    }

    fn write_message(&self, ad: &[u8], epoch: u64, out: &mut [u8]) -> i64 {
        unsafe {
            ffi::unglassot_write_message(pointer(ad), ad.len(), epoch, pointer_mut(out), out.len())
        }
    }

    fn sha256(&self, message: &[u8], digest: &mut [u8]) -> i64 {
        unsafe {
            ffi::unglassot_sha256(
                pointer(message),
                message.len(),
                pointer_mut(digest),
                digest.len(),
            )
        }
    }

    fn hmac(&self, key: &[u8], message: &[u8], tag: &mut [u8]) -> i64 {
        unsafe {
            ffi::unglassot_hmac(
                pointer(key),
                key.len(),
                pointer(message),
                message.len(),
                pointer_mut(tag),
                tag.len(),
            )
        }
    }
}

differential_tests!(crate::Library);
