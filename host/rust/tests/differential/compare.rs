//! Runs a call on an implementation and on the oracle, and holds them to each other.
use super::calls::{AdFields, Calls, Oracle, TicketFields};
use crate::oracle::family::Family;

/// Bytes on each side of a lent buffer; an odd number, so that buffers are not aligned.
const GUARD: usize = 47;

/// What a lent number holds before a call: more than any cache has entries.
const UNTOLD: u64 = 0x5a5a_5a5a_5a5a_5a5a;

/// A buffer between guard bytes.
struct Guarded {
    all: Vec<u8>,
}

impl Guarded {
    fn new(content: &[u8]) -> Guarded {
        let mut all = vec![0xa5; GUARD];
        all.extend_from_slice(content);
        all.resize(content.len() + 2 * GUARD, 0x5a);
        Guarded { all }
    }

    fn lent(&self) -> &[u8] {
        &self.all[GUARD..self.all.len() - GUARD]
    }

    fn lent_mut(&mut self) -> &mut [u8] {
        let end = self.all.len() - GUARD;
        &mut self.all[GUARD..end]
    }

    /// Whether the buffer holds `content` and the guards stand.
    fn holds(&self, content: &[u8]) -> bool {
        let (before, rest) = self.all.split_at(GUARD);
        let (lent, after) = rest.split_at(rest.len() - GUARD);
        lent == content && before == [0xa5; GUARD] && after == [0x5a; GUARD]
    }
}

/// An implementation beside the oracle. Each method is a call on both; it gives the answer that both gave, and leaves what
/// both wrote in the caller's buffers.
pub struct Compare<'a, C: Calls>(pub &'a C);

/// Where a comparison fails, the call and what it was given.
macro_rules! same {
    ($condition:expr, $call:literal, $($about:tt)*) => {
        assert!($condition, "{}: {}", $call, format!($($about)*))
    };
}

impl<C: Calls> Compare<'_, C> {
    pub fn open(&self, cache: &mut [u8], family: u64) -> i64 {
        let mut lent = Guarded::new(cache);
        let expected = Oracle.open(cache, family);
        let answer = self.0.open(lent.lent_mut(), family);
        let about = format!("{} bytes, family {family}", cache.len());
        same!(
            answer == expected,
            "open",
            "{answer}, not {expected}: {about}"
        );
        same!(lent.holds(cache), "open", "another cache: {about}");
        answer
    }

    #[allow(clippy::too_many_arguments)]
    pub fn register(
        &self,
        cache: &mut [u8],
        key: &[u8],
        window: u64,
        clock: u64,
        ad: &[u8],
        vouched: u8,
        ticket: &[u8],
        reply: &mut [u8],
    ) -> i64 {
        self.register_moving(cache, key, window, clock, ad, vouched, ticket, reply)
            .0
    }

    /// The same, with how many entries changed their place; a refusal leaves the number that was lent.
    #[allow(clippy::too_many_arguments)]
    pub fn register_moving(
        &self,
        cache: &mut [u8],
        key: &[u8],
        window: u64,
        clock: u64,
        ad: &[u8],
        vouched: u8,
        ticket: &[u8],
        reply: &mut [u8],
    ) -> (i64, u64) {
        let (mut moves, mut lent_moves) = (UNTOLD, UNTOLD);
        let (mut lent_cache, mut lent_reply) = (Guarded::new(cache), Guarded::new(reply));
        let [lent_key, lent_ad, lent_ticket] = [key, ad, ticket].map(Guarded::new);
        let about = format!(
            "window {window}, clock {clock}, head {:?}, ad {:?} of {}, vouched {vouched}, ticket of {}",
            cache.get(..29),
            ad.get(65..83),
            ad.len(),
            ticket.len()
        );
        let expected = Oracle.register(
            cache, key, window, clock, ad, vouched, ticket, reply, &mut moves,
        );
        let answer = self.0.register(
            lent_cache.lent_mut(),
            lent_key.lent(),
            window,
            clock,
            lent_ad.lent(),
            vouched,
            lent_ticket.lent(),
            lent_reply.lent_mut(),
            &mut lent_moves,
        );
        same!(
            answer == expected,
            "register",
            "{answer}, not {expected}: {about}"
        );
        same!(
            lent_moves == moves,
            "register",
            "{lent_moves} moved, not {moves}: {about}"
        );
        same!(
            lent_cache.holds(cache),
            "register",
            "another cache: {about}"
        );
        same!(
            lent_reply.holds(reply),
            "register",
            "another ticket: {about}"
        );
        same!(lent_key.holds(key), "register", "the key changed: {about}");
        same!(lent_ad.holds(ad), "register", "the ad changed: {about}");
        same!(
            lent_ticket.holds(ticket),
            "register",
            "the ticket changed: {about}"
        );
        (answer, moves)
    }

    pub fn withdraw(
        &self,
        cache: &mut [u8],
        service: &[u8],
        peer: &[u8],
        clock: u64,
        vouched: u8,
    ) -> i64 {
        let mut lent_cache = Guarded::new(cache);
        let [lent_service, lent_peer] = [service, peer].map(Guarded::new);
        let about = format!(
            "clock {clock}, head {:?}, service of {}, peer of {}, vouched {vouched}",
            cache.get(..29),
            service.len(),
            peer.len()
        );
        let expected = Oracle.withdraw(cache, service, peer, clock, vouched);
        let answer = self.0.withdraw(
            lent_cache.lent_mut(),
            lent_service.lent(),
            lent_peer.lent(),
            clock,
            vouched,
        );
        same!(
            answer == expected,
            "withdraw",
            "{answer}, not {expected}: {about}"
        );
        same!(
            lent_cache.holds(cache),
            "withdraw",
            "another cache: {about}"
        );
        let kept = lent_service.holds(service) && lent_peer.holds(peer);
        same!(kept, "withdraw", "an input changed: {about}");
        answer
    }

    pub fn get_ads(&self, cache: &[u8], clock: u64, service: &[u8], list: &mut [u8]) -> i64 {
        let mut lent_list = Guarded::new(list);
        let [lent_cache, lent_service] = [cache, service].map(Guarded::new);
        let expected = Oracle.get_ads(cache, clock, service, list);
        let answer = self.0.get_ads(
            lent_cache.lent(),
            clock,
            lent_service.lent(),
            lent_list.lent_mut(),
        );
        let about = format!("clock {clock}, head {:?}", cache.get(..29));
        same!(
            answer == expected,
            "get_ads",
            "{answer}, not {expected}: {about}"
        );
        same!(lent_list.holds(list), "get_ads", "another list: {about}");
        same!(
            lent_cache.holds(cache),
            "get_ads",
            "the cache changed: {about}"
        );
        same!(
            lent_service.holds(service),
            "get_ads",
            "the service changed: {about}"
        );
        answer
    }

    /// The answer, and the lent number as it was left.
    pub fn newest(&self, first: &[u8], second: &[u8], clock: u64, service: &[u8]) -> (i64, u64) {
        let lent = [first, second, service].map(Guarded::new);
        let (mut told, mut expected_told) = (UNTOLD, UNTOLD);
        let expected = Oracle.newest(first, second, clock, service, &mut expected_told);
        let [one, two, of] = [0, 1, 2].map(|i: usize| lent[i].lent());
        let answer = self.0.newest(one, two, clock, of, &mut told);
        let about = format!(
            "clock {clock}, heads {:?} {:?}",
            first.get(..29),
            second.get(..29)
        );
        same!(
            (answer, told) == (expected, expected_told),
            "newest",
            "{answer} at {told}, not {expected} at {expected_told}: {about}"
        );
        same!(
            lent.iter()
                .zip([first, second, service])
                .all(|(lent, was)| lent.holds(was)),
            "newest",
            "an input changed: {about}"
        );
        (answer, told)
    }

    /// The same with one slice as both caches.
    pub fn newest_of_one(&self, cache: &[u8], clock: u64, service: &[u8]) -> (i64, u64) {
        let mut told = UNTOLD;
        let answer = self.0.newest(cache, cache, clock, service, &mut told);
        same!(
            (answer, told) == self.newest(cache, cache, clock, service),
            "newest",
            "another answer for one slice: clock {clock}"
        );
        (answer, told)
    }

    pub fn service_id(&self, protocol: &[u8], id: &mut [u8]) -> i64 {
        let (mut lent_id, lent_protocol) = (Guarded::new(id), Guarded::new(protocol));
        let expected = Oracle.service_id(protocol, id);
        let answer = self.0.service_id(lent_protocol.lent(), lent_id.lent_mut());
        let about = format!("protocol of {} bytes, id of {}", protocol.len(), id.len());
        same!(
            answer == expected,
            "service_id",
            "{answer}, not {expected}: {about}"
        );
        same!(
            lent_id.holds(id),
            "service_id",
            "another identifier: {about}"
        );
        same!(
            lent_protocol.holds(protocol),
            "service_id",
            "the protocol changed: {about}"
        );
        answer
    }

    #[allow(clippy::too_many_arguments)]
    pub fn write_ad(
        &self,
        family: Family,
        out: &mut [u8],
        service: &[u8],
        peer: &[u8],
        address: &[u8],
        port: u16,
        stamp: u64,
        signature: &[u8],
    ) -> i64 {
        let mut lent_out = Guarded::new(out);
        let inputs = [service, peer, address, signature];
        let lent = inputs.map(Guarded::new);
        let expected = Oracle.write_ad(family, out, service, peer, address, port, stamp, signature);
        let answer = self.0.write_ad(
            family,
            lent_out.lent_mut(),
            lent[0].lent(),
            lent[1].lent(),
            lent[2].lent(),
            port,
            stamp,
            lent[3].lent(),
        );
        let about = format!(
            "{family:?}, port {port}, stamp {stamp}, out of {}",
            out.len()
        );
        same!(
            answer == expected,
            "write_ad",
            "{answer}, not {expected}: {about}"
        );
        same!(lent_out.holds(out), "write_ad", "another ad: {about}");
        let kept = lent
            .iter()
            .zip(inputs)
            .all(|(lent, input)| lent.holds(input));
        same!(kept, "write_ad", "a field changed: {about}");
        answer
    }

    pub fn read_ad(&self, family: Family, ad: &[u8], fields: &mut AdFields) -> i64 {
        let (mut lent_fields, lent_ad) = (fields.clone(), Guarded::new(ad));
        let expected = Oracle.read_ad(family, ad, fields);
        let answer = self.0.read_ad(family, lent_ad.lent(), &mut lent_fields);
        let about = format!(
            "{family:?}, ad of {} bytes, kind {:?}",
            ad.len(),
            ad.first()
        );
        same!(
            answer == expected,
            "read_ad",
            "{answer}, not {expected}: {about}"
        );
        same!(lent_fields == *fields, "read_ad", "other fields: {about}");
        same!(lent_ad.holds(ad), "read_ad", "the ad changed: {about}");
        answer
    }

    pub fn write_ticket(
        &self,
        key: &[u8],
        out: &mut [u8],
        ad_hash: &[u8],
        first: u64,
        issued: u64,
        wait: u64,
    ) -> i64 {
        let mut lent_out = Guarded::new(out);
        let inputs = [key, ad_hash];
        let lent = inputs.map(Guarded::new);
        let expected = Oracle.write_ticket(key, out, ad_hash, first, issued, wait);
        let answer = self.0.write_ticket(
            lent[0].lent(),
            lent_out.lent_mut(),
            lent[1].lent(),
            first,
            issued,
            wait,
        );
        let about = format!(
            "first {first}, issued {issued}, wait {wait}, out of {}",
            out.len()
        );
        same!(
            answer == expected,
            "write_ticket",
            "{answer}, not {expected}: {about}"
        );
        same!(
            lent_out.holds(out),
            "write_ticket",
            "another ticket: {about}"
        );
        let kept = lent
            .iter()
            .zip(inputs)
            .all(|(lent, input)| lent.holds(input));
        same!(kept, "write_ticket", "an input changed: {about}");
        answer
    }

    pub fn read_ticket(&self, key: &[u8], ticket: &[u8], fields: &mut TicketFields) -> i64 {
        let mut lent_fields = fields.clone();
        let [lent_key, lent_ticket] = [key, ticket].map(Guarded::new);
        let expected = Oracle.read_ticket(key, ticket, fields);
        let answer = self
            .0
            .read_ticket(lent_key.lent(), lent_ticket.lent(), &mut lent_fields);
        let about = format!("key of {} bytes, ticket of {}", key.len(), ticket.len());
        same!(
            answer == expected,
            "read_ticket",
            "{answer}, not {expected}: {about}"
        );
        same!(
            lent_fields == *fields,
            "read_ticket",
            "other fields: {about}"
        );
        let kept = lent_key.holds(key) && lent_ticket.holds(ticket);
        same!(kept, "read_ticket", "an input changed: {about}");
        answer
    }

    pub fn read_message(&self, message: &[u8], epoch: u64, ad: &mut [u8]) -> i64 {
        let (mut lent_ad, lent_message) = (Guarded::new(ad), Guarded::new(message));
        let expected = Oracle.read_message(message, epoch, ad);
        let answer = self
            .0
            .read_message(lent_message.lent(), epoch, lent_ad.lent_mut());
        let about = format!("epoch {epoch}, message {message:02x?}");
        same!(
            answer == expected,
            "read_message",
            "{answer}, not {expected}: {about}"
        );
        same!(lent_ad.holds(ad), "read_message", "another ad: {about}");
        same!(
            lent_message.holds(message),
            "read_message",
            "the message changed: {about}"
        );
        answer
    }

    pub fn write_message(&self, ad: &[u8], epoch: u64, out: &mut [u8]) -> i64 {
        let (mut lent_out, lent_ad) = (Guarded::new(out), Guarded::new(ad));
        let expected = Oracle.write_message(ad, epoch, out);
        let answer = self
            .0
            .write_message(lent_ad.lent(), epoch, lent_out.lent_mut());
        let about = format!("epoch {epoch}, buffer of {}, ad {ad:02x?}", out.len());
        same!(
            answer == expected,
            "write_message",
            "{answer}, not {expected}: {about}"
        );
        same!(lent_out.holds(out), "write_message", "other bytes: {about}");
        same!(
            lent_ad.holds(ad),
            "write_message",
            "the ad changed: {about}"
        );
        answer
    }

    pub fn sha256(&self, message: &[u8], digest: &mut [u8]) -> i64 {
        let (mut lent_digest, lent_message) = (Guarded::new(digest), Guarded::new(message));
        let expected = Oracle.sha256(message, digest);
        let answer = self.0.sha256(lent_message.lent(), lent_digest.lent_mut());
        let about = format!(
            "message of {} bytes, digest of {}",
            message.len(),
            digest.len()
        );
        same!(
            answer == expected,
            "sha256",
            "{answer}, not {expected}: {about}"
        );
        same!(
            lent_digest.holds(digest),
            "sha256",
            "another digest: {about}"
        );
        same!(
            lent_message.holds(message),
            "sha256",
            "the message changed: {about}"
        );
        answer
    }

    pub fn hmac(&self, key: &[u8], message: &[u8], tag: &mut [u8]) -> i64 {
        let mut lent_tag = Guarded::new(tag);
        let [lent_key, lent_message] = [key, message].map(Guarded::new);
        let expected = Oracle.hmac(key, message, tag);
        let answer = self
            .0
            .hmac(lent_key.lent(), lent_message.lent(), lent_tag.lent_mut());
        let about = format!("key of {} bytes, message of {}", key.len(), message.len());
        same!(
            answer == expected,
            "hmac",
            "{answer}, not {expected}: {about}"
        );
        same!(lent_tag.holds(tag), "hmac", "another tag: {about}");
        let kept = lent_key.holds(key) && lent_message.holds(message);
        same!(kept, "hmac", "an input changed: {about}");
        answer
    }
}
