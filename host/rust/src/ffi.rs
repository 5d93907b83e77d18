//! The library's calls as C has them: `host/include/unglassot.h`, line by line.
//!
//! Each answers a negative number −n for refusal n, 0 for done, confirmed or none, and a positive number for a wait in
//! milliseconds, a count, a length or the version. The duties of a caller are the header's: a null pointer only with length 0, no overlap with a
//! buffer that is written, and a pointer without a length points to its whole array or number.

unsafe extern "C" {
    pub fn unglassot_version() -> i64;

    pub fn unglassot_open(cache: *mut u8, cache_len: usize, family: u64) -> i64;

    pub fn unglassot_register(
        cache: *mut u8,
        cache_len: usize,
        key: *const u8,
        key_len: usize,
        window: u64,
        clock: u64,
        ad: *const u8,
        ad_len: usize,
        vouched: u8,
        ticket: *const u8,
        ticket_len: usize,
        reply: *mut u8,
        reply_len: usize,
        moves: *mut u64,
    ) -> i64;

    pub fn unglassot_register_bounded(
        cache: *mut u8,
        cache_len: usize,
        bounds: *mut u8,
        bounds_len: usize,
        key: *const u8,
        key_len: usize,
        window: u64,
        clock: u64,
        ad: *const u8,
        ad_len: usize,
        vouched: u8,
        ticket: *const u8,
        ticket_len: usize,
        reply: *mut u8,
        reply_len: usize,
        moves: *mut u64,
    ) -> i64;

    pub fn unglassot_withdraw(
        cache: *mut u8,
        cache_len: usize,
        service: *const u8,
        service_len: usize,
        peer: *const u8,
        peer_len: usize,
        clock: u64,
        vouched: u8,
    ) -> i64;

    pub fn unglassot_get_ads(
        cache: *const u8,
        cache_len: usize,
        clock: u64,
        service: *const u8,
        service_len: usize,
        list: *mut u8,
        list_len: usize,
    ) -> i64;

    pub fn unglassot_newest(
        first: *const u8,
        first_len: usize,
        second: *const u8,
        second_len: usize,
        clock: u64,
        service: *const u8,
        service_len: usize,
        offset: *mut u64,
    ) -> i64;

    pub fn unglassot_small_open(cache: *mut u8, cache_len: usize, family: u64) -> i64;

    pub fn unglassot_small_register(
        cache: *mut u8,
        cache_len: usize,
        key: *const u8,
        key_len: usize,
        clock: u64,
        ad: *const u8,
        ad_len: usize,
        vouched: u8,
        ticket: *const u8,
        ticket_len: usize,
        reply: *mut u8,
        reply_len: usize,
        moves: *mut u64,
    ) -> i64;

    pub fn unglassot_small_register_bounded(
        cache: *mut u8,
        cache_len: usize,
        bounds: *mut u8,
        bounds_len: usize,
        key: *const u8,
        key_len: usize,
        clock: u64,
        ad: *const u8,
        ad_len: usize,
        vouched: u8,
        ticket: *const u8,
        ticket_len: usize,
        reply: *mut u8,
        reply_len: usize,
        moves: *mut u64,
    ) -> i64;

    pub fn unglassot_small_withdraw(
        cache: *mut u8,
        cache_len: usize,
        service: *const u8,
        service_len: usize,
        peer: *const u8,
        peer_len: usize,
        clock: u64,
        vouched: u8,
    ) -> i64;

    pub fn unglassot_small_get_ads(
        cache: *const u8,
        cache_len: usize,
        clock: u64,
        service: *const u8,
        service_len: usize,
        list: *mut u8,
        list_len: usize,
    ) -> i64;

    pub fn unglassot_small_newest(
        first: *const u8,
        first_len: usize,
        second: *const u8,
        second_len: usize,
        clock: u64,
        service: *const u8,
        service_len: usize,
        offset: *mut u64,
    ) -> i64;

    pub fn unglassot_service_id(
        protocol: *const u8,
        protocol_len: usize,
        id: *mut u8,
        id_len: usize,
    ) -> i64;

    pub fn unglassot_write_ad(
        out: *mut u8,
        out_len: usize,
        service: *const u8,
        service_len: usize,
        peer: *const u8,
        peer_len: usize,
        address: *const u8,
        address_len: usize,
        port: u16,
        stamp: u64,
        signature: *const u8,
        signature_len: usize,
    ) -> i64;

    pub fn unglassot_read_ad(
        ad: *const u8,
        ad_len: usize,
        service: *mut [u8; 32],
        peer: *mut [u8; 32],
        address: *mut [u8; 4],
        port: *mut u16,
        stamp: *mut u64,
        signature: *mut [u8; 64],
    ) -> i64;

    pub fn unglassot_write_ad_v6(
        out: *mut u8,
        out_len: usize,
        service: *const u8,
        service_len: usize,
        peer: *const u8,
        peer_len: usize,
        address: *const u8,
        address_len: usize,
        port: u16,
        stamp: u64,
        signature: *const u8,
        signature_len: usize,
    ) -> i64;

    pub fn unglassot_read_ad_v6(
        ad: *const u8,
        ad_len: usize,
        service: *mut [u8; 32],
        peer: *mut [u8; 32],
        address: *mut [u8; 16],
        port: *mut u16,
        stamp: *mut u64,
        signature: *mut [u8; 64],
    ) -> i64;

    pub fn unglassot_write_ticket(
        key: *const u8,
        key_len: usize,
        out: *mut u8,
        out_len: usize,
        ad_hash: *const u8,
        ad_hash_len: usize,
        first: u64,
        issued: u64,
        wait: u64,
    ) -> i64;

    pub fn unglassot_read_ticket(
        key: *const u8,
        key_len: usize,
        ticket: *const u8,
        ticket_len: usize,
        ad_hash: *mut [u8; 32],
        first: *mut u64,
        issued: *mut u64,
        wait: *mut u64,
    ) -> i64;

    pub fn unglassot_read_message(
        message: *const u8,
        message_len: usize,
        epoch: u64,
        ad: *mut u8,
        ad_len: usize,
    ) -> i64;

    pub fn unglassot_write_message(
        ad: *const u8,
        ad_len: usize,
        epoch: u64,
        out: *mut u8,
        out_len: usize,
    ) -> i64;

    pub fn unglassot_sha256(
        message: *const u8,
        message_len: usize,
        digest: *mut u8,
        digest_len: usize,
    ) -> i64;

    pub fn unglassot_hmac(
        key: *const u8,
        key_len: usize,
        message: *const u8,
        message_len: usize,
        tag: *mut u8,
        tag_len: usize,
    ) -> i64;
}
