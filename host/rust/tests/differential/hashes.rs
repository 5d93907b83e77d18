//! SHA-256, HMAC-SHA-256 and service identifiers.
use super::calls::Calls;
use super::compare::Compare;
use super::inputs::unwritten;
use super::random::Random;

fn hex(bytes: &[u8]) -> String {
    bytes.iter().map(|byte| format!("{byte:02x}")).collect()
}

/// Published values, without the oracle: FIPS 180's messages, RFC 4231's cases with a short and a long key, source 000's identifiers.
pub fn published_vectors<C: Calls>(calls: &C) {
    let sha256 = |message: &[u8]| {
        let mut digest = [0; 32];
        assert_eq!(calls.sha256(message, &mut digest), 0);
        hex(&digest)
    };
    let hmac = |key: &[u8], message: &[u8]| {
        let mut tag = [0; 32];
        assert_eq!(calls.hmac(key, message, &mut tag), 0);
        hex(&tag)
    };
    let service_id = |protocol: &[u8]| {
        let mut id = [0; 32];
        assert_eq!(calls.service_id(protocol, &mut id), 0);
        hex(&id)
    };
    assert_eq!(
        sha256(b""),
        "e3b0c44298fc1c149afbf4c8996fb92427ae41e4649b934ca495991b7852b855"
    );
    assert_eq!(
        sha256(b"abc"),
        "ba7816bf8f01cfea414140de5dae2223b00361a396177a9cb410ff61f20015ad"
    );
    assert_eq!(
        sha256(b"abcdbcdecdefdefgefghfghighijhijkijkljklmklmnlmnomnopnopq"),
        "248d6a61d20638b8e5c026930c3e6039a33ce45964ff2167f6ecedd419db06c1"
    );
    assert_eq!(
        sha256(&[b'a'; 1_000_000]),
        "cdc76e5c9914fb9281a1c7e284d73e67f1809a48a497200e046d39ccc7112cd0"
    );
    assert_eq!(
        hmac(b"Jefe", b"what do ya want for nothing?"),
        "5bdcc146bf60754e6a042426089575c75a003f089d2739839dec58b964ec3843"
    );
    assert_eq!(
        hmac(
            &[0xaa; 131],
            b"Test Using Larger Than Block-Size Key - Hash Key First"
        ),
        "60e431591ee0b67f0d8a26aacbf5b77f8e0bc6213728c5140546040f0ee37f54"
    );
    assert_eq!(
        service_id(b"/waku/store/1.0.0"),
        "313a14f48b3617b0ac87daabd61c1f1f1bf6a59126da455909b7b11155e0eb8e"
    );
    assert_eq!(
        service_id(b"/libp2p/mix/1.2.0"),
        "9c55878d86e575916b267195b34125336c83056dffc9a184069bcb126a78115d"
    );
}

pub fn every_length<C: Calls>(calls: &C) {
    let both = Compare(calls);
    let mut random = Random::new(1);
    for length in (0..=300).chain([511, 512, 513, 4096, 65_537]) {
        both.sha256(&random.bytes(length), &mut unwritten(32));
    }
    for key in [0, 1, 31, 32, 33, 55, 56, 63, 64, 65, 66, 127, 128, 129, 300] {
        for message in (0..=130)
            .step_by(3)
            .chain([55, 56, 57, 63, 64, 65, 119, 120, 128, 1000])
        {
            both.hmac(
                &random.bytes(key),
                &random.bytes(message),
                &mut unwritten(32),
            );
        }
    }
}

pub fn wrong_lengths<C: Calls>(calls: &C) {
    let both = Compare(calls);
    for length in [0, 1, 16, 31, 33, 64, 89] {
        assert_eq!(both.sha256(b"abc", &mut unwritten(length)), -2);
        assert_eq!(both.hmac(b"key", b"abc", &mut unwritten(length)), -2);
    }
}

pub fn service_ids<C: Calls>(calls: &C) {
    let both = Compare(calls);
    let mut random = Random::new(2);
    for protocol in (0..=300).chain([511, 512, 65_536, 65_537]) {
        let protocol = random.bytes(protocol);
        for id in [32, 0, 31, 33] {
            let expected = match (id, protocol.len()) {
                (32, 1..=255) => 0,
                (32, _) => -12,
                _ => -2,
            };
            assert_eq!(both.service_id(&protocol, &mut unwritten(id)), expected);
        }
    }
}
