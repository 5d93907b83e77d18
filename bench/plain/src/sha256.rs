//! SHA-256 (FIPS 180-4) and HMAC-SHA-256 (RFC 2104): a 64-word schedule and the rounds in a loop.

/// Bytes in a digest and in a tag.
pub const DIGEST_LEN: usize = 32;

const BLOCK_LEN: usize = 64;

#[rustfmt::skip]
pub const ROUND_CONSTANTS: [u32; 64] = [
    0x428a2f98, 0x71374491, 0xb5c0fbcf, 0xe9b5dba5, 0x3956c25b, 0x59f111f1, 0x923f82a4, 0xab1c5ed5,
    0xd807aa98, 0x12835b01, 0x243185be, 0x550c7dc3, 0x72be5d74, 0x80deb1fe, 0x9bdc06a7, 0xc19bf174,
    0xe49b69c1, 0xefbe4786, 0x0fc19dc6, 0x240ca1cc, 0x2de92c6f, 0x4a7484aa, 0x5cb0a9dc, 0x76f988da,
    0x983e5152, 0xa831c66d, 0xb00327c8, 0xbf597fc7, 0xc6e00bf3, 0xd5a79147, 0x06ca6351, 0x14292967,
    0x27b70a85, 0x2e1b2138, 0x4d2c6dfc, 0x53380d13, 0x650a7354, 0x766a0abb, 0x81c2c92e, 0x92722c85,
    0xa2bfe8a1, 0xa81a664b, 0xc24b8b70, 0xc76c51a3, 0xd192e819, 0xd6990624, 0xf40e3585, 0x106aa070,
    0x19a4c116, 0x1e376c08, 0x2748774c, 0x34b0bcb5, 0x391c0cb3, 0x4ed8aa4a, 0x5b9cca4f, 0x682e6ff3,
    0x748f82ee, 0x78a5636f, 0x84c87814, 0x8cc70208, 0x90befffa, 0xa4506ceb, 0xbef9a3f7, 0xc67178f2,
];

pub const INITIAL_STATE: [u32; 8] = [
    0x6a09e667, 0xbb67ae85, 0x3c6ef372, 0xa54ff53a, 0x510e527f, 0x9b05688c, 0x1f83d9ab, 0x5be0cd19,
];

/// A hash in progress after whole blocks.
#[derive(Clone, Copy)]
struct State([u32; 8]);

impl State {
    fn new() -> Self {
        State(INITIAL_STATE)
    }

    fn compress(&mut self, block: &[u8; BLOCK_LEN]) {
        let mut w = [0u32; 64];
        for (word, bytes) in w.iter_mut().zip(block.chunks_exact(4)) {
            *word = u32::from_be_bytes([bytes[0], bytes[1], bytes[2], bytes[3]]);
        }
        for t in 16..64 {
            let near = w[t - 2];
            let far = w[t - 15];
            let s1 = near.rotate_right(17) ^ near.rotate_right(19) ^ (near >> 10);
            let s0 = far.rotate_right(7) ^ far.rotate_right(18) ^ (far >> 3);
            w[t] = s1
                .wrapping_add(w[t - 7])
                .wrapping_add(s0)
                .wrapping_add(w[t - 16]);
        }
        let [mut a, mut b, mut c, mut d, mut e, mut f, mut g, mut h] = self.0;
        for t in 0..64 {
            let sum1 = e.rotate_right(6) ^ e.rotate_right(11) ^ e.rotate_right(25);
            let choose = (e & f) ^ (!e & g);
            let t1 = h
                .wrapping_add(sum1)
                .wrapping_add(choose)
                .wrapping_add(ROUND_CONSTANTS[t])
                .wrapping_add(w[t]);
            let sum0 = a.rotate_right(2) ^ a.rotate_right(13) ^ a.rotate_right(22);
            let majority = (a & b) ^ (a & c) ^ (b & c);
            let t2 = sum0.wrapping_add(majority);
            h = g;
            g = f;
            f = e;
            e = d.wrapping_add(t1);
            d = c;
            c = b;
            b = a;
            a = t1.wrapping_add(t2);
        }
        for (word, add) in self.0.iter_mut().zip([a, b, c, d, e, f, g, h]) {
            *word = word.wrapping_add(add);
        }
    }

    /// Takes the rest of the message and gives the digest; `before` is the number of bytes already taken.
    fn finish(mut self, before: u64, message: &[u8]) -> [u8; DIGEST_LEN] {
        let (blocks, rest) = message.as_chunks::<BLOCK_LEN>();
        for block in blocks {
            self.compress(block);
        }
        let bits = before.wrapping_add(message.len() as u64).wrapping_mul(8);
        let mut last = [0u8; BLOCK_LEN];
        last[..rest.len()].copy_from_slice(rest);
        last[rest.len()] = 0x80;
        if rest.len() >= BLOCK_LEN - 8 {
            self.compress(&last);
            last = [0; BLOCK_LEN];
        }
        last[BLOCK_LEN - 8..].copy_from_slice(&bits.to_be_bytes());
        self.compress(&last);
        let mut digest = [0; DIGEST_LEN];
        for (bytes, word) in digest.chunks_exact_mut(4).zip(self.0) {
            bytes.copy_from_slice(&word.to_be_bytes());
        }
        digest
    }
}

/// The SHA-256 digest of `message`.
pub fn sha256(message: &[u8]) -> [u8; DIGEST_LEN] {
    State::new().finish(0, message)
}

/// The HMAC-SHA-256 tag of `message` under `key`, a key of any length.
pub fn hmac(key: &[u8], message: &[u8]) -> [u8; DIGEST_LEN] {
    let mut block = [0u8; BLOCK_LEN];
    if key.len() > BLOCK_LEN {
        block[..DIGEST_LEN].copy_from_slice(&sha256(key));
    } else {
        block[..key.len()].copy_from_slice(key);
    }
    let inner = keyed(&block, 0x36).finish(BLOCK_LEN as u64, message);
    keyed(&block, 0x5c).finish(BLOCK_LEN as u64, &inner)
}

/// The state after the key block masked with `pad`.
fn keyed(block: &[u8; BLOCK_LEN], pad: u8) -> State {
    let mut state = State::new();
    state.compress(&block.map(|byte| byte ^ pad));
    state
}

/// Whether two tags are equal, without an early exit.
pub fn same_tag(a: &[u8; DIGEST_LEN], b: &[u8; DIGEST_LEN]) -> bool {
    a.iter().zip(b).fold(0, |seen, (x, y)| seen | (x ^ y)) == 0
}
