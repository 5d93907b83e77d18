//! SHA-256 (FIPS 180-4) and HMAC-SHA-256 (RFC 2104). The constants are computed from the primes, as the standard defines them.

/// The first `count` primes.
fn primes(count: usize) -> Vec<u128> {
    let prime = |n: &u128| (2..*n).all(|d| !n.is_multiple_of(d));
    (2..).filter(prime).take(count).collect()
}

/// The largest number whose `power`-th power is at most `number`.
fn root(number: u128, power: u32) -> u128 {
    let mut low = 0;
    for bit in (0..42).rev() {
        let tried: u128 = low | 1 << bit;
        if tried.pow(power) <= number {
            low = tried;
        }
    }
    low
}

/// 4.2.2: the first 32 bits of the fractional parts of the cube roots of the first 64 primes.
fn round_constants() -> Vec<u32> {
    primes(64)
        .iter()
        .map(|prime| root(prime << 96, 3) as u32)
        .collect()
}

/// 5.3.3: the first 32 bits of the fractional parts of the square roots of the first 8 primes.
fn initial_hash() -> Vec<u32> {
    primes(8)
        .iter()
        .map(|prime| root(prime << 64, 2) as u32)
        .collect()
}

/// 5.1.1: a one bit, zeros, and the length in bits (modulo 2^64) in the last eight bytes of a block.
fn padded(message: &[u8]) -> Vec<u8> {
    let mut padded = message.to_vec();
    padded.push(0x80);
    while padded.len() % 64 != 56 {
        padded.push(0);
    }
    let bits = (message.len() as u128 * 8) as u64;
    padded.extend(bits.to_be_bytes());
    padded
}

/// 6.2.2: one block.
fn compressed(hash: &[u32], block: &[u8], k: &[u32]) -> Vec<u32> {
    let add = |words: &[u32]| words.iter().fold(0u32, |sum, word| sum.wrapping_add(*word));
    let rotated =
        |x: u32, n: [u32; 3]| x.rotate_right(n[0]) ^ x.rotate_right(n[1]) ^ x.rotate_right(n[2]);
    let mut w: Vec<u32> = block
        .chunks(4)
        .map(|four| u32::from_be_bytes(four.try_into().unwrap()))
        .collect();
    for t in 16..64 {
        let (x, y) = (w[t - 2], w[t - 15]);
        let sigma1 = x.rotate_right(17) ^ x.rotate_right(19) ^ (x >> 10);
        let sigma0 = y.rotate_right(7) ^ y.rotate_right(18) ^ (y >> 3);
        w.push(add(&[sigma1, w[t - 7], sigma0, w[t - 16]]));
    }
    let mut v = hash.to_vec();
    for t in 0..64 {
        let (a, b, c, e, f, g) = (v[0], v[1], v[2], v[4], v[5], v[6]);
        let choice = (e & f) ^ (!e & g);
        let majority = (a & b) ^ (a & c) ^ (b & c);
        let t1 = add(&[v[7], rotated(e, [6, 11, 25]), choice, k[t], w[t]]);
        let t2 = add(&[rotated(a, [2, 13, 22]), majority]);
        v.pop();
        v[3] = add(&[v[3], t1]);
        v.insert(0, add(&[t1, t2]));
    }
    v.iter().zip(hash).map(|(x, y)| add(&[*x, *y])).collect()
}

thread_local! {
    static CONSTANTS: (Vec<u32>, Vec<u32>) = (initial_hash(), round_constants());
}

pub fn sha256(message: &[u8]) -> Vec<u8> {
    CONSTANTS.with(|(initial, k)| {
        let mut hash = initial.clone();
        for block in padded(message).chunks(64) {
            hash = compressed(&hash, block, k);
        }
        hash.iter().flat_map(|word| word.to_be_bytes()).collect()
    })
}

/// RFC 2104: H(K XOR opad, H(K XOR ipad, text)), K hashed first where it is longer than a block, then filled with zeros.
pub fn hmac(key: &[u8], text: &[u8]) -> Vec<u8> {
    let mut block = if key.len() > 64 {
        sha256(key)
    } else {
        key.to_vec()
    };
    block.resize(64, 0);
    let masked = |pad: u8| block.iter().map(|byte| byte ^ pad).collect::<Vec<u8>>();
    let inner = sha256(&[masked(0x36), text.to_vec()].concat());
    sha256(&[masked(0x5c), inner].concat())
}
