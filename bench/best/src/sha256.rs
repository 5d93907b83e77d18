//! SHA-256 (FIPS 180-4) and HMAC-SHA-256 (RFC 2104): sixteen rolling words, every round written out, and a key's two states made once.
use plain::sha256::{DIGEST_LEN, INITIAL_STATE, ROUND_CONSTANTS};

const BLOCK_LEN: usize = 64;

/// The bytes that a ticket's tag is over; with the key's block and the first byte of the padding they end a block.
const TAGGED_LEN: usize = plain::record::TAGGED_LEN;

/// A hash in progress after whole blocks.
#[derive(Clone, Copy)]
pub struct State([u32; 8]);

/// Two rotations by way of one, as below: fewer instructions where a processor rotates in place.
const fn small0(word: u32) -> u32 {
    (word.rotate_right(11) ^ word).rotate_right(7) ^ (word >> 3)
}

const fn small1(word: u32) -> u32 {
    (word.rotate_right(2) ^ word).rotate_right(17) ^ (word >> 10)
}

#[inline(always)]
fn large0(a: u32) -> u32 {
    a.rotate_right(2) ^ a.rotate_right(13) ^ a.rotate_right(22)
}

#[inline(always)]
fn large1(e: u32) -> u32 {
    ((e.rotate_right(14) ^ e).rotate_right(5) ^ e).rotate_right(6)
}

/// A round, whose constant and word are added up. The names move on by one from round to round, and no word is moved; `$bc` is b ⊕ c, and
/// then a ⊕ b, which is the next round's.
macro_rules! round {
    ($bc:ident $a:ident $b:ident $c:ident $d:ident $e:ident $f:ident $g:ident $h:ident $word:expr) => {
        $h = $h
            .wrapping_add($word)
            .wrapping_add($g ^ ($e & ($f ^ $g)))
            .wrapping_add(large1($e));
        $d = $d.wrapping_add($h);
        let ab = $a ^ $b;
        $h = $h.wrapping_add(($bc & ab) ^ $b).wrapping_add(large0($a));
        $bc = ab;
    };
}

/// Sixteen rounds from `$t` on, with the words that `$word` gives.
macro_rules! rounds {
    ($s:ident, $word:ident, $t:expr) => {
        let [mut a, mut b, mut c, mut d, mut e, mut f, mut g, mut h] = $s;
        let mut bc = b ^ c;
        round!(bc a b c d e f g h $word!($t));
        round!(bc h a b c d e f g $word!($t + 1));
        round!(bc g h a b c d e f $word!($t + 2));
        round!(bc f g h a b c d e $word!($t + 3));
        round!(bc e f g h a b c d $word!($t + 4));
        round!(bc d e f g h a b c $word!($t + 5));
        round!(bc c d e f g h a b $word!($t + 6));
        round!(bc b c d e f g h a $word!($t + 7));
        round!(bc a b c d e f g h $word!($t + 8));
        round!(bc h a b c d e f g $word!($t + 9));
        round!(bc g h a b c d e f $word!($t + 10));
        round!(bc f g h a b c d e $word!($t + 11));
        round!(bc e f g h a b c d $word!($t + 12));
        round!(bc d e f g h a b c $word!($t + 13));
        round!(bc c d e f g h a b $word!($t + 14));
        round!(bc b c d e f g h a $word!($t + 15));
        let _ = bc;
        $s = [a, b, c, d, e, f, g, h];
    };
}

/// Constants and words of a block, added up: what the rounds take of a block that is known beforehand.
const fn added(block: &[u8; BLOCK_LEN]) -> [u32; 64] {
    let mut w = [0; 64];
    let mut t = 0;
    while t < 64 {
        w[t] = if t < 16 {
            let at = 4 * t;
            u32::from_be_bytes([block[at], block[at + 1], block[at + 2], block[at + 3]])
        } else {
            small1(w[t - 2])
                .wrapping_add(w[t - 7])
                .wrapping_add(small0(w[t - 15]))
                .wrapping_add(w[t - 16])
        };
        t += 1;
    }
    t = 0;
    while t < 64 {
        w[t] = w[t].wrapping_add(ROUND_CONSTANTS[t]);
        t += 1;
    }
    w
}

/// The last block of a tag's inner hash: no byte of the message, and the length.
const TAIL: [u32; 64] = {
    let mut block = [0; BLOCK_LEN];
    let bits = (8 * (BLOCK_LEN + TAGGED_LEN)) as u16;
    [block[BLOCK_LEN - 2], block[BLOCK_LEN - 1]] = bits.to_be_bytes();
    added(&block)
};

impl State {
    const NEW: State = State(INITIAL_STATE);

    fn add(&mut self, worked: [u32; 8]) {
        for (word, add) in self.0.iter_mut().zip(worked) {
            *word = word.wrapping_add(add);
        }
    }

    #[inline(never)]
    fn compress(&mut self, block: &[u8; BLOCK_LEN]) {
        let (words, _) = block.as_chunks::<4>();
        let mut w: [u32; 16] = std::array::from_fn(|i| u32::from_be_bytes(words[i]));
        let mut s = self.0;
        macro_rules! given {
            ($t:expr) => {
                ROUND_CONSTANTS[$t].wrapping_add(w[$t])
            };
        }
        macro_rules! next {
            ($t:expr) => {{
                w[$t % 16] = w[$t % 16]
                    .wrapping_add(small1(w[($t + 14) % 16]))
                    .wrapping_add(w[($t + 9) % 16])
                    .wrapping_add(small0(w[($t + 1) % 16]));
                ROUND_CONSTANTS[$t].wrapping_add(w[$t % 16])
            }};
        }
        rounds!(s, given, 0);
        rounds!(s, next, 16);
        rounds!(s, next, 32);
        rounds!(s, next, 48);
        self.add(s);
    }

    /// Takes a block of which constants and words are added up.
    #[inline(never)]
    fn compress_known(&mut self, block: &[u32; 64]) {
        let mut s = self.0;
        macro_rules! known {
            ($t:expr) => {
                block[$t]
            };
        }
        rounds!(s, known, 0);
        rounds!(s, known, 16);
        rounds!(s, known, 32);
        rounds!(s, known, 48);
        self.add(s);
    }

    /// Takes the rest of the message and gives the digest; `before` is the number of bytes already taken.
    fn finish(mut self, before: u64, message: &[u8]) -> [u8; DIGEST_LEN] {
        let (blocks, rest) = message.as_chunks::<BLOCK_LEN>();
        for block in blocks {
            self.compress(block);
        }
        let bits = before.wrapping_add(message.len() as u64).wrapping_mul(8);
        let mut last = [0u8; BLOCK_LEN];
        last[..rest.len()].copy_from_slice(rest);
        last[rest.len()] = 0x80;
        if rest.len() >= BLOCK_LEN - 8 {
            self.compress(&last);
            last = [0; BLOCK_LEN];
        }
        last[BLOCK_LEN - 8..].copy_from_slice(&bits.to_be_bytes());
        self.compress(&last);
        self.digest()
    }

    fn digest(self) -> [u8; DIGEST_LEN] {
        let mut digest = [0; DIGEST_LEN];
        for (bytes, word) in digest.as_chunks_mut::<4>().0.iter_mut().zip(self.0) {
            *bytes = word.to_be_bytes();
        }
        digest
    }
}

/// The SHA-256 digest of `message`.
pub fn sha256(message: &[u8]) -> [u8; DIGEST_LEN] {
    State::NEW.finish(0, message)
}

/// A key's two states, for all tags of a call.
pub struct Keyed {
    inner: State,
    outer: State,
}

impl Keyed {
    /// Of a key of any length.
    pub fn new(key: &[u8]) -> Keyed {
        let mut block = [0u8; BLOCK_LEN];
        if key.len() > BLOCK_LEN {
            block[..DIGEST_LEN].copy_from_slice(&sha256(key));
        } else {
            block[..key.len()].copy_from_slice(key);
        }
        let masked = |pad: u8| {
            let mut state = State::NEW;
            state.compress(&block.map(|byte| byte ^ pad));
            state
        };
        Keyed {
            inner: masked(0x36),
            outer: masked(0x5c),
        }
    }

    /// The tag of a message of any length.
    pub fn tag(&self, message: &[u8]) -> [u8; DIGEST_LEN] {
        let inner = self.inner.finish(BLOCK_LEN as u64, message);
        self.outer.finish(BLOCK_LEN as u64, &inner)
    }

    /// The tag of what a ticket's tag is over.
    pub fn ticket_tag(&self, tagged: &[u8; TAGGED_LEN]) -> [u8; DIGEST_LEN] {
        let mut block = [0; BLOCK_LEN];
        block[..TAGGED_LEN].copy_from_slice(tagged);
        block[TAGGED_LEN] = 0x80;
        let mut inner = self.inner;
        inner.compress(&block);
        inner.compress_known(&TAIL);
        self.outer.finish(BLOCK_LEN as u64, &inner.digest())
    }

    /// Eight bytes that nobody knows without the key.
    pub fn secret(&self) -> u64 {
        u64::from(self.inner.0[0]) << 32 | u64::from(self.outer.0[0])
    }
}

/// The HMAC-SHA-256 tag of `message` under `key`, a key of any length.
pub fn hmac(key: &[u8], message: &[u8]) -> [u8; DIGEST_LEN] {
    Keyed::new(key).tag(message)
}
