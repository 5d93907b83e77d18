//! The lines of the stored output, each with the request of the stored input that it answers: crates/conformance/src/request.rt has the request's form.
// Each test program uses a part of it.
#![allow(dead_code)]

pub mod addresses;
pub mod bounds;
pub mod calls;
pub mod faults;
pub mod logs;
pub mod messages;
pub mod newest;
pub mod openings;
pub mod small;
pub mod visits;

use super::oracle::sha256::sha256;

/// What stands in a buffer before a call, and in the number that a call is lent.
pub const UNTOUCHED: u8 = 0xa5;

pub fn hex(bytes: &[u8]) -> String {
    bytes.iter().map(|byte| format!("{byte:02x}")).collect()
}

pub fn digest(bytes: &[u8]) -> String {
    hex(&sha256(bytes))
}

/// Bytes that count up from the first.
pub fn run(first: u8, length: usize) -> Vec<u8> {
    (0..length).map(|i| first.wrapping_add(i as u8)).collect()
}

/// The exported number of a call that answers only refusals.
pub fn number<T>(answer: &Result<T, i64>) -> i64 {
    match answer {
        Ok(_) => 0,
        Err(refusal) => -refusal,
    }
}

/// A buffer of this length in which the first bytes were written, where they were.
pub fn buffer(length: usize, written: &Result<Vec<u8>, i64>) -> Vec<u8> {
    let mut bytes = vec![UNTOUCHED; length];
    if let Ok(written) = written {
        bytes[..written.len()].copy_from_slice(written);
    }
    bytes
}

/// The calls, by their numbers in the stored input.
#[derive(Clone, Copy, Default)]
pub enum Call {
    #[default]
    Open,
    Register,
    Withdraw,
    GetAds,
    ServiceId,
    Sha256,
    Hmac,
    ReadMessage,
    WriteMessage,
    WriteAd,
    WriteAdV6,
    WriteTicket,
    WriteAsk,
    WriteReturn,
    WriteList,
    Newest,
    ReadAd,
    ReadAdV6,
    ReadTicket,
    /// No call: the cache is shown.
    Show,
    Log,
    Version,
    /// The bounds begin with the fourth part, with zeros behind it; their length is the third number, and they are shown as the output is, behind it.
    RegisterBounded,
    /// Those of the small-registrar profile. The two REGISTERs have no window, so that the clock is the first number; the second cache of `SmallNewest`
    /// begins with the first part, with zeros behind it, and its length is the second number.
    SmallOpen,
    SmallRegister,
    SmallWithdraw,
    SmallGetAds,
    SmallNewest,
    SmallRegisterBounded,
}

/// How a buffer is shown, by the numbers of the stored input: not at all, its bytes, their digest, a cache's head and the digest, the kinds of a
/// cache's head and first entry, or the kind of a record.
#[derive(Clone, Copy, Default)]
pub enum Shown {
    #[default]
    Not,
    Bytes,
    Digest,
    Headed,
    Kinds,
    Kind,
}

/// A buffer that a call changes: its length, how much of it is lent, and how it is shown.
#[derive(Clone, Copy, Default)]
pub struct Buffer(pub usize, pub usize, pub Shown);

/// What a call is given: numbers, and parts in the order of its parameters. An output that is `zeroed` holds zeros before the call.
#[derive(Default)]
pub struct Given {
    pub call: Call,
    pub vouched: u8,
    /// Whether the cache is filled anew; what it then begins with.
    pub anew: bool,
    pub begins: Vec<u8>,
    pub cache: Buffer,
    pub output: Buffer,
    pub zeroed: bool,
    /// Whether the number that the call is lent is shown, and what stands before it and the buffers.
    pub told: bool,
    pub between: String,
    pub port: u16,
    pub numbers: Vec<u64>,
    pub parts: Vec<Vec<u8>>,
}

/// A line of the stored output: what it begins with, and what the call says; and what the call is given.
pub struct Line {
    pub label: String,
    pub said: String,
    pub given: Given,
}

const HEAD: usize = 83;
const LONGEST: usize = 4_096;

impl Line {
    pub fn text(&self) -> String {
        format!("{}{}\n", self.label, self.said)
    }

    pub fn request(&self) -> Vec<u8> {
        let given = &self.given;
        let mut parts = vec![
            self.label.clone().into_bytes(),
            given.between.clone().into_bytes(),
            given.begins.clone(),
        ];
        parts.extend(given.parts.iter().cloned());
        parts.resize(8, Vec::new());
        let rest = parts.concat();
        let mut head = vec![
            given.call as u8,
            given.cache.2 as u8,
            given.output.2 as u8,
            given.told as u8,
            given.vouched,
            given.anew as u8,
            if given.zeroed { 0 } else { UNTOUCHED },
        ];
        head.extend(given.port.to_be_bytes());
        head.extend((rest.len() as u16).to_be_bytes());
        for Buffer(size, lent, _) in [given.cache, given.output] {
            head.extend((lent as u32).to_be_bytes());
            head.extend((size as u32).to_be_bytes());
        }
        for i in 0..3 {
            head.extend(given.numbers.get(i).unwrap_or(&0).to_be_bytes());
        }
        let mut at = HEAD;
        for part in &parts {
            head.extend((at as u16).to_be_bytes());
            head.extend((part.len() as u16).to_be_bytes());
            at += part.len();
        }
        assert!(head.len() == HEAD && at <= LONGEST);
        [head, rest].concat()
    }
}
