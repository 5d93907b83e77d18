//! The waiting time.

/// The wait of a full cache, and the largest.
const LONGEST: u64 = 1 << 40;
/// Ticks of the working to the millisecond; a tick is document 01's grain.
const TICKS: u64 = 8_192;

/// The wait in milliseconds for a cache of this capacity with `c` live entries, `s` of the newcomer's service, and a similarity score of `p`
/// over the number of an address's bits.
#[inline]
pub fn wait(capacity: u64, bits: u64, c: u64, s: u64, p: u64) -> u64 {
    let free = capacity - c;
    if free == 0 {
        return LONGEST;
    }
    // 7,372,800,000 · (s/C + p/bits + 1/10,000,000), both halves divided by 100,000; with 128 bits the top stays below 2^58.
    let top = 73_728 * (10_000_000 * (s * bits + p * capacity) + capacity * bits);
    let mut ticks = top.div_ceil(capacity * bits * 100);
    for _ in 0..10 {
        ticks = (ticks * capacity).div_ceil(free);
        if ticks >= 1 << 53 {
            return LONGEST;
        }
    }
    ticks.div_ceil(TICKS)
}
