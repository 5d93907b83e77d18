//! Speed of the proved SHA-256 against plain Rust of the same algorithm, in one run.
use std::hint::black_box;
use std::process::ExitCode;

use measure::{compare, in_a_row};

type Hash = fn(&[u8]) -> [u8; 32];

const HASHES: [Hash; 3] = [unglassot::sha256, plain::sha256, best::sha256];

/// Whether all give the same digests, for every length about the block's edges.
fn agree(message: &[u8]) -> bool {
    (0..300).all(|len| {
        let digests = HASHES.map(|hash| hash(&message[len..2 * len]));
        digests.iter().all(|digest| *digest == digests[0])
    })
}

fn main() -> ExitCode {
    let message: Vec<u8> = (0..1u32 << 20)
        .map(|i| (i * 167 + (i >> 8)) as u8)
        .collect();
    if !agree(&message) {
        eprintln!("the functions differ: nothing was measured");
        return ExitCode::FAILURE;
    }
    println!("bytes      proved ns    plain ns     best ns   proved MB/s  to plain   to best");
    for len in [64, 143, 1024, 1 << 20] {
        let message = &message[..len];
        let called = HASHES.map(|hash| {
            let hash = black_box(hash);
            in_a_row(move || {
                black_box(hash(black_box(message)));
            })
        });
        let measured = compare(called);
        let [proved, plain, best] = measured.nanos;
        println!(
            "{len:<9} {proved:>10.1}  {plain:>10.1}  {best:>10.1}  {:>12.1}  {:>8.3}  {:>8.3}",
            len as f64 * 1000.0 / proved,
            measured.ratios[1],
            measured.ratios[2],
        );
    }
    ExitCode::SUCCESS
}
