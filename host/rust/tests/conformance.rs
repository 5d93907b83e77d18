//! The stored input and output of the program `conformance`, crates/conformance/stdin and stdout, from the oracle alone.
//!
//! Each line of the output is a call, what it answers, and what its buffers hold afterwards; the input has what the call is given.
//! `WRITE_CONFORMANCE=1 cargo test --test conformance` writes both files.
mod oracle;
mod stored;

use stored::addresses::{self, BITS, CAPACITIES};
use stored::{bounds, calls, logs, messages, newest, openings, small, visits, Line};

const PROGRAM: &str = concat!(env!("CARGO_MANIFEST_DIR"), "/../../crates/conformance");

fn lines() -> Vec<Line> {
    let mut lines = openings::lines();
    lines.extend(visits::lines());
    lines.extend(calls::hashes());
    lines.extend(calls::lines());
    lines.extend(bounds::lines());
    lines.extend(small::lines());
    lines.push(calls::version());
    lines.extend(newest::lines());
    lines.extend(messages::lines());
    lines.extend(addresses::lines());
    lines.extend(logs::lines());
    lines
}

#[test]
fn stored_input_and_output_are_the_oracles() {
    let lines = lines();
    let input: Vec<u8> = lines.iter().flat_map(Line::request).collect();
    let output: String = lines.iter().map(Line::text).collect();
    let (stdin, stdout) = (format!("{PROGRAM}/stdin"), format!("{PROGRAM}/stdout"));
    if std::env::var_os("WRITE_CONFORMANCE").is_some() {
        std::fs::write(&stdin, &input).unwrap();
        std::fs::write(&stdout, &output).unwrap();
    }
    let stored = std::fs::read_to_string(stdout).unwrap();
    for (stored, line) in stored.lines().zip(output.lines()) {
        assert_eq!(stored, line);
    }
    assert_eq!(stored, output);
    assert!(
        std::fs::read(stdin).unwrap() == input,
        "the stored input is another"
    );
}

/// The waits of the address edges by document 01's recipe, worked out by hand with p/128: at most 900,000 of 2^40 at C = 1; of 93, 7,200,093 and more at
/// C = 2; and of 1, 7,103, 447,423, 454,525, 461,627, 901,948 and 909,050 at C = 1,000.
#[test]
fn waits_are_the_recipes() {
    let text: String = addresses::lines().iter().map(Line::text).collect();
    let lines: Vec<&str> = text.lines().filter(|line| line.starts_with("C ")).collect();
    let told = [
        [900_000; 7],
        [93, 900_000, 900_000, 900_000, 900_000, 900_000, 900_000],
        [1, 7_103, 447_423, 454_525, 461_627, 900_000, 900_000],
    ];
    let expected = CAPACITIES.into_iter().zip(told).flat_map(|(c, waits)| {
        let bits = BITS.into_iter().zip(waits);
        let bits = bits.map(move |(bits, wait)| format!("C {c} bits {bits} {wait}"));
        let before = [format!("C {c} first 1"), format!("C {c} return 0")];
        let after = [
            "moves 0",
            "kinds 12 11",
            "listed 1 kind 10",
            "withdraw 0",
            "kinds 12 16",
            "listed 0 kind 0",
        ];
        let after = after.map(|line| format!("C {c} {line}"));
        before.into_iter().chain(bits).chain(after)
    });
    assert_eq!(lines, expected.collect::<Vec<_>>());
}
