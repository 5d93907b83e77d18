//! The short logs of crates/conformance/CASES.md, each under its number and name. The words of an input are fed as pieces of their own, from the fifth on
//! as one.
use super::{Call, Given, Line};
use crate::oracle::log;
use std::collections::HashMap;

const CASES: &str = concat!(
    env!("CARGO_MANIFEST_DIR"),
    "/../../crates/conformance/CASES.md"
);

type Runs = HashMap<String, Vec<u8>>;

fn bytes_of(digits: &str) -> Vec<u8> {
    let places = (0..digits.len()).step_by(2);
    places
        .map(|at| u8::from_str_radix(&digits[at..at + 2], 16).unwrap())
        .collect()
}

/// A named run, `NAME[:n]` its first n bytes, hex digits, or `HEX*n`.
fn word(word: &str, runs: &Runs) -> Vec<u8> {
    if word.starts_with(|first: char| first.is_ascii_uppercase()) {
        let (name, end) = word.split_once("[:").unwrap_or((word, ""));
        let run = &runs[name];
        let end = end.strip_suffix(']').map(|end| end.parse().unwrap());
        return run[..end.unwrap_or(run.len())].to_vec();
    }
    let (digits, times) = word.split_once('*').unwrap_or((word, "1"));
    bytes_of(digits).repeat(times.parse().unwrap())
}

fn pieces(words: &str, runs: &Runs) -> Vec<Vec<u8>> {
    let words = words.trim_matches('`').split_whitespace();
    let pieces: Vec<Vec<u8>> = words.map(|it| word(it, runs)).collect();
    let (own, rest) = pieces.split_at(pieces.len().min(4));
    own.iter().cloned().chain([rest.concat()]).collect()
}

/// The rows of a case: its number, its name, its input and its lines.
fn line([number, name, input, told]: [&str; 4], runs: &Runs) -> Line {
    let parts = pieces(input, runs);
    let lines = log::run(&parts.concat());
    assert_eq!(told.trim_matches('`'), lines.join(" / "), "case {number}");
    Line {
        label: format!("{number} {name}\n"),
        said: lines.join("\n"),
        given: Given {
            call: Call::Log,
            parts,
            ..Given::default()
        },
    }
}

pub fn lines() -> Vec<Line> {
    let (mut runs, mut lines) = (Runs::new(), Vec::new());
    for row in std::fs::read_to_string(CASES).unwrap().lines() {
        let cells: Vec<&str> = row.split('|').map(str::trim).collect();
        match cells[..] {
            ["", name, bytes, length, ""] if name != "run" && !name.starts_with('-') => {
                let run = pieces(bytes, &runs).concat();
                assert_eq!(run.len().to_string(), length, "run {name}");
                runs.insert(name.to_string(), run);
            }
            ["", number, name, input, told, ""] if number.parse::<u32>().is_ok() => {
                lines.push(line([number, name, input, told], &runs));
            }
            _ => {}
        }
    }
    assert!(!lines.is_empty());
    lines
}
