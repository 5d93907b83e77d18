//! Messages that `protoc --encode` made, stored by tools/protoc.py: the library writes the same and reads them back.
use std::fs;
use std::path::Path;

use unglassot::{read_message, write_message, Refusal};

fn from_hex(text: &str) -> Vec<u8> {
    let digits = text.as_bytes().chunks(2);
    digits
        .map(|two| u8::from_str_radix(std::str::from_utf8(two).unwrap(), 16).unwrap())
        .collect()
}

#[test]
fn messages_are_protocs() {
    let path = Path::new(env!("CARGO_MANIFEST_DIR")).join("tests/protoc.txt");
    let text = fs::read_to_string(path).unwrap();
    let (mut taken, mut refused) = (0, 0);
    for line in text.lines().filter(|line| !line.starts_with('#')) {
        let words: Vec<&str> = line.split(' ').collect();
        let (epoch, ad, message) = (
            words[0].parse().unwrap(),
            from_hex(words[1]),
            from_hex(words[2]),
        );
        if words.get(3) == Some(&"15") {
            assert_eq!(read_message(&message, epoch), Err(Refusal::Message));
            refused += 1;
        } else {
            assert_eq!(read_message(&message, epoch).unwrap()[..], ad);
            assert_eq!(write_message(&ad, epoch).unwrap().bytes(), message);
            taken += 1;
        }
    }
    assert!(taken >= 60 && refused >= 2, "{taken}, {refused}");
}
