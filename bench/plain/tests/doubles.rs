//! Plain Rust's comparison of a simulator's waits against the stored lines of the program `doubles`, whole and in pieces.
use plain::doubles::compare;

const STORED: &str = concat!(env!("CARGO_MANIFEST_DIR"), "/../../crates/doubles");

/// The lines of an input that comes in pieces of this many bytes.
fn printed(input: &[u8], piece: usize) -> Vec<u8> {
    let (mut rest, mut out, mut lines) = (Vec::new(), Vec::new(), 0);
    let mut unknown = false;
    for piece in input.chunks(piece) {
        rest.extend_from_slice(piece);
        let used;
        (used, unknown) = compare(&rest, &mut lines, &mut out);
        rest.drain(..used);
        if unknown {
            break;
        }
    }
    if unknown || !rest.is_empty() {
        out.extend_from_slice(b"STOP\n");
    }
    out
}

#[test]
fn stored_lines() {
    let input = std::fs::read(format!("{STORED}/stdin")).unwrap();
    let output = std::fs::read(format!("{STORED}/stdout")).unwrap();
    for piece in [input.len(), 1, 15, 16, 17, 1000] {
        assert!(printed(&input, piece) == output, "{piece}");
    }
    assert_eq!(printed(b"", 1), b"");
    assert_eq!(
        printed(&input[..33], 7),
        b"1 SAME 0 1\n2 SAME 0 28126\nSTOP\n"
    );
}
