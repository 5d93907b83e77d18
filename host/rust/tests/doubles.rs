//! The stored output of the program `doubles`, crates/doubles/stdout, and where its waits lie, from the oracle alone.
mod oracle;

use oracle::doubles::{compared, factor, wait};
use oracle::wait::Load;

const STORED: &str = concat!(env!("CARGO_MANIFEST_DIR"), "/../../crates/doubles");

#[test]
fn stored_lines() {
    let input = std::fs::read(format!("{STORED}/stdin")).unwrap();
    let output = std::fs::read_to_string(format!("{STORED}/stdout")).unwrap();
    assert_eq!(compared(&input), output);
}

/// Every byte at which an input can be cut, and every byte that can stand where a record begins.
#[test]
fn cut_and_unknown_records() {
    let input = std::fs::read(format!("{STORED}/stdin")).unwrap();
    let two = compared(&input[..32]);
    assert_eq!(two, "1 SAME 0 1\n2 SAME 0 28126\n");
    for end in 0..=32 {
        let lines: String = two.split_inclusive('\n').take(end / 16).collect();
        let stop = if end % 16 == 0 { "" } else { "STOP\n" };
        assert_eq!(compared(&input[..end]), lines + stop, "{end}");
    }
    for byte in (0..=255).filter(|&byte| byte != 15) {
        let first = [&[byte], &input[1..32]].concat();
        assert_eq!(compared(&first), "STOP\n", "{byte}");
    }
}

/// Over every capacity and occupancy, the ends of s and p: nothing overflows, nothing is 0 or signed, and on an empty registrar f is 1.0.
#[test]
fn waits_lie_between_the_ends() {
    let load = |capacity, c, s, p| Load {
        capacity,
        c,
        s,
        p,
        bits: 32,
    };
    let shortest = wait(&load(1, 0, 0, 0));
    let longest = wait(&load(1000, 999, 999, 32));
    assert!((0.08..0.1).contains(&shortest) && (1.799e36..1.8e36).contains(&longest));
    for capacity in 1..=1000 {
        assert_eq!(factor(&load(capacity, 0, 0, 0)), 1.0);
        for c in 0..capacity {
            assert!((1.0..1e30).contains(&factor(&load(capacity, c, 0, 0))));
            for (s, p) in [(0, 0), (c, 0), (0, 32), (c, 32)] {
                let wait = wait(&load(capacity, c, s, p));
                assert!(
                    (shortest..=longest).contains(&wait),
                    "{capacity} {c} {s} {p}"
                );
            }
        }
    }
}
