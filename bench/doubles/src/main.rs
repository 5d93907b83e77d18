//! Plain Rust that prints what the proved program `doubles` prints: the lines of its standard input's records.
use std::io::{self, Read, Write};

use plain::doubles::{compare, RECORD};

/// Bytes to a read.
const BLOCK: usize = 65_536;

fn main() -> io::Result<()> {
    let (mut input, mut output) = (io::stdin().lock(), io::stdout().lock());
    let mut block = vec![0; BLOCK + RECORD];
    let mut out = Vec::with_capacity(BLOCK);
    let (mut have, mut lines) = (0, 0);
    loop {
        let read = input.read(&mut block[have..have + BLOCK])?;
        if read == 0 {
            break;
        }
        have += read;
        out.clear();
        let (used, unknown) = compare(&block[..have], &mut lines, &mut out);
        output.write_all(&out)?;
        if unknown {
            return output.write_all(b"STOP\n");
        }
        block.copy_within(used..have, 0);
        have -= used;
    }
    if have > 0 {
        output.write_all(b"STOP\n")?;
    }
    Ok(())
}
