//! Answers each line with `ok` before it takes the next, and executes none: what reading lines and writing replies takes alone.

use std::io::{self, BufRead, BufReader, Write};

fn main() -> io::Result<()> {
    let mut input = BufReader::with_capacity(1 << 16, io::stdin().lock());
    // Standard output sends what it has at each newline.
    let mut output = io::stdout().lock();
    let mut line = Vec::new();
    while input.read_until(b'\n', &mut line)? > 0 {
        output.write_all(b"ok\n")?;
        line.clear();
    }
    Ok(())
}
