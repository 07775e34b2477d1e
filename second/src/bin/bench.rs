//! The bench program: lines from standard input, one answer line for each.

use second::bench::Bench;
use std::io::{self, BufRead, Write};

fn main() -> io::Result<()> {
    let mut bench = Bench::new();
    let mut out = io::stdout().lock();
    for line in io::stdin().lock().split(b'\n') {
        writeln!(out, "{}", bench.line(&line?))?;
    }
    Ok(())
}
