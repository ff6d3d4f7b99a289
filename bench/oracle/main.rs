//! Reads a script of calls on standard input and prints the Rust's answers.

use oracle::{silence_panics, Oracle};
use std::io::{self, BufRead, BufWriter, Write};

fn main() -> io::Result<()> {
    silence_panics();
    let mut oracle = Oracle::default();
    let mut output = BufWriter::with_capacity(1 << 16, io::stdout().lock());
    for line in io::stdin().lock().split(b'\n') {
        if let Some(answer) = oracle.answer(&line?) {
            writeln!(output, "{answer}")?;
        }
    }
    output.flush()
}
