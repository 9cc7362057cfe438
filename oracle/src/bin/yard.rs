//! Rehearses a trace of all stations: standard input to standard output, as 02's `yard`.

use std::io::{self, BufWriter};

fn main() -> io::Result<()> {
    oracle::yard(&mut io::stdin().lock(), &mut BufWriter::new(io::stdout().lock()))
}
