//! Replays a trace: standard input to standard output, as 01's `replay`.

use std::io::{self, BufWriter};

fn main() -> io::Result<()> {
    oracle::replay(&mut io::stdin().lock(), &mut BufWriter::new(io::stdout().lock()))
}
