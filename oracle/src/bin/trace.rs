//! Writes a trace from its text form: standard input to standard output.
//!
//! One item a line; `#` starts a comment; bytes are hexadecimal, `-` for none. A trace for `replay`:
//!
//! ```text
//! setup N EPSILON DELTA B OWN           first, once
//! tick CLOCK                            starts a tick; it sends nothing by itself
//! send TICKET                           this tick sends the ticket
//! keep TICKET                           this tick has the ticket and does not send it
//! frame STATION R C COUNTS TICKET       a bundle entry; counts with commas, from offset −ε
//! raw BYTES                             a bundle entry of any bytes
//! ticks COUNT                           writes this count of ticks, for a bad trace
//! tail BYTES                            bytes after the last tick, for a bad trace
//! ```
//!
//! A trace for `yard`:
//!
//! ```text
//! yard N EPSILON DELTA B                first, once
//! step STATION CLOCK                    a step; behind it, on the same line, any of
//!      send TICKET                        it sends the ticket
//!      keep TICKET                        it has the ticket and does not send it
//!      hears STEPS                        it hears the frames of these steps; with commas, from 1
//! steps COUNT                           writes this count of steps, for a bad trace
//! tail BYTES                            bytes after the last step, for a bad trace
//! ```

use oracle::trace::bytes_of_text;
use std::io::{self, Read, Write};
use std::process::ExitCode;

fn main() -> io::Result<ExitCode> {
    let mut text = String::new();
    io::stdin().read_to_string(&mut text)?;
    match bytes_of_text(&text) {
        Ok(bytes) => {
            io::stdout().write_all(&bytes)?;
            Ok(ExitCode::SUCCESS)
        }
        Err(error) => {
            eprintln!("trace: {error}");
            Ok(ExitCode::FAILURE)
        }
    }
}
