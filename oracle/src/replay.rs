//! The replay program: a trace of one node's ticks in, its lines out.

use crate::playing::{Given, Player};
use crate::reading::{check_setup, end, is_at_end, read_counted, read_limits};
use crate::reading::{read_section, read_u16, read_u8, Stop};
use crate::{ask, fault, Setup};
use std::io::{self, Read, Write};

/// The text for a whole trace.
pub fn replay_text(trace: &[u8]) -> String {
    let mut text = Vec::new();
    replay(&mut &trace[..], &mut text).expect("bytes can be read and written");
    String::from_utf8(text).expect("replay writes text")
}

/// Reads a trace as it comes and writes each tick's lines before it reads the next.
pub fn replay(input: &mut impl Read, output: &mut impl Write) -> io::Result<()> {
    end(run(input, output), output)
}

fn run(input: &mut impl Read, output: &mut impl Write) -> Result<(), Stop> {
    let setup = read_setup(input)?;
    check_setup(&setup)?;
    let count = read_u16(input)?;
    let mut node = None;
    for _ in 0..count {
        let (given, heard) = (Given::read(input)?, read_counted(input, read_section)?);
        let node = node.get_or_insert_with(|| Player::fresh_before(setup, given.clock));
        output.write_all(node.play(&given, &heard)?.text.as_bytes())?;
        output.flush()?;
    }
    ask(is_at_end(input)? || fault::planted(10), 5)?;
    Ok(())
}

pub fn read_setup(input: &mut impl Read) -> io::Result<Setup> {
    let limits = read_limits(input)?;
    Ok(Setup { own: read_u8(input)?.into(), ..limits })
}
