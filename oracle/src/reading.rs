//! What the programs share of reading a trace as it comes.

use crate::{ask, Setup};
use std::io::{self, Read, Write};

/// The longest hold-back queue that a program takes.
const MAX_HOLDBACK: usize = 65_536;

/// Why a program ends early.
pub enum Stop {
    /// A question got a no.
    Refused(u8),
    /// Reading or writing failed.
    Failed(io::Error),
}

impl From<u8> for Stop {
    fn from(number: u8) -> Self {
        Stop::Refused(number)
    }
}

impl From<io::Error> for Stop {
    /// A cut trace gets 5.
    fn from(error: io::Error) -> Self {
        match error.kind() {
            io::ErrorKind::UnexpectedEof => Stop::Refused(5),
            _ => Stop::Failed(error),
        }
    }
}

/// How a program ends: a refusal has a line.
pub fn end(result: Result<(), Stop>, output: &mut impl Write) -> io::Result<()> {
    match result {
        Ok(()) => Ok(()),
        Err(Stop::Failed(error)) => Err(error),
        Err(Stop::Refused(number)) => {
            writeln!(output, "refused {number}")?;
            output.flush()
        }
    }
}

/// Is nothing left over?
pub fn is_at_end(input: &mut impl Read) -> io::Result<bool> {
    match read_u8(input) {
        Err(error) if error.kind() == io::ErrorKind::UnexpectedEof => Ok(true),
        byte => byte.map(|_| false),
    }
}

pub fn read_u8(input: &mut impl Read) -> io::Result<u8> {
    let mut byte = [0];
    input.read_exact(&mut byte)?;
    Ok(byte[0])
}

pub fn read_u16(input: &mut impl Read) -> io::Result<u16> {
    Ok(u16::from_le_bytes([read_u8(input)?, read_u8(input)?]))
}

/// The bytes after their one-byte count.
pub fn read_section(input: &mut impl Read) -> io::Result<Vec<u8>> {
    let mut bytes = vec![0; read_u8(input)?.into()];
    input.read_exact(&mut bytes)?;
    Ok(bytes)
}

/// As many of something as the byte before them says.
pub fn read_counted<I: Read, T>(
    input: &mut I,
    read: impl Fn(&mut I) -> io::Result<T>,
) -> io::Result<Vec<T>> {
    let count = read_u8(input)?;
    (0..count).map(|_| read(input)).collect()
}

/// The limits of a setup, with the own number 0.
pub fn read_limits(input: &mut impl Read) -> io::Result<Setup> {
    Ok(Setup {
        n: read_u8(input)?.into(),
        epsilon: read_u8(input)?.into(),
        delta: read_u8(input)?.into(),
        modulus: read_u16(input)?.into(),
        own: 0,
    })
}

/// Check 1 of a program: is the setup valid, and the queue not too long?
pub fn check_setup(setup: &Setup) -> Result<(), u8> {
    ask(setup.is_valid() && setup.holdback_len() <= MAX_HOLDBACK, 1)
}
