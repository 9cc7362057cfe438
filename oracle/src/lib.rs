//! A second program for the group's nodes, written from the paper "Word between the stations"
//! (01), the change requests to it (02) and the decided readings of both. It shares no code with
//! the proved crates, so that the two can be compared. Numbers are signed here, and every reading
//! of a clock is relative to the tick's clock v: 0 is v, 1 is one ahead, −1 one behind.

pub mod abi;
pub mod batch;
pub mod board;
pub mod engine;
pub mod fault;
pub mod figures;
pub mod frame;
pub mod generate;
pub mod holdback;
pub mod ledger;
pub mod limits;
pub mod long;
pub mod node;
pub mod observer;
pub mod playing;
pub mod poll;
pub mod promises;
pub mod reading;
pub mod reason;
pub mod replay;
pub mod setup;
pub mod streaming;
pub mod timestamp;
pub mod trace;
pub mod words;
pub mod yard;
pub mod yard_trace;

pub use board::Buffers;
pub use engine::{long_tick, LongCall};
pub use figures::figures;
pub use frame::{read, read_state, write, write_in, Frame};
pub use limits::{Both, Limits, Pairs, Schedule, Settings};
pub use long::{long_read, long_start, long_write, LongState};
pub use node::{tick, Answer, Call};
pub use observer::{listen, start_last, LastClock, Listening};
pub use poll::{poll, Outlook};
pub use reason::{compare, Reason};
pub use replay::replay;
pub use setup::Setup;
pub use timestamp::{start, ClockState, Timestamp};
pub use words::words;
pub use yard::yard;

/// One of 01's questions: a no gives its number.
pub(crate) fn ask(yes: bool, number: u8) -> Result<(), u8> {
    if yes {
        Ok(())
    } else {
        Err(number)
    }
}

/// A section of bytes after its one-byte count, and what follows it.
pub(crate) fn section(bytes: &[u8]) -> Option<(&[u8], &[u8])> {
    let (&count, rest) = bytes.split_first()?;
    rest.split_at_checked(count.into())
}
