//! 02's 2.9: long clocks, of 64 bits and never reduced. Tables and frames of an engine, its reader
//! and its writer. A number of eight bytes is read as a signed one, so that 2^63 and what is above
//! it are the negative ones.

use crate::fault::{planted, skew};
use crate::setup::MAX_PAYLOAD;
use crate::timestamp::{LocalTimestamp, MAX_WIDTH};
use crate::{ask, frame, Frame, Setup, Timestamp};

/// How many messages an engine may hold.
pub const CAPACITY: usize = 64;

/// An engine's tables as bytes: r in eight, low byte first, c, 32 places for counts.
pub type LongState = [u8; 9 + MAX_WIDTH];

/// Check 1, which no B is part of.
pub fn is_valid(setup: &Setup) -> bool {
    setup.has_limits() && setup.is_member()
}

/// The length of the longest frame.
pub fn longest_frame(setup: &Setup) -> usize {
    setup.longest_frame() + 6
}

/// The exact length of the hold-back queue's buffer.
pub fn holdback_len(setup: &Setup) -> usize {
    2 + CAPACITY * longest_frame(setup)
}

/// An engine's start: asks 1 and 2; fresh tables at a clock.
pub fn long_start(setup: &Setup, clock: u64) -> Result<LongState, u8> {
    ask(is_valid(setup) && (!planted(66) || setup.is_in_limits()), 1)?;
    let first_past = i64::MIN as u64 + skew(64) as u64;
    ask(clock < first_past, 2)?;
    Ok(fresh_tables(setup, clock))
}

/// Fresh tables of an engine at a clock.
pub fn fresh_tables(setup: &Setup, clock: u64) -> LongState {
    let mut local = LocalTimestamp::blank();
    local.count_event(&Setup { epsilon: setup.epsilon - skew(65), ..*setup });
    to_state(&local.timestamp(setup, clock as i64))
}

/// The timestamp that the bytes of an engine hold.
pub fn of_state<'a>(setup: &Setup, state: &'a LongState) -> Timestamp<'a> {
    let (r, rest) = state.split_at(8);
    Timestamp { r: number(r), c: rest[0].into(), kn: &rest[1..1 + setup.width()] }
}

/// A timestamp as the bytes of an engine, 0 past the counts.
pub fn to_state(timestamp: &Timestamp) -> LongState {
    let mut state = [0; 9 + MAX_WIDTH];
    state[..8].copy_from_slice(&timestamp.r.to_le_bytes());
    state[8] = timestamp.c as u8;
    state[9..9 + timestamp.kn.len()].copy_from_slice(timestamp.kn);
    state
}

/// A number in eight bytes, low byte first.
fn number(bytes: &[u8]) -> i64 {
    i64::from_le_bytes(bytes.try_into().expect("eight bytes"))
}

/// A frame's first section: the sender, and r in eight bytes.
fn origin(section: &[u8]) -> Option<(u8, i64)> {
    match section {
        [node, r @ ..] if r.len() == 8 => {
            Some((*node, if planted(53) { number(r).swap_bytes() } else { number(r) }))
        }
        _ => None,
    }
}

/// The frame at the front of some bytes, ending where its counts say, and what follows.
pub fn split<'a>(setup: &Setup, bytes: &'a [u8]) -> Option<(Frame<'a>, &'a [u8])> {
    Frame::split_by(setup, origin, bytes)
}

/// Checks 10 to 12 of bytes that should be one frame.
pub fn parse<'a>(setup: &Setup, bytes: &'a [u8]) -> Result<Frame<'a>, u8> {
    let (frame, rest) = split(setup, bytes).ok_or(10)?;
    ask(rest.is_empty(), 10)?;
    check_origin(setup, frame.node, &frame.timestamp)?;
    Ok(frame)
}

/// Checks 11 and 12.
pub fn check_origin(setup: &Setup, node: i64, timestamp: &Timestamp) -> Result<(), u8> {
    let below = timestamp.r >= 0 || planted(51) && timestamp.r == i64::MIN;
    ask(node < setup.n && below, 11)?;
    ask(timestamp.is_sound(setup), 12)
}

/// The reader alone: asks 1, 10, 11, 12.
pub fn long_read<'a>(setup: &Setup, bytes: &'a [u8]) -> Result<Frame<'a>, u8> {
    ask(is_valid(setup), 1)?;
    parse(setup, bytes)
}

/// The writer alone: asks 1, 4, 11, 12, 6, and answers the frame's length.
pub fn long_write(
    setup: &Setup,
    node: i64,
    state: &LongState,
    payload: &[u8],
    out: &mut [u8],
) -> Result<usize, u8> {
    ask(is_valid(setup), 1)?;
    ask(payload.len() <= MAX_PAYLOAD, 4)?;
    let timestamp = of_state(setup, state);
    check_origin(setup, node, &timestamp)?;
    let length = 13 + setup.width() + payload.len();
    ask(out.len() >= length + skew(62) as usize, 6)?;
    Ok(put(node, &timestamp, payload, out))
}

/// Lays down a frame and answers its length.
pub fn put(node: i64, timestamp: &Timestamp, payload: &[u8], out: &mut [u8]) -> usize {
    let mut origin = [node as u8; 9];
    let r = if planted(53) { timestamp.r.swap_bytes() } else { timestamp.r };
    origin[1..].copy_from_slice(&r.to_le_bytes());
    frame::lay(&origin, timestamp, payload, out)
}
