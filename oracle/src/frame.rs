//! Frames: the reader and the writer.

use crate::fault::{planted, skew};
use crate::limits::Part;
use crate::setup::MAX_PAYLOAD;
use crate::{ask, section, Both, ClockState, Limits, Pairs, Settings, Setup, Timestamp};

/// A frame whose three counts are right.
#[derive(Clone, Copy, Debug, PartialEq, Eq)]
pub struct Frame<'a> {
    /// The sender (01's station).
    pub node: i64,
    /// The timestamp it carries.
    pub timestamp: Timestamp<'a>,
    /// 01's ticket, as the very bytes of the frame.
    pub payload: &'a [u8],
    /// The whole frame.
    pub bytes: &'a [u8],
}

impl<'a> Frame<'a> {
    /// The frame at the front of some bytes, ending where its counts say, and what follows.
    pub fn split(pairs: &impl Pairs, bytes: &'a [u8]) -> Option<(Self, &'a [u8])> {
        Self::split_by(pairs, origin, bytes)
    }

    /// The same, with what reads the first section: the sender and r, if it has the right length.
    pub fn split_by(
        pairs: &impl Pairs,
        origin: fn(&[u8]) -> Option<(u8, i64)>,
        bytes: &'a [u8],
    ) -> Option<(Self, &'a [u8])> {
        let (first, rest) = section(bytes)?;
        let (clocks, rest) = section(rest)?;
        let (payload, rest) = section(rest)?;
        let (node, r) = origin(first)?;
        let (&c, kn) = clocks.split_first()?;
        if !pairs.has_width(kn.len()) || payload.len() > MAX_PAYLOAD {
            return None;
        }
        let timestamp = Timestamp { r, c: c.into(), kn };
        let bytes = &bytes[..bytes.len() - rest.len()];
        let payload = &bytes[bytes.len() - payload.len() - skew(11) as usize..];
        Some((Frame { node: node.into(), timestamp, payload, bytes }, rest))
    }

    /// Check 10 of bytes that should be one frame.
    fn whole(pairs: &impl Pairs, bytes: &'a [u8]) -> Result<Self, u8> {
        let (frame, rest) = Self::split(pairs, bytes).ok_or(10)?;
        ask(rest.is_empty(), 10)?;
        Ok(frame)
    }

    /// Checks 10 to 12 of bytes that should be one frame.
    pub fn parse(limits: &impl Limits, bytes: &'a [u8]) -> Result<Self, u8> {
        let frame = Self::whole(limits, bytes)?;
        check_origin(limits.by(Part::C), frame.node, &frame.timestamp)?;
        Ok(frame)
    }
}

/// A first section: the sender, and r in two bytes.
fn origin(section: &[u8]) -> Option<(u8, i64)> {
    let &[node, low, high] = section else {
        return None;
    };
    Some((node, u16::from_le_bytes([low, high]).into()))
}

/// Checks 11 and 12. How many counts the timestamp has does not matter: those that it lacks are 0.
pub fn check_origin(setup: &Setup, node: i64, timestamp: &Timestamp) -> Result<(), u8> {
    ask(node < setup.n && timestamp.r < setup.modulus, 11)?;
    ask(timestamp.is_sound(setup), 12)
}

/// The reader alone: asks 1, 10, 11, and 12 by the frame's width.
pub fn read<'a, S: Settings>(setup: &S, bytes: &'a [u8]) -> Result<Frame<'a>, u8> {
    setup.check()?;
    let frame = Frame::whole(setup, bytes)?;
    let width = frame.timestamp.kn.len();
    ask(!planted(174) || width == setup.side().width(), 10)?;
    let judging = if planted(113) { setup.side() } else { setup.of_width(width) };
    check_origin(&judging, frame.node, &frame.timestamp)?;
    Ok(frame)
}

/// The writer alone: asks 1, 4, 11, 12, 6, and answers the frame's length.
pub fn write(
    setup: &Setup,
    node: i64,
    state: &ClockState,
    payload: &[u8],
    out: &mut [u8],
) -> Result<usize, u8> {
    ask(setup.is_valid(), 1)?;
    write_by(setup, setup, node, state, payload, out)
}

/// The writer of a setup with both pairs, which makes a wide frame or a narrow one, and judges 12 by
/// that.
pub fn write_in(
    setup: &Both,
    node: i64,
    wide: bool,
    state: &ClockState,
    payload: &[u8],
    out: &mut [u8],
) -> Result<usize, u8> {
    setup.check()?;
    let wide = if planted(116) { setup.is_marked() } else { wide };
    let pair = if wide { setup.wider() } else { setup.old };
    let judging = if planted(114) { setup.side() } else { pair };
    let mut moved = *state;
    if planted(173) {
        moved[3..].rotate_left(setup.wider().width() / 2 - pair.width() / 2);
    }
    write_by(&pair, &judging, node, &moved, payload, out)
}

/// What the reader of a setup with both pairs leaves in the tables: the frame's counts from place 3 on,
/// zeros behind them, whatever its width.
pub fn read_state(setup: &Both, frame: &Frame) -> ClockState {
    let mut state = frame.timestamp.to_state();
    if planted(172) {
        let half = frame.timestamp.kn.len() / 2;
        state[3..].rotate_right(setup.wider().width() / 2 - half);
    }
    state
}

/// The writer behind 1, of a frame with the first's width, 12 by the second.
fn write_by(
    setup: &Setup,
    judging: &Setup,
    node: i64,
    state: &ClockState,
    payload: &[u8],
    out: &mut [u8],
) -> Result<usize, u8> {
    ask(payload.len() <= MAX_PAYLOAD, 4)?;
    let timestamp = Timestamp::of_state(setup, state);
    check_origin(judging, node, &timestamp)?;
    let length = 7 + setup.width() + payload.len();
    ask(out.len() >= length + skew(1) as usize, 6)?;
    Ok(put(node, &timestamp, payload, out))
}

/// Lays down a frame and answers its length.
pub fn put(node: i64, timestamp: &Timestamp, payload: &[u8], out: &mut [u8]) -> usize {
    let [low, high] = (timestamp.r as u16).to_le_bytes();
    lay(&[node as u8, low, high], timestamp, payload, out)
}

/// Lays down the three sections, each after its count, and answers the frame's length.
pub fn lay(origin: &[u8], timestamp: &Timestamp, payload: &[u8], out: &mut [u8]) -> usize {
    let clocks = [1 + timestamp.kn.len() as u8, timestamp.c as u8];
    let (first, last) = ([origin.len() as u8], [payload.len() as u8]);
    let mut at = 0;
    for part in [&first, origin, &clocks, timestamp.kn, &last, payload] {
        out[at..at + part.len()].copy_from_slice(part);
        at += part.len();
    }
    at
}
