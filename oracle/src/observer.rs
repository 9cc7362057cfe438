//! 02's 2.6: a board that only listens, here an observer. It keeps its last clock and a hold-back
//! queue, and no counts.

use crate::board::{self, Board, Buffers, Owner};
use crate::fault::{planted, skew};
use crate::limits::Part;
use crate::{ask, holdback, Answer, Limits, Settings, Setup};

/// What an observer's call is given to read.
#[derive(Clone, Copy, Debug)]
pub struct Listening<'a, S = Setup> {
    /// The own number is not looked at: an observer has none.
    pub setup: S,
    /// The new clock v, modulo B.
    pub clock: i64,
    /// 01's bundle.
    pub batch: &'a [u8],
}

/// The clock of an observer's last accepted call, low byte first.
pub type LastClock = [u8; 2];

/// An observer's start: asks 1 without the own number, and 2; its last clock.
pub fn start_last(setup: &Setup, clock: i64) -> Result<LastClock, u8> {
    ask(if planted(68) { setup.is_valid() } else { setup.is_in_limits() }, 1)?;
    let wide = planted(67) && clock > 65_535;
    ask(clock < setup.modulus + skew(69) || wide, 2)?;
    Ok((clock as u16).to_le_bytes())
}

/// One call of an observer, which sends nothing. A refused one changes nothing.
pub fn listen<S: Settings>(
    call: &Listening<S>,
    last: &mut LastClock,
    buffers: &mut Buffers,
) -> Answer {
    let answer = match check(call, buffers) {
        Ok(entries) => accepted(call, &entries, *last, buffers),
        Err(number) => Answer { number, ..Answer::default() },
    };
    if (answer.number == 0 && !planted(34)) || planted(38) {
        *last = (call.clock as u16).to_le_bytes();
    }
    answer
}

/// Checks 1 without the own number, 2, 3, 5, and 6 without the outgoing buffer; then the batch's
/// entries.
fn check<'a, S: Settings>(call: &Listening<'a, S>, buffers: &Buffers) -> Result<Vec<&'a [u8]>, u8> {
    call.setup.check_observer()?;
    let setup = &call.setup.widest();
    holdback::check(setup, call.clock, buffers.holdback)?;
    board::check(setup.holdback_len(), call.batch, buffers)
}

/// An accepted call with this last clock.
fn accepted<S: Settings>(
    call: &Listening<S>,
    entries: &[&[u8]],
    last: LastClock,
    buffers: &mut Buffers,
) -> Answer {
    let limits = call.setup.at(call.clock);
    let step = sound_step(limits.by(Part::Step), last, call.clock);
    let least = holdback::least_due(step, [37, 33]);
    let held = buffers.holdback.to_vec();
    let mut board = Board::open(limits, call.clock, Owner::Observer, least, &held);
    let taken = board.hear_all(entries, buffers.verdicts, |_| ());
    let repair = u8::from(step.is_none()) + board.repair;
    Answer { number: 0, repair, taken, delivered: board.deliver(buffers), outgoing: 0 }
}

/// The step from the last clock to v; none if the last clock is damaged, which is judged as r of
/// tables is.
fn sound_step(setup: &Setup, last: LastClock, v: i64) -> Option<i64> {
    let last = i64::from(u16::from_le_bytes(last));
    let last = if planted(32) { last % setup.modulus } else { last };
    Setup { epsilon: setup.epsilon + skew(35), ..*setup }.sound_step(last, v)
}
