//! One node's tick.

use crate::board::{self, Board, Buffers, Owner};
use crate::fault::{planted, skew};
use crate::limits::Part;
use crate::setup::MAX_PAYLOAD;
use crate::timestamp::LocalTimestamp;
use crate::{ask, frame, holdback, ClockState, Limits, Settings, Setup, Timestamp};

/// What a tick is given to read.
#[derive(Clone, Copy, Debug)]
pub struct Call<'a, S = Setup> {
    pub setup: S,
    /// The new clock v, modulo B.
    pub clock: i64,
    /// 01's bundle.
    pub batch: &'a [u8],
    /// Is the payload to be sent?
    pub send: bool,
    /// 01's ticket.
    pub payload: &'a [u8],
}

/// The answer of a tick, and of an observer's call. All but the number is 0 in a refusal.
#[derive(Clone, Copy, Debug, Default, PartialEq, Eq)]
pub struct Answer {
    /// 0, or the number of the question that got a no.
    pub number: u8,
    /// 01's mend: 1 for the clock state, 2 for the hold-back queue, 3 for both.
    pub repair: u8,
    /// How many frames were taken.
    pub taken: u8,
    /// How many frames were delivered (01: handed out).
    pub delivered: u16,
    /// The length of the outgoing frame, 0 if none.
    pub outgoing: u8,
}

/// One tick, which may write an outgoing frame. A refused call changes nothing.
pub fn tick<S: Settings>(
    call: &Call<S>,
    state: &mut ClockState,
    outgoing: &mut [u8],
    buffers: &mut Buffers,
) -> Answer {
    match check(call, outgoing, buffers) {
        Ok(entries) => accepted(call, &entries, state, outgoing, buffers),
        Err(number) => Answer { number, ..Answer::default() },
    }
}

/// Checks 1 to 6; then the batch's entries.
fn check<'a, S: Settings>(
    call: &Call<'a, S>,
    outgoing: &[u8],
    buffers: &Buffers,
) -> Result<Vec<&'a [u8]>, u8> {
    call.setup.check()?;
    let setup = &call.setup.widest();
    holdback::check(setup, call.clock, buffers.holdback)?;
    ask(call.payload.len() <= MAX_PAYLOAD, 4)?;
    let entries = board::check(setup.holdback_len(), call.batch, buffers)?;
    ask(outgoing.len() >= setup.longest_frame(), 6)?;
    Ok(entries)
}

/// The six steps of an accepted call.
fn accepted<S: Settings>(
    call: &Call<S>,
    entries: &[&[u8]],
    state: &mut ClockState,
    outgoing: &mut [u8],
    buffers: &mut Buffers,
) -> Answer {
    let limits = call.setup.at(call.clock);
    let setup = limits.own();
    let (mut local, state_repair, least) = enter(&limits, call.clock, state);
    let held = buffers.holdback.to_vec();
    let mut board = Board::open(limits, call.clock, Owner::Node, least, &held);
    let taken = board.hear_all(entries, buffers.verdicts, |entry| {
        local.absorb(setup, entry.ahead, &entry.frame.timestamp);
    });
    local.count_event(setup);
    *state = local.to_state(setup, call.clock);
    let outgoing = if call.send { send(&limits, state, call.payload, outgoing) } else { 0 };
    let repair = state_repair + board.repair;
    Answer { number: 0, repair, taken, delivered: board.deliver(buffers), outgoing }
}

/// Steps 1 and 2 for the clock state: the local timestamp at v, the repair, and the least due
/// clock of a sound queue, relative to v.
fn enter(limits: &impl Limits, v: i64, state: &ClockState) -> (LocalTimestamp, u8, i64) {
    let before = tables(limits, v, state);
    let mut step = before.sound_step(limits.by(Part::Step), v);
    if planted(124) && limits.is_narrow(before.kn.len()) {
        step = None;
    }
    let local = step.map(|step| LocalTimestamp::step(limits.own(), &before, step));
    let repair = u8::from(step.is_none());
    let least = holdback::least_due(step, [14, 17]);
    (local.unwrap_or_else(LocalTimestamp::blank), repair, least)
}

/// The tables at a new clock v. "Tables are narrow if their r is before V" (02, 2.10).
pub fn tables<'a>(limits: &impl Limits, v: i64, state: &'a ClockState) -> Timestamp<'a> {
    let r = i64::from(u16::from_le_bytes([state[0], state[1]]));
    let clock = -limits.own().step(r, v) - skew(94);
    Timestamp::of_state(limits.of(if planted(93) { 0 } else { clock }), state)
}

/// Step 5: the frame that carries the new timestamp; its length. "Stations before V write narrow
/// frames, later ones wide": it has as many counts as the tables.
fn send(limits: &impl Limits, state: &ClockState, payload: &[u8], outgoing: &mut [u8]) -> u8 {
    let own = limits.own().own;
    let timestamp = Timestamp::of_state(limits.own(), state);
    let other = match () {
        () if planted(100) => limits.pairs()[0].epsilon,
        () if planted(101) => limits.pairs()[1].epsilon,
        () => return frame::put(own, &timestamp, payload, outgoing) as u8,
    };
    let kn: Vec<u8> = (-other..other).map(|offset| timestamp.count(offset)).collect();
    frame::put(own, &Timestamp { kn: &kn, ..timestamp }, payload, outgoing) as u8
}
