//! 02's 2.9: one tick of an engine, a plain station with long clocks. It holds at most 64 messages in
//! the order heard, and searches all of them for what is due.

use crate::board::{self, has_possible_counts, Buffers};
use crate::fault::{planted, skew};
use crate::holdback::{self, Entry};
use crate::long::{self, LongState, CAPACITY};
use crate::setup::MAX_PAYLOAD;
use crate::timestamp::LocalTimestamp;
use crate::{ask, Answer, Setup, Timestamp};

/// What an engine's tick is given to read.
#[derive(Clone, Copy, Debug)]
pub struct LongCall<'a> {
    /// B is not looked at: an engine has none.
    pub setup: Setup,
    /// The new clock v.
    pub clock: u64,
    /// 01's bundle.
    pub batch: &'a [u8],
    /// Is the payload to be sent?
    pub send: bool,
    /// 01's ticket.
    pub payload: &'a [u8],
}

/// One tick of an engine. A refused call changes nothing.
pub fn long_tick(
    call: &LongCall,
    state: &mut LongState,
    outgoing: &mut [u8],
    buffers: &mut Buffers,
) -> Answer {
    match check(call, outgoing, buffers) {
        Ok((v, entries)) => accepted(call, v, &entries, state, outgoing, buffers),
        Err(number) => Answer { number, ..Answer::default() },
    }
}

/// Checks 1 to 6; then the clock as a signed number and the batch's entries.
fn check<'a>(
    call: &LongCall<'a>,
    outgoing: &[u8],
    buffers: &Buffers,
) -> Result<(i64, Vec<&'a [u8]>), u8> {
    let setup = &call.setup;
    ask(long::is_valid(setup), 1)?;
    let clock = call.clock - u64::from(planted(52) && call.clock == 1 << 63);
    let v = i64::try_from(clock).map_err(|_| 2)?;
    ask(buffers.holdback.len() == long::holdback_len(setup), 3)?;
    ask(call.payload.len() <= MAX_PAYLOAD, 4)?;
    let entries = board::check(long::holdback_len(setup), call.batch, buffers)?;
    ask(outgoing.len() >= long::longest_frame(setup), 6)?;
    Ok((v, entries))
}

/// The steps of an accepted call.
fn accepted(
    call: &LongCall,
    v: i64,
    entries: &[&[u8]],
    state: &mut LongState,
    outgoing: &mut [u8],
    buffers: &mut Buffers,
) -> Answer {
    let (setup, before) = (&call.setup, *state);
    let tables = long::of_state(setup, &before);
    let step = sound_step(setup, &tables, v);
    let mut local =
        step.map_or_else(LocalTimestamp::blank, |k| LocalTimestamp::step(setup, &tables, k));
    let given = buffers.holdback.to_vec();
    let found = decode(setup, v, holdback::least_due(step, [59, 60]), &given);
    let repair = u8::from(step.is_none()) + 2 * u8::from(found.is_none());
    let mut held = found.unwrap_or_default();
    let already = held.len();
    for (bytes, verdict) in entries.iter().zip(&mut *buffers.verdicts) {
        *verdict = hear(setup, v, &mut held, bytes);
        if *verdict == 0 {
            let entry = held.last().expect("the one that was taken");
            local.absorb(setup, entry.ahead, &entry.frame.timestamp);
        }
    }
    let taken = (held.len() - already) as u8;
    local.count_event(setup);
    let timestamp = local.timestamp(setup, v);
    *state = long::to_state(&timestamp);
    let sent = match call.send {
        true => long::put(setup.own, &timestamp, call.payload, outgoing) as u8,
        false => 0,
    };
    Answer { number: 0, repair, taken, delivered: deliver(setup, held, buffers), outgoing: sent }
}

/// The step from the tables to v, from 1 to ε; none if they are unsound for v.
pub fn sound_step(setup: &Setup, tables: &Timestamp, v: i64) -> Option<i64> {
    let steps = 1..=setup.epsilon + skew(61);
    let step = (tables.r >= 0).then(|| v - tables.r).filter(|step| steps.contains(step));
    step.filter(|_| tables.are_sound_tables(setup))
}

/// The queue that the bytes hold, in the order heard; none if it is unsound for v, with no due clock
/// below the least, which is relative to v.
pub fn decode<'a>(setup: &Setup, v: i64, least: i64, bytes: &'a [u8]) -> Option<Vec<Entry<'a>>> {
    let count = usize::from(holdback::count(bytes));
    if count > CAPACITY + skew(50) as usize {
        return None;
    }
    let mut held: Vec<Entry> = Vec::with_capacity(count);
    let mut rest = &bytes[2..];
    for _ in 0..count {
        let (frame, after) = long::split(setup, rest)?;
        long::check_origin(setup, frame.node, &frame.timestamp).ok()?;
        let entry = at(setup, v, frame);
        let in_time = entry.sum < setup.epsilon && entry.due(setup) >= least;
        let in_order = held.last().is_none_or(|last| last.order(&entry).is_lt());
        if !in_time || is_among(&held, &entry) || planted(56) && !in_order {
            return None;
        }
        held.push(entry);
        rest = after;
    }
    Some(held)
}

/// A frame with its r placed relative to v.
fn at<'a>(setup: &Setup, v: i64, frame: crate::Frame<'a>) -> Entry<'a> {
    let ahead = frame.timestamp.r.saturating_sub(v);
    let behind = planted(58) && ahead >= setup.epsilon;
    Entry::at(setup, if behind { -ahead - setup.delta } else { ahead }, frame)
}

/// Is a frame of that node and r held?
fn is_among(held: &[Entry], entry: &Entry) -> bool {
    held.iter().any(|other| (other.frame.node, other.ahead) == (entry.frame.node, entry.ahead))
}

/// Judges one frame and holds it if it is taken: 0, or the number.
fn hear<'a>(setup: &Setup, v: i64, held: &mut Vec<Entry<'a>>, bytes: &'a [u8]) -> u8 {
    let entry = match judge(setup, v, held, bytes) {
        Ok(entry) => entry,
        Err(number) => return number,
    };
    held.push(entry);
    0
}

/// Checks 10 to 16 and 18 of one frame.
fn judge<'a>(setup: &Setup, v: i64, held: &[Entry], bytes: &'a [u8]) -> Result<Entry<'a>, u8> {
    let entry = at(setup, v, long::parse(setup, bytes)?);
    ask(-entry.ahead <= setup.delta + setup.epsilon, 13)?;
    ask(entry.sum < setup.epsilon, 14)?;
    ask(has_possible_counts(setup, &entry), 15)?;
    let counted = held.iter().filter(|other| !planted(55) || other.due(setup) >= 0).count();
    let has_room = counted < CAPACITY + skew(49) as usize;
    if planted(48) {
        ask(has_room, 18)?;
    }
    ask(!is_among(held, &entry), 16)?;
    ask(has_room, 18)?;
    Ok(entry)
}

/// Writes what is due at v or before, in order, to the delivery, and the rest, in the order heard, back
/// to the queue; how many are delivered.
fn deliver(setup: &Setup, held: Vec<Entry>, buffers: &mut Buffers) -> u16 {
    let (mut due, mut rest): (Vec<_>, Vec<_>) =
        held.into_iter().partition(|entry| entry.due(setup) <= 0);
    if !planted(54) {
        due.sort_by(Entry::order);
    }
    if planted(57) {
        rest.sort_by(Entry::order);
    }
    holdback::put(&due, buffers.delivery);
    let used = holdback::put(&rest, buffers.holdback);
    buffers.holdback[used + skew(63) as usize..].fill(0);
    due.len() as u16
}
