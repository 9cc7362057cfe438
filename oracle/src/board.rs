//! What a board does in a call, a node's or an observer's: the queue is opened, frames are judged
//! and placed, and what is due is delivered.

use crate::fault::{planted, skew};
use crate::holdback::{self, Entry, Holdback};
use crate::limits::Part;
use crate::setup::VERDICTS;
use crate::timestamp::{all_at_most, misplaced};
use crate::{ask, batch, Frame, Limits, Setup};

/// What a call may write for its board.
#[derive(Debug)]
pub struct Buffers<'b> {
    /// 01's shelf.
    pub holdback: &'b mut [u8],
    /// A byte for each frame of the batch: 0 or the number.
    pub verdicts: &'b mut [u8],
    /// 01's hand-out.
    pub delivery: &'b mut [u8],
}

/// Whose board it is. An observer does not ask 15.
#[derive(Clone, Copy, Debug, PartialEq, Eq)]
pub enum Owner {
    Node,
    Observer,
}

/// 01's verdict on one frame.
#[derive(Clone, Copy, Debug, PartialEq, Eq)]
pub enum Verdict {
    /// Taken, with its place in the hold-back queue.
    Taken(usize),
    /// Refused, with the number.
    Refused(u8),
}

/// A board during an accepted call.
pub struct Board<'a, L: Limits> {
    limits: L,
    /// The new clock v, modulo B.
    clock: i64,
    owner: Owner,
    /// 01's mend of the queue: 2 if it was unsound and is emptied, otherwise 0.
    pub repair: u8,
    /// What was due before v and has left the queue.
    early: Vec<Entry<'a>>,
    holdback: Holdback<'a>,
}

/// Checks 5 and 6, that of the outgoing buffer aside, with the queue's length; then the batch's
/// entries.
pub fn check<'a>(
    holdback_len: usize,
    batch: &'a [u8],
    buffers: &Buffers,
) -> Result<Vec<&'a [u8]>, u8> {
    let entries = batch::entries(batch).ok_or(5)?;
    ask(buffers.verdicts.len() >= VERDICTS, 6)?;
    ask(buffers.delivery.len() >= holdback_len, 6)?;
    Ok(entries)
}

impl<'a, L: Limits> Board<'a, L> {
    /// Opens the queue that the bytes hold, whose due clocks may not be below the least, relative
    /// to v.
    pub fn open(limits: L, clock: i64, owner: Owner, least: i64, bytes: &'a [u8]) -> Self {
        let found = Holdback::decode(&limits, clock, least, bytes);
        let repair = if found.is_some() { 0 } else { 2 };
        let mut holdback = found.unwrap_or_else(Holdback::empty);
        let early = holdback.take_early(&limits);
        Board { limits, clock, owner, repair, early, holdback }
    }

    /// Judges the frames of a batch in turn and writes their verdicts; a taken one is queued and
    /// counted in. How many are taken.
    pub fn hear_all(
        &mut self,
        entries: &[&'a [u8]],
        verdicts: &mut [u8],
        mut count_in: impl FnMut(&Entry),
    ) -> u8 {
        let mut taken = 0;
        for (bytes, byte) in entries.iter().zip(verdicts) {
            *byte = match self.hear(bytes) {
                Verdict::Taken(place) => {
                    count_in(&self.holdback.entries()[place]);
                    0
                }
                Verdict::Refused(number) => number,
            };
            taken += u8::from(*byte == 0);
        }
        taken
    }

    /// Judges one frame, and queues it if it is taken.
    fn hear(&mut self, bytes: &'a [u8]) -> Verdict {
        match judge(&self.limits, self.clock, self.owner, &self.holdback, bytes) {
            Ok(entry) => Verdict::Taken(self.holdback.place(self.limits.own(), entry)),
            Err(number) => Verdict::Refused(number),
        }
    }

    /// Writes what was due before v and what is due at v to the delivery, the rest back to the
    /// queue; how many are delivered.
    pub fn deliver(self, buffers: &mut Buffers) -> u16 {
        let (due, rest) = self.holdback.split_due(&self.limits);
        let early = &self.early[..];
        let delivered = if planted(16) { [due, early].concat() } else { [early, due].concat() };
        holdback::put(&delivered, buffers.delivery);
        let used = holdback::put(rest, buffers.holdback);
        let grown = self.limits.pairs()[0].holdback_len().max(used);
        let end = if planted(122) { grown } else { buffers.holdback.len() };
        buffers.holdback[used + skew(9) as usize..end].fill(0);
        delivered.len() as u16
    }
}

/// Checks 10 to 16 of one frame, for an observer without 15. A frame that passes finds room: no due
/// clock is before v here, so a node's r has δ + 3ε − 1 values at most.
pub fn judge<'a>(
    limits: &impl Limits,
    v: i64,
    owner: Owner,
    holdback: &Holdback,
    bytes: &'a [u8],
) -> Result<Entry<'a>, u8> {
    let (setup, oldest) = (limits.own(), limits.by(Part::Late));
    let entry = Entry::near(limits, v, Frame::parse(limits, bytes)?);
    ask(-entry.ahead <= oldest.delta + oldest.epsilon + skew(3), 13)?;
    // 02, 2.10: "a frame heard that is due before v gets 13". In a plain call none is that passed so far.
    ask(entry.due(limits) >= 0 || planted(97), 13)?;
    ask(entry.sum < limits.by(Part::Early).epsilon, 14)?;
    if owner == Owner::Node || planted(31) {
        ask(has_possible_counts(setup, &entry), 15)?;
    }
    let other_width = planted(170) && !holdback.has_width_of(&entry);
    ask(!holdback.contains(setup, &entry) || other_width, 16)?;
    Ok(entry)
}

/// Check 15: is each count for v or later at most n − 1?
pub fn has_possible_counts(setup: &Setup, entry: &Entry) -> bool {
    let timestamp = &entry.frame.timestamp;
    let from_v = timestamp.counts_from(-entry.ahead + misplaced(setup, timestamp, 169));
    all_at_most(from_v, setup.n - 1 + skew(4))
}
