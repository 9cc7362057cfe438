//! Timestamps (01's stamps) and the local one of a node (01's tables).

use crate::fault::{planted, skew};
use crate::{ask, Limits, Settings, Setup};

/// The most counts a timestamp can have.
pub const MAX_WIDTH: usize = 32;

/// The local timestamp as bytes (01's tables): r low byte first, c, 32 places for counts.
pub type ClockState = [u8; 3 + MAX_WIDTH];

/// 01's stamp. `kn` has its 2ε counts, that at offset t in place t + ε.
#[derive(Clone, Copy, Debug, PartialEq, Eq)]
pub struct Timestamp<'a> {
    /// The clock at the event, modulo B.
    pub r: i64,
    /// How far the largest known clock lies ahead of r.
    pub c: i64,
    /// The counts.
    pub kn: &'a [u8],
}

impl<'a> Timestamp<'a> {
    /// The timestamp that the bytes of a node hold.
    pub fn of_state(setup: &Setup, state: &'a ClockState) -> Self {
        Timestamp {
            r: u16::from_le_bytes([state[0], state[1]]).into(),
            c: state[2].into(),
            kn: &state[3..3 + setup.width()],
        }
    }

    /// This timestamp as the bytes of a node, 0 past the counts.
    pub fn to_state(self) -> ClockState {
        let mut state = [0; 3 + MAX_WIDTH];
        state[..2].copy_from_slice(&(self.r as u16).to_le_bytes());
        state[2] = self.c as u8;
        state[3..3 + self.kn.len()].copy_from_slice(self.kn);
        state
    }

    /// The count at an offset; outside the window it reads as 0.
    pub fn count(&self, offset: i64) -> u8 {
        let epsilon = self.kn.len() as i64 / 2;
        let place = usize::try_from(offset + epsilon).ok();
        place.and_then(|i| self.kn.get(i)).copied().unwrap_or(0)
    }

    /// The counts from an offset up.
    pub fn counts_from(&self, offset: i64) -> &'a [u8] {
        let epsilon = self.kn.len() as i64 / 2;
        let place = (offset + epsilon).clamp(0, 2 * epsilon);
        &self.kn[place as usize..]
    }

    /// The counts that the order compares: so many, from offset c down; missing ones are 0.
    pub fn recent(&self, depth: i64) -> impl Iterator<Item = u8> + 'a {
        let depth = (depth - skew(5)) as usize;
        let end = self.kn.len() / 2 + self.c as usize + 1;
        let there = &self.kn[end.saturating_sub(depth)..end];
        let missing = if planted(92) { there.len() } else { depth };
        there.iter().rev().copied().chain(std::iter::repeat(0)).take(missing)
    }

    /// Is the stamp sound?
    pub fn is_sound(&self, setup: &Setup) -> bool {
        self.c < setup.epsilon
            && all_at_most(self.kn, setup.n)
            && self.count(self.c) >= 1
            && all_at_most(self.counts_from(self.c + 1), 0)
    }

    /// Are the tables sound but for r?
    pub fn are_sound_tables(&self, setup: &Setup) -> bool {
        self.is_sound(setup) && all_at_most(self.counts_from(1), setup.n - 1 + skew(6))
    }

    /// The step to a new clock v, from 1 to ε; none if the tables are unsound for v.
    pub fn sound_step(&self, setup: &Setup, v: i64) -> Option<i64> {
        setup.sound_step(self.r, v).filter(|_| self.are_sound_tables(setup))
    }
}

/// Is the largest count within the limit?
pub fn all_at_most(kn: &[u8], limit: i64) -> bool {
    let largest = kn.iter().fold(0, |largest: u8, &count| largest.max(count));
    i64::from(largest) <= limit
}

/// A node's start: asks 1 and 2; fresh tables at a clock.
pub fn start<S: Settings>(setup: &S, clock: i64) -> Result<ClockState, u8> {
    if planted(177) && setup.check() == Err(19) {
        ask(clock < setup.widest().modulus, 2)?;
    }
    setup.check()?;
    ask(clock < setup.widest().modulus, 2)?;
    match planted(119) {
        true => Ok(fresh(&setup.pairs()[0], clock)),
        false => Ok(fresh(setup.at(clock).own(), clock)),
    }
}

/// Fresh tables at a clock.
pub fn fresh(setup: &Setup, r: i64) -> ClockState {
    let mut local = LocalTimestamp::blank();
    local.count_event(setup);
    local.to_state(setup, r)
}

/// How far off counts of another width are if they are taken by their places; only with this fault.
pub(crate) fn misplaced(setup: &Setup, other: &Timestamp, fault: u8) -> i64 {
    skew(fault) * (setup.epsilon - other.kn.len() as i64 / 2)
}

/// The tables during a tick: r is already v.
pub struct LocalTimestamp {
    c: i64,
    kn: [u8; MAX_WIDTH],
}

impl LocalTimestamp {
    /// What unsound tables are replaced by: c 0 and no counts at all.
    pub fn blank() -> Self {
        LocalTimestamp { c: 0, kn: [0; MAX_WIDTH] }
    }

    /// Sound tables moved to a new clock: c drops by the step, counts move down by it. The tables
    /// may be narrower than what is made of them (02, 2.10); counts that they lack are 0.
    pub fn step(setup: &Setup, before: &Timestamp, step: i64) -> Self {
        let mut local = Self::blank();
        local.c = if planted(7) { before.c } else { (before.c - step).max(0) };
        let offsets = if planted(13) { 1 } else { step };
        for (own, offset) in local.kn.iter_mut().zip(-setup.epsilon..setup.epsilon) {
            *own = before.count(offset + offsets + misplaced(setup, before, 95));
        }
        local
    }

    /// Takes in a timestamp whose r is `ahead` of v: c and each count become the larger.
    pub fn absorb(&mut self, setup: &Setup, ahead: i64, other: &Timestamp) {
        self.c = self.c.max(ahead + other.c);
        for (own, offset) in self.kn.iter_mut().zip(-setup.epsilon..setup.epsilon) {
            let offset = offset - ahead - skew(8);
            *own = (*own).max(other.count(offset + misplaced(setup, other, 96)));
        }
    }

    /// The tick itself is an event: the count at offset 0 rises by one.
    pub fn count_event(&mut self, setup: &Setup) {
        self.kn[setup.epsilon as usize] += 1;
    }

    /// The new tables.
    pub fn to_state(&self, setup: &Setup, r: i64) -> ClockState {
        self.timestamp(setup, r).to_state()
    }

    /// The new timestamp.
    pub fn timestamp(&self, setup: &Setup, r: i64) -> Timestamp<'_> {
        Timestamp { r, c: self.c, kn: &self.kn[..setup.width()] }
    }
}
