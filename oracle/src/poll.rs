//! 02's 2.5: when something shows next.

use crate::fault::{planted, skew};
use crate::holdback::{self, Entry, Holdback};
use crate::{Limits, Settings};

/// What a poll answers.
#[derive(Clone, Copy, Debug, Default, PartialEq, Eq)]
pub struct Outlook {
    /// The next due clock, modulo B.
    pub next: Option<i64>,
    /// How many frames are due within the ticks that were asked for.
    pub within: u16,
}

/// The poll after a tick at this clock: asks 1, 2, 3. The queue is judged for that clock, with every
/// due clock past it; an unsound one answers as an empty one. All its frames are looked at.
pub fn poll<S: Settings>(setup: &S, clock: i64, within: u16, bytes: &[u8]) -> Result<Outlook, u8> {
    setup.check()?;
    holdback::check(&setup.widest(), clock, bytes)?;
    let limits = setup.at(clock);
    let dues: Vec<i64> = match Holdback::decode(&limits, clock, 1 - skew(24), bytes) {
        Some(queue) => queue.entries().iter().map(|entry| due(&limits, entry)).collect(),
        None if planted(26) => holdback::dues(&limits, clock, bytes).collect(),
        None => Vec::new(),
    };
    let soonest = if planted(30) { dues.last() } else { dues.iter().min() };
    let next = soonest.map(|due| limits.own().reduced(clock + due, 27));
    Ok(Outlook { next, within: count_within(&dues, within) })
}

/// A frame's due clock, relative to v.
fn due(limits: &impl Limits, entry: &Entry) -> i64 {
    match planted(175) {
        true => limits.own().due(entry.sum),
        false => entry.due(limits),
    }
}

/// How many of the due clocks, which are relative to v, are at most so many ticks after it.
fn count_within(dues: &[i64], within: u16) -> u16 {
    let bound = i64::from(within) + skew(25);
    let count = dues.iter().filter(|&&due| due <= bound).count() + skew(28) as usize;
    count.min(dues.len()).saturating_sub(skew(29) as usize) as u16
}
