//! 02's 2.4: which of two frames is first, and what decided.

use crate::fault::{planted, skew};
use crate::holdback::Entry;
use crate::{ask, read, Frame, Limits, Settings, Setup};
use std::cmp::Ordering;
use std::fmt;

/// What put one of two frames first.
#[derive(Clone, Copy, Debug, PartialEq, Eq)]
pub enum Reason {
    /// Nothing: all agree.
    Nothing,
    Sum,
    /// The count at this clock, which is given modulo B.
    Count(i64),
    /// The sender (01's station).
    Node,
    R,
}

impl Reason {
    /// The number of the reason in a packed answer.
    pub fn number(self) -> u8 {
        match self {
            Reason::Nothing => 0,
            Reason::Sum => 1,
            Reason::Count(_) => 2,
            Reason::Node => 3,
            Reason::R => 4,
        }
    }

    /// The clock of a count, otherwise 0.
    pub fn clock(self) -> i64 {
        match self {
            Reason::Count(clock) => clock,
            _ => 0,
        }
    }
}

impl fmt::Display for Reason {
    fn fmt(&self, f: &mut fmt::Formatter) -> fmt::Result {
        match self {
            Reason::Nothing => write!(f, "-"),
            Reason::Sum => write!(f, "sum"),
            Reason::Count(clock) => write!(f, "count {clock}"),
            Reason::Node => write!(f, "station"),
            Reason::R => write!(f, "r"),
        }
    }
}

/// The order of two entries near v, and what decided it.
pub fn decide(limits: &impl Limits, v: i64, first: &Entry, second: &Entry) -> (Ordering, Reason) {
    let (node, r) = if planted(21) { (Reason::R, Reason::Node) } else { (Reason::Node, Reason::R) };
    let counts = |entry: &Entry, k: i64| entry.frame.timestamp.count(entry.frame.timestamp.c - k);
    let clock = |k: i64| count_at(limits.own(), v + first.sum - k);
    let compared = (0..first.depth).map(|k| (counts(first, k).cmp(&counts(second, k)), clock(k)));
    std::iter::once((first.sum.cmp(&second.sum), Reason::Sum))
        .chain(compared)
        .chain([
            (first.frame.node.cmp(&second.frame.node), node),
            (first.ahead.cmp(&second.ahead), r),
        ])
        .find(|(order, _)| order.is_ne())
        .unwrap_or((Ordering::Equal, Reason::Nothing))
}

/// A count at a clock, which is reduced modulo B.
fn count_at(setup: &Setup, clock: i64) -> Reason {
    if planted(23) {
        return Reason::Sum;
    }
    Reason::Count(setup.reduced(clock + skew(19), 20))
}

/// The comparison alone: asks 1, 2, then 10 to 12 of the first frame and of the second.
pub fn compare<S: Settings>(
    setup: &S,
    clock: i64,
    first: &[u8],
    second: &[u8],
) -> Result<(Ordering, Reason), u8> {
    setup.check()?;
    ask(clock < setup.widest().modulus, 2)?;
    let limits = &setup.at(clock);
    let near = |frame| Entry::near(limits, clock, frame);
    let parse = |bytes| match planted(120) {
        true => read(setup, bytes),
        false => Frame::parse(limits, bytes),
    };
    let (first, second) = (near(parse(first)?), near(parse(second)?));
    Ok(decide(limits, clock, &first, &second))
}
