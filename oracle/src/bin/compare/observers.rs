//! What an observer's call meets (02, 2.6), as numbers for the coverage.

use crate::nudges;
use oracle::board::has_possible_counts;
use oracle::generate::ListenCase;
use oracle::holdback::Entry;
use oracle::{batch, Answer, Frame};

/// What an observer's call met: its number; of an accepted one the mend, the kind of its last clock,
/// whether it handed something out (1 is yes), the kinds of what it handed out and of a queue that
/// it emptied as in `nudges`, and its frames' verdicts, of the taken ones also whether 15 would have
/// refused it (1).
pub fn kinds_of(given: &ListenCase, left: &ListenCase, answer: &Answer) -> Vec<(&'static str, u8)> {
    let mut kinds = vec![("listen", answer.number)];
    if answer.number > 0 {
        return kinds;
    }
    let ListenCase { setup, clock, holdback, .. } = given;
    kinds.push(("listen mend", answer.repair));
    kinds.push(("listen gave", u8::from(answer.delivered > 0)));
    kinds.extend(last_kind(given).map(|kind| ("listen last", kind)));
    let early = nudges::early_of(setup, *clock, &left.delivery);
    kinds.extend(early.map(|kind| ("listen early", kind)));
    let step = setup.sound_step(given.last_clock(), *clock);
    let overdue = nudges::overdue_of(setup, *clock, holdback, step, answer);
    kinds.extend(overdue.map(|kind| ("listen overdue", kind)));
    let entries = batch::entries(&given.batch).expect("an exact batch");
    for (bytes, &verdict) in entries.into_iter().zip(&left.verdicts) {
        kinds.push(("listen frame", verdict));
        if verdict == 0 {
            kinds.push(("listen 15", u8::from(would_fail_15(given, bytes))));
        }
    }
    kinds
}

/// The kind of a last clock: that of the step from it (see `nudges`); or, where it is a right one but
/// for B, 5 if it is B itself and 6 if it is above.
fn last_kind(given: &ListenCase) -> Option<u8> {
    let (setup, last) = (&given.setup, given.last_clock());
    if last < setup.modulus {
        return nudges::step_kind(setup.epsilon, setup.step(last, given.clock));
    }
    setup.sound_step(last % setup.modulus, given.clock)?;
    Some(5 + u8::from(last > setup.modulus))
}

/// Would a node refuse this frame by 15?
fn would_fail_15(given: &ListenCase, bytes: &[u8]) -> bool {
    let frame = Frame::parse(&given.setup, bytes).expect("a taken frame");
    !has_possible_counts(&given.setup, &Entry::near(&given.setup, given.clock, frame))
}
