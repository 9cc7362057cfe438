//! What a rehearsal of a whole group meets (02, 2.8), as numbers for the coverage.

use crate::nudges;
use crate::run::refusal;
use oracle::generate::yards::{Flaw, LARGEST_GROUP};
use oracle::yard::{CHECKS, MAX_STEPS};
use oracle::yard_trace::YardTrace;

/// What a rehearsal met: its number; the flaw, as `Flaw` numbers them, if it was refused for that; of
/// one that was not refused its nodes, the kind of its length, the checks that refused a frame, how
/// many boards showed something (2 for several), the mends, and the kinds of steps as in `nudges`.
pub fn kinds_of(trace: &[u8], flaw: Option<Flaw>, text: &str) -> Vec<(&'static str, u8)> {
    let number = refusal(text);
    let flaw = flaw.filter(|flaw| flaw.number() == number);
    let mut kinds = vec![("yard", number)];
    kinds.extend(flaw.map(|flaw| ("yard flaw", flaw as u8)));
    if number > 0 {
        return kinds;
    }
    let nodes = trace[0];
    let shows = |node: &u8| text.contains(&format!("\n{node} give "));
    let boards = (0..nodes).filter(shows).count().min(2) as u8;
    let length = length_kind(trace);
    kinds.extend([("yard nodes", nodes), ("yard length", length), ("yard boards", boards)]);
    kinds.extend(
        CHECKS.filter(|&check| refused_by(check, text)).map(|check| ("yard figure", check)),
    );
    kinds.extend(text.lines().filter_map(mend_of).map(|mend| ("yard mend", mend)));
    for node in 0..nodes {
        let steps = nudges::steps_of(trace, &format!("{node} "), text);
        kinds.extend(steps.into_iter().map(|kind| ("yard step", kind)));
    }
    kinds
}

/// The kind of a trace's length: 0 no steps, 1 some, 2 as many as there may be, 3 as many and of the
/// largest group.
fn length_kind(trace: &[u8]) -> u8 {
    let largest = YardTrace::new(LARGEST_GROUP).to_bytes();
    match u16::from_le_bytes([trace[5], trace[6]]) {
        0 => 0,
        MAX_STEPS => 2 + u8::from(trace.starts_with(&largest[..5])),
        _ => 1,
    }
}

/// Has the line of this check a number?
fn refused_by(check: u8, text: &str) -> bool {
    !text.lines().any(|line| line == format!("{check} -"))
}

/// The mend of a tick line.
fn mend_of(line: &str) -> Option<u8> {
    let (_, rest) = line.split_once(" mend ")?;
    rest.split(' ').next()?.parse().ok()
}
