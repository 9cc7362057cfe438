//! What calls of engines meet (02, 2.9), as numbers for the coverage.

use crate::nudges::step_kind;
use oracle::engine::{decode, sound_step};
use oracle::generate::LongCase;
use oracle::holdback::{count, Entry};
use oracle::long::{of_state, split, CAPACITY};
use oracle::{batch, Answer, Setup};
use std::cmp::Ordering;

/// What an engine's call met: its number; of an accepted one the mend, whether something was sent and
/// handed out (1 is yes), the kind of its step as in `nudges`, the kinds below, and its frames' verdicts.
pub fn kinds_of(given: &LongCase, left: &LongCase, answer: &Answer) -> Vec<(&'static str, u8)> {
    let mut kinds = vec![("long", answer.number)];
    if answer.number > 0 {
        return kinds;
    }
    kinds.push(("long mend", answer.repair));
    kinds.push(("long sent", u8::from(answer.outgoing > 0)));
    kinds.push(("long gave", u8::from(answer.delivered > 0)));
    let queue = queue_of(given);
    let found = [
        ("long step", step_of(given)),
        ("long held", held_of(given, queue.as_deref())),
        ("long order", queue.as_deref().and_then(order_of)),
        ("long overdue", overdue_of(given, queue.is_some())),
        ("long early", early_of(left)),
    ];
    kinds.extend(found.into_iter().filter_map(|(what, kind)| Some((what, kind?))));
    kinds.extend(verdicts_of(given, left, &queue.unwrap_or_default()));
    kinds
}

/// What a call met that a node and its engine made side by side: whether it sent and the kind of what it
/// handed out, 3 for nothing; and its frames' verdicts, of which only 0 and 16 come.
pub fn pair_kinds_of(left: &LongCase, answer: &Answer) -> Vec<(&'static str, u8)> {
    let mut kinds = vec![
        ("beside sent", u8::from(answer.outgoing > 0)),
        ("beside early", early_of(left).unwrap_or(3)),
    ];
    let verdicts = &left.verdicts[..left.batch[0].into()];
    kinds.extend(verdicts.iter().map(|&number| ("beside frame", number)));
    kinds
}

/// The new clock.
fn clock(case: &LongCase) -> i64 {
    case.clock as i64
}

/// The step of an accepted call, none where its tables are replaced.
fn step(given: &LongCase) -> Option<i64> {
    sound_step(&given.setup, &of_state(&given.setup, &given.state), clock(given))
}

/// The queue of an accepted call if it is sound.
fn queue_of(given: &LongCase) -> Option<Vec<Entry<'_>>> {
    let least = step(given).map_or(0, |step| 1 - step);
    decode(&given.setup, clock(given), least, &given.holdback)
}

/// The kind of an accepted call's step, from tables that are sound but for it; 5 where r of the tables is
/// 2^63 or more.
fn step_of(given: &LongCase) -> Option<u8> {
    let tables = of_state(&given.setup, &given.state);
    match tables.are_sound_tables(&given.setup) {
        false => None,
        true if tables.r < 0 => Some(5),
        true => step_kind(given.setup.epsilon, clock(given) - tables.r),
    }
}

/// Of a sound queue: 0 no frame, 1 some, 2 one less than there may be, 3 as many. Of one that is not: 4
/// if its count is one more.
fn held_of(given: &LongCase, queue: Option<&[Entry]>) -> Option<u8> {
    match queue.map(<[Entry]>::len) {
        Some(0) => Some(0),
        Some(CAPACITY) => Some(3),
        Some(held) => Some(1 + u8::from(held + 1 == CAPACITY)),
        None => (usize::from(count(&given.holdback)) == CAPACITY + 1).then_some(4),
    }
}

/// Of a sound queue of several frames: 0 if they stand in delivery order, 1 if not.
fn order_of(queue: &[Entry]) -> Option<u8> {
    let in_order = queue.is_sorted_by(|a, b| a.order(b) != Ordering::Greater);
    (queue.len() > 1).then_some(u8::from(!in_order))
}

/// Of a queue that is emptied only because of a due clock, as in `nudges`: 1 if the step is sound and
/// that is the last clock, 2 if the step is and it is before that, 3 if there is no sound step.
fn overdue_of(given: &LongCase, is_sound: bool) -> Option<u8> {
    if is_sound {
        return None;
    }
    let setup = &given.setup;
    let queue = decode(setup, clock(given), i64::MIN, &given.holdback)?;
    let soonest = queue.iter().map(|entry| entry.due(setup)).min().expect("a frame");
    Some(match step(given) {
        None => 3,
        Some(step) if soonest == -step => 1,
        Some(_) => 2,
    })
}

/// Of a hand-out that has frames: 0 if all are due at v, 1 if all were due before, 2 if it has both.
fn early_of(left: &LongCase) -> Option<u8> {
    let shown = decode(&left.setup, clock(left), i64::MIN, &left.delivery).expect("a hand-out");
    let early = shown.iter().filter(|entry| entry.due(&left.setup) < 0).count();
    match early {
        _ if shown.is_empty() => None,
        0 => Some(0),
        _ if early == shown.len() => Some(1),
        _ => Some(2),
    }
}

/// The frames' verdicts. Of 11 also whether r is 2^63 or more (1) or the station too large (0); of 16
/// whether 64 are held then (1); of 18 whether one that was held is due before v (1).
fn verdicts_of(given: &LongCase, left: &LongCase, queue: &[Entry]) -> Vec<(&'static str, u8)> {
    let mut held = queue.len();
    let early = queue.iter().any(|entry| entry.due(&given.setup) < 0);
    let entries = batch::entries(&given.batch).expect("an exact batch");
    let mut kinds = Vec::new();
    for (bytes, &verdict) in entries.into_iter().zip(&left.verdicts) {
        kinds.push(("long frame", verdict));
        match verdict {
            0 => held += 1,
            11 => kinds.push(("long 11", u8::from(r_of(&given.setup, bytes) < 0))),
            16 => kinds.push(("long 16", u8::from(held == CAPACITY))),
            18 => kinds.push(("long 18", u8::from(early))),
            _ => (),
        }
    }
    kinds
}

fn r_of(setup: &Setup, bytes: &[u8]) -> i64 {
    let (frame, _) = split(setup, bytes).expect("a frame");
    frame.timestamp.r
}
