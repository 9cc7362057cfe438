//! What a call meets of 02's nudged clocks, as numbers for the coverage.

use oracle::generate::TickCase;
use oracle::holdback::{dues, Holdback};
use oracle::{Answer, Setup, Timestamp};

/// The kind of a step: 0, 1, 2 for one between 1 and ε, 3 for ε (above 1), 4 for ε + 1.
pub fn step_kind(epsilon: i64, step: i64) -> Option<u8> {
    match step {
        0 | 1 => Some(step as u8),
        _ if step < epsilon => Some(2),
        _ if step == epsilon => Some(3),
        _ if step == epsilon + 1 => Some(4),
        _ => None,
    }
}

/// The kind of an accepted call's step, from tables that are sound but for it.
pub fn step_of(given: &TickCase) -> Option<u8> {
    let TickCase { setup, clock, state, .. } = given;
    let tables = Timestamp::of_state(setup, state);
    if tables.r >= setup.modulus || !tables.are_sound_tables(setup) {
        return None;
    }
    step_kind(setup.epsilon, setup.step(tables.r, *clock))
}

/// Of an accepted call's hand-out at v: 0 if all of it is due at v, 1 if all of it was due before, 2
/// if it has both. None if it has no frames.
pub fn early_of(setup: &Setup, v: i64, delivery: &[u8]) -> Option<u8> {
    let due: Vec<i64> = dues(setup, v, delivery).collect();
    let early = due.iter().filter(|&&due| due < 0).count();
    match early {
        _ if due.is_empty() => None,
        0 => Some(0),
        _ if early == due.len() => Some(1),
        _ => Some(2),
    }
}

/// Of an accepted call for v whose queue was emptied only because of a due clock: 1 if the call's
/// step is sound and it is the last clock, 2 if the step is and it is before that, 3 if there is no
/// sound step and it is before v.
pub fn overdue_of(
    setup: &Setup,
    v: i64,
    queue: &[u8],
    step: Option<i64>,
    answer: &Answer,
) -> Option<u8> {
    if answer.repair & 2 == 0 {
        return None;
    }
    Holdback::decode(setup, v, -setup.epsilon, queue)?;
    let least = dues(setup, v, queue).next().expect("a frame");
    match step {
        None => Some(3),
        Some(step) if least == -step => Some(1),
        Some(_) => Some(2),
    }
}

/// The kinds of the steps between a node's ticks in a good trace, by their lines after what stands
/// before each.
pub fn steps_of(trace: &[u8], label: &str, lines: &str) -> Vec<u8> {
    let (epsilon, modulus) = (trace[1].into(), u16::from_le_bytes([trace[3], trace[4]]).into());
    let clock = |line: &str| {
        let tick = line.strip_prefix(label)?.strip_prefix("tick ")?;
        tick.split(' ').next()?.parse().ok()
    };
    let clocks: Vec<i64> = lines.lines().filter_map(clock).collect();
    let step = |pair: &[i64]| step_kind(epsilon, (pair[1] - pair[0]).rem_euclid(modulus));
    clocks.windows(2).filter_map(step).collect()
}
