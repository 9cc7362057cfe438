//! Random traces for replay, good and bad.

use super::{frames, Group, Habits, Prng};
use crate::trace::{Trace, TraceTick};
use crate::{batch, Setup};

/// A setup whose queue has 65,535 bytes, the longest that replay takes.
pub const LONGEST_QUEUE: Setup = Setup { n: 13, epsilon: 16, delta: 23, modulus: 65_535, own: 0 };
/// A setup whose queue has 65,552 bytes, the shortest that replay does not take.
pub const TOO_LONG_QUEUE: Setup = Setup { n: 10, epsilon: 15, delta: 50, modulus: 65_535, own: 0 };

/// The bytes of a trace; about five in eight are good.
pub fn random(rng: &mut Prng) -> Vec<u8> {
    let mut trace = if rng.one_in(3) { unsteady(rng) } else { good(rng) };
    let bad = rng.one_in(2);
    if bad && rng.one_in(2) {
        spoil(rng, &mut trace);
    }
    let mut bytes = trace.to_bytes();
    if bad && rng.one_in(2) {
        match rng.below(3) {
            0 => bytes.push(rng.bits() as u8),
            1 => bytes.truncate(rng.place(bytes.len())),
            _ => {
                let at = rng.place(bytes.len());
                bytes[at] = rng.bits() as u8;
            }
        }
    }
    bytes
}

/// What one node of a group is given.
fn good(rng: &mut Prng) -> Trace {
    let setup = super::setup(rng);
    let (noise, nudges) = (rng.one_in(2), rng.one_in(2));
    let habits = Habits { noise, dips: false, nudges, deafness: rng.range(1, 4) };
    let mut group = Group::fresh(rng, setup, habits);
    let mut ticks = Vec::new();
    for _ in 0..rng.below(20 * setup.n) {
        let (node, mut case) = group.next_case(rng);
        if node == setup.own as usize {
            ticks.push(TraceTick {
                clock: case.clock as u16,
                send: case.send.into(),
                payload: case.payload.clone(),
                batch: owned_entries(&case.batch),
            });
        }
        let answer = case.run();
        group.settle(node, case, &answer);
    }
    Trace { setup, ticks, count: None, tail: Vec::new() }
}

/// What a node is given whose clock steps by 0 to ε + 1, often across a wrap, with any frames.
fn unsteady(rng: &mut Prng) -> Trace {
    let setup = super::setup(rng);
    let wrap = setup.modulus - rng.below(4 * setup.epsilon);
    let any = rng.below(setup.modulus);
    let (mut clock, count) = (rng.pick(&[wrap, any]), rng.below(30));
    let tick = |_| {
        let any = rng.range(0, setup.epsilon + 1);
        let step = rng.pick(&[1, 1, setup.epsilon, any]);
        clock = (clock + step) % setup.modulus;
        let (send, payload) = (rng.below(2) as u8, rng.payload());
        let batch = (0..rng.range(0, 4)).map(|_| frames::any(rng, &setup, clock)).collect();
        TraceTick { clock: clock as u16, send, payload, batch }
    };
    let ticks = (0..count).map(tick).collect();
    Trace { setup, ticks, count: None, tail: Vec::new() }
}

fn owned_entries(batch: &[u8]) -> Vec<Vec<u8>> {
    let entries = batch::entries(batch).expect("a good batch");
    entries.into_iter().map(<[u8]>::to_vec).collect()
}

/// Spoils something that a trace can say.
fn spoil(rng: &mut Prng, trace: &mut Trace) {
    let modulus = trace.setup.modulus as u16;
    let count = trace.ticks.len() as u16;
    let at = rng.place(trace.ticks.len().max(1));
    match (rng.below(6), trace.ticks.get_mut(at)) {
        (0, Some(tick)) => tick.send = rng.range(2, 255) as u8,
        (1, Some(tick)) => tick.clock = modulus.saturating_add(rng.range(0, 2) as u16),
        (2, Some(tick)) => tick.clock = rng.below(modulus.into()) as u16,
        (3, Some(tick)) => tick.payload = rng.bytes(33),
        (4, _) => trace.count = Some(count.wrapping_add(rng.pick(&[1, 65_535]))),
        _ => spoil_setup(rng, &mut trace.setup),
    }
}

/// A setup out of its limits, or one at the limit that replay adds.
fn spoil_setup(rng: &mut Prng, setup: &mut Setup) {
    match rng.below(6) {
        0 => setup.n = rng.pick(&[0, 17]),
        1 => setup.epsilon = rng.pick(&[0, 17]),
        2 => setup.delta = 65,
        3 => setup.modulus = setup.least_modulus() - 1,
        4 => setup.own = setup.n,
        _ => *setup = rng.pick(&[LONGEST_QUEUE, TOO_LONG_QUEUE]),
    }
}
