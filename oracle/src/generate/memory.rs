//! What a node's memory may hold: sound, nearly sound, and plain junk.

use super::cases::random_state;
use super::{frames, Prng};
use crate::holdback::Entry;
use crate::{ClockState, Frame, Limits, Setup};

/// Any clock state for a tick at v, its step often 1 and otherwise up to ε.
pub fn state(rng: &mut Prng, limits: &impl Limits, v: i64) -> ClockState {
    if rng.one_in(8) {
        return random_state(rng);
    }
    let longest = limits.own().epsilon;
    let any = rng.range(1, longest);
    let step = rng.pick(&[1, 1, any, longest]);
    let mut state = sound_state(rng, limits, v, step);
    if rng.one_in(2) {
        damage_state(rng, limits.of(-step), &mut state);
    }
    state
}

/// A clock state whose r lies a step before v, with junk past its counts. It is sound for v if
/// the step is 1 to ε.
pub fn sound_state(rng: &mut Prng, limits: &impl Limits, v: i64, step: i64) -> ClockState {
    let setup = limits.of(-step);
    let any = rng.below(setup.epsilon);
    // With one node no clock ahead can have been counted.
    let c = if setup.n == 1 { 0 } else { rng.pick(&[0, any, any]) };
    let frame = frames::sound(rng, setup, v, 0, -step, c);
    let frame = Frame::parse(setup, &frame).expect("a sound frame");
    let mut state = random_state(rng);
    let sound = frame.timestamp.to_state();
    let used = 3 + setup.width();
    state[..used].copy_from_slice(&sound[..used]);
    for count in &mut state[3 + setup.epsilon as usize + 1..used] {
        *count = (*count).min(setup.n as u8 - 1);
    }
    state
}

/// Changes a sound clock state by little, at a limit if there is one.
fn damage_state(rng: &mut Prng, setup: &Setup, state: &mut ClockState) {
    let r = i64::from(u16::from_le_bytes([state[0], state[1]]));
    let width = setup.width();
    match rng.below(5) {
        0 => {
            let r = r + rng.pick(&[-1, 1, setup.modulus]);
            state[..2].copy_from_slice(&(r as u16).to_le_bytes());
        }
        1 => state[2] = rng.pick(&[0, setup.epsilon - 1, setup.epsilon]) as u8,
        2 => state[3 + rng.place(width)] = rng.pick(&[0, setup.n, setup.n + 1]) as u8,
        3 => {
            // n events at the largest known clock: sound as a stamp, not for tables.
            let c = usize::from(state[2]);
            state[3 + setup.epsilon as usize + c] = setup.n as u8;
        }
        _ => state[rng.place(3 + width)] ^= 1 << rng.below(8),
    }
}

/// A least due clock for a queue at v, relative to v, after a sound step or none: mostly the least
/// that is sound, otherwise one before it, or any before it that is at most ε before v.
pub fn least_due(rng: &mut Prng, setup: &Setup, step: Option<i64>) -> i64 {
    let least = step.map_or(0, |step| 1 - step);
    let any = rng.range(-setup.epsilon, least - 1);
    rng.pick(&[least, least, least, least - 1, any, any])
}

/// Any hold-back queue for a tick at v, mostly with no due clock below the least.
pub fn holdback(rng: &mut Prng, limits: &impl Limits, v: i64, least: i64) -> Vec<u8> {
    let setup = limits.widest();
    if rng.one_in(12) {
        return rng.bytes(setup.holdback_len());
    }
    let away = if rng.one_in(8) { rng.pick(&[-1, 1]) } else { 0 };
    let most = limits.own().capacity() + usize::from(rng.one_in(8));
    let scarcity = scarcity(rng, limits.own());
    let mut frames = frames_up_to(rng, limits, v + away, least, most, scarcity);
    if rng.one_in(3) {
        damage_frames(rng, limits, v, least, &mut frames);
    }
    let mut bytes = assemble(rng, &setup, &frames);
    if rng.one_in(6) {
        let used = 2 + frames.iter().map(Vec::len).sum::<usize>();
        bytes[rng.place(used.min(setup.holdback_len()))] ^= 1 << rng.below(8);
    }
    if rng.one_in(8) {
        bytes[0] = bytes[0].wrapping_add(rng.pick(&[1, 255]));
    }
    bytes
}

/// Frames that make a sound queue for v with this least due clock: few, or as many as there can
/// be.
pub fn sound_frames(rng: &mut Prng, limits: &impl Limits, v: i64, least: i64) -> Vec<Vec<u8>> {
    let scarcity = scarcity(rng, limits.own());
    frames_up_to(rng, limits, v, least, limits.own().capacity(), scarcity)
}

/// A queue of all frames that can be held at v with this least due clock, but at most so many.
pub fn crowd(rng: &mut Prng, limits: &impl Limits, v: i64, least: i64, most: usize) -> Vec<u8> {
    let frames = frames_up_to(rng, limits, v, least, most, 1);
    assemble(rng, &limits.widest(), &frames)
}

/// One in how many of the frames that could be held is.
fn scarcity(rng: &mut Prng, setup: &Setup) -> i64 {
    rng.pick(&[1, 3, 1 + setup.capacity() as i64 / 4, setup.capacity() as i64])
}

/// At most so many frames that make a sound queue, but for their number.
fn frames_up_to(
    rng: &mut Prng,
    limits: &impl Limits,
    v: i64,
    least: i64,
    most: usize,
    scarcity: i64,
) -> Vec<Vec<u8>> {
    let setup = limits.own();
    let mut frames = Vec::new();
    for node in 0..setup.n {
        for ahead in held_range(setup, least) {
            if rng.one_in(scarcity) {
                frames.extend(held_frame(rng, limits, v, least, node, ahead));
            }
        }
    }
    while frames.len() > most {
        frames.swap_remove(rng.place(frames.len()));
    }
    sort(limits, v, &mut frames);
    frames
}

/// How far the r of a held frame may lie ahead of v.
pub(super) fn held_range(setup: &Setup, least: i64) -> std::ops::Range<i64> {
    least + 1 - setup.delta - 2 * setup.epsilon..setup.epsilon
}

/// A sound frame that may be held at v, of a width that the call knows: its sum not too far ahead,
/// its due clock not below the least. None where no c does that.
fn held_frame(
    rng: &mut Prng,
    limits: &impl Limits,
    v: i64,
    least: i64,
    node: i64,
    ahead: i64,
) -> Option<Vec<u8>> {
    let pair = frames::pair(rng, limits);
    let c = held_c(rng, limits, pair.epsilon, least, ahead)?;
    Some(frames::sound(rng, &pair, v, node, ahead, c))
}

/// A c for it, which is below this limit.
pub(super) fn held_c(
    rng: &mut Prng,
    limits: &impl Limits,
    limit: i64,
    least: i64,
    ahead: i64,
) -> Option<i64> {
    let epsilon = limits.own().epsilon;
    let lowest = (0..limit).find(|c| limits.due(ahead + c) >= least)?;
    let highest = (epsilon - 1 - ahead).min(epsilon.min(limit) - 1);
    if lowest > highest {
        return None;
    }
    let any = rng.range(lowest, highest);
    Some(rng.pick(&[lowest, highest, any]))
}

/// Sorts sound frames into delivery order.
fn sort(limits: &impl Limits, v: i64, frames: &mut [Vec<u8>]) {
    fn entry<'a>(limits: &impl Limits, v: i64, bytes: &'a [u8]) -> Entry<'a> {
        Entry::near(limits, v, Frame::parse(limits, bytes).expect("a sound frame"))
    }
    frames.sort_by(|a, b| entry(limits, v, a).order(&entry(limits, v, b)));
}

/// Breaks the order, or gives a node and r twice.
fn damage_frames(
    rng: &mut Prng,
    limits: &impl Limits,
    v: i64,
    least: i64,
    frames: &mut Vec<Vec<u8>>,
) {
    if frames.is_empty() {
        return;
    }
    let (at, other) = (rng.place(frames.len()), rng.place(frames.len()));
    let next = (at + 1).min(frames.len() - 1);
    match rng.below(4) {
        0 => frames.swap(at, other),
        1 => frames.insert(other, frames[at].clone()),
        2 => frames.swap(at, next),
        _ => {
            // The same node and r with another c, in order.
            let frame = Frame::parse(limits, &frames[at]).expect("a sound frame");
            let ahead = limits.own().near(frame.timestamp.r, v);
            if held_range(limits.own(), least).contains(&ahead) {
                frames.extend(held_frame(rng, limits, v, least, frame.node, ahead));
                sort(limits, v, frames);
            }
        }
    }
}

/// The queue's bytes, with zeros or junk after the frames.
pub fn assemble(rng: &mut Prng, setup: &Setup, frames: &[Vec<u8>]) -> Vec<u8> {
    assemble_in(rng, setup.holdback_len(), frames)
}

/// The same for a queue of this length.
pub(super) fn assemble_in(rng: &mut Prng, length: usize, frames: &[Vec<u8>]) -> Vec<u8> {
    let mut bytes = (frames.len() as u16).to_le_bytes().to_vec();
    bytes.extend(frames.iter().flatten());
    bytes.truncate(length);
    let left = length - bytes.len();
    bytes.extend(if rng.one_in(2) { vec![0; left] } else { rng.bytes(left) });
    bytes
}
