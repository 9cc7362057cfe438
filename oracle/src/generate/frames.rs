//! Random frames, sound and damaged.

use super::Prng;
use crate::{frame, Limits, Pairs, Setup, Timestamp};

/// How the counts of a frame are chosen.
#[derive(Clone, Copy)]
struct Style {
    /// All counts alike where they can be, so that the order has ties.
    flat: bool,
    /// Counts for v or later at most n − 1 where they can be, so that 15 is passed.
    tame: bool,
}

/// A frame of a node that passes 10 to 12, its r `ahead` of v.
pub fn sound(rng: &mut Prng, setup: &Setup, v: i64, node: i64, ahead: i64, c: i64) -> Vec<u8> {
    let (kn, payload) = contents(rng, setup, ahead, c);
    let r = (v + ahead).rem_euclid(setup.modulus);
    encode(node, &Timestamp { r, c, kn: &kn }, &payload)
}

/// Counts that are sound with c, for an r that is `ahead` of v, and a payload.
pub(super) fn contents(rng: &mut Prng, setup: &Setup, ahead: i64, c: i64) -> (Vec<u8>, Vec<u8>) {
    let style = Style { flat: rng.one_in(2), tame: !rng.one_in(4) };
    (counts(rng, setup, ahead, c, style), rng.payload())
}

/// Counts that are sound with c.
fn counts(rng: &mut Prng, setup: &Setup, ahead: i64, c: i64, style: Style) -> Vec<u8> {
    let top = rng.range(1, setup.n);
    let odd_one = rng.range(-setup.epsilon, setup.epsilon - 1);
    let count = |offset: i64| {
        let least = i64::from(offset == c);
        let tamed = style.tame && offset + ahead >= 0;
        let most = (setup.n - i64::from(tamed)).max(least);
        let any = rng.range(least, most);
        let flat = style.flat && offset != odd_one;
        match offset > c {
            true => 0,
            false if flat => top.clamp(least, most) as u8,
            false => any as u8,
        }
    };
    (-setup.epsilon..setup.epsilon).map(count).collect()
}

/// The bytes of a frame.
pub fn encode(node: i64, timestamp: &Timestamp, payload: &[u8]) -> Vec<u8> {
    let mut bytes = vec![0; 7 + timestamp.kn.len() + payload.len()];
    frame::put(node, timestamp, payload, &mut bytes);
    bytes
}

/// One of the pairs that a call knows of: a frame has its width.
pub fn pair(rng: &mut Prng, pairs: &impl Pairs) -> Setup {
    match pairs.pairs() {
        [old, new] if old.epsilon == new.epsilon => old,
        both => rng.pick(&both),
    }
}

/// A frame that is sound by its width and may fail each later check, mostly by little.
pub fn near(rng: &mut Prng, limits: &impl Limits, v: i64) -> Vec<u8> {
    let (node, ahead, mut c) = place_near(rng, limits.own());
    let pair = pair(rng, limits);
    if pair.epsilon != limits.own().epsilon {
        let any = rng.below(pair.epsilon);
        c = rng.pick(&[c.min(pair.epsilon - 1), any]);
    }
    sound(rng, &pair, v, node, ahead, c)
}

/// The node of such a frame, how far its r is ahead of v, and c.
pub(super) fn place_near(rng: &mut Prng, setup: &Setup) -> (i64, i64, i64) {
    let oldest = -(setup.delta + setup.epsilon);
    let any = rng.range(oldest - 1, setup.epsilon);
    let ahead = rng.pick(&[any, any, any, 0, oldest, oldest - 1, setup.epsilon - 1]);
    let any = rng.below(setup.epsilon);
    let highest = (setup.epsilon - 1 - ahead).clamp(0, setup.epsilon - 1);
    let c = rng.pick(&[0, any, highest]);
    (rng.below(setup.n), ahead, c)
}

/// Changes a frame so that it mostly fails one of 10 to 12.
pub fn damage(rng: &mut Prng, setup: &Setup, frame: &mut Vec<u8>) {
    let r = (setup.modulus as u16).wrapping_add(rng.range(-1, 1) as u16);
    damage_with(rng, setup, &r.to_le_bytes(), frame);
}

/// The same, with the bytes of an r, of which a frame has as many.
pub(super) fn damage_with(rng: &mut Prng, setup: &Setup, r: &[u8], frame: &mut Vec<u8>) {
    let width = setup.width();
    let second_at = 2 + r.len();
    let c_at = second_at + 1;
    let length_at = c_at + 1 + width;
    match rng.below(10) {
        0 => frame.truncate(rng.place(frame.len())),
        1 => frame.push(rng.bits() as u8),
        2 => frame[1] = rng.pick(&[setup.n, setup.n + 1, 255]) as u8,
        3 => frame[2..second_at].copy_from_slice(r),
        4 => frame[c_at] = rng.pick(&[0, setup.epsilon - 1, setup.epsilon, 255]) as u8,
        5 => frame[c_at + 1 + rng.place(width)] = rng.pick(&[0, setup.n, setup.n + 1, 255]) as u8,
        6 => frame[length_at] = frame[length_at].wrapping_add(rng.pick(&[1, 255])),
        7 => {
            frame.truncate(length_at);
            frame.push(33);
            frame.extend(rng.bytes(33));
        }
        8 => {
            let at = rng.pick(&[0, second_at]);
            frame[at] = frame[at].wrapping_add(rng.pick(&[1, 255]));
        }
        _ => {
            let at = rng.place(frame.len());
            frame[at] ^= 1 << rng.below(8);
        }
    }
}

/// Any bytes for a batch's entry: mostly a frame near v, damaged now and then.
pub fn any(rng: &mut Prng, limits: &impl Limits, v: i64) -> Vec<u8> {
    if rng.one_in(12) {
        let length = rng.pick(&[0, 1, 7, limits.widest().longest_frame(), 71, 255]);
        return rng.bytes(length);
    }
    let mut frame = near(rng, limits, v);
    if rng.one_in(3) {
        damage(rng, &pair_of(limits, &frame), &mut frame);
    }
    frame
}

/// The pair that has the width of a sound frame.
pub fn pair_of(pairs: &impl Pairs, frame: &[u8]) -> Setup {
    let [old, new] = pairs.pairs();
    if usize::from(frame[4]) == 1 + old.width() {
        old
    } else {
        new
    }
}
