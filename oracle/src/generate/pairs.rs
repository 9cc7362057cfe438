//! Two frames for the comparison: they differ in one place, in none, or in many.

use super::spoil::Spoil;
use super::{frames, Prng};
use crate::{read, Frame, Limits, Setup, Timestamp};

/// A call of the comparison.
#[derive(Clone, Debug, PartialEq, Eq)]
pub struct CompareCase<S = Setup> {
    pub setup: S,
    pub clock: i64,
    pub first: Vec<u8>,
    pub second: Vec<u8>,
}

impl CompareCase {
    /// A call for two frames near a clock, often one close to where clocks wrap; an argument is
    /// now and then wrong.
    pub fn random(rng: &mut Prng, setup: Setup) -> Self {
        let clock = clock(rng, &setup);
        Self::near(rng, setup, clock)
    }
}

/// A clock, often one close to where clocks wrap.
pub fn clock(rng: &mut Prng, setup: &Setup) -> i64 {
    let (any, edge) = (rng.below(setup.modulus), rng.range(-setup.epsilon, setup.epsilon));
    rng.pick(&[any, edge.rem_euclid(setup.modulus), 0, setup.modulus - 1])
}

impl<S: Spoil> CompareCase<S> {
    /// A call for two frames near this clock; an argument is now and then wrong.
    pub fn near(rng: &mut Prng, mut setup: S, mut clock: i64) -> Self {
        let limits = &setup.at(clock);
        let modulus = limits.own().modulus;
        let mut first = match rng.one_in(2) {
            true => frames::near(rng, limits, clock),
            false => close(rng, limits, clock),
        };
        let mut second = match rng.one_in(4) {
            true => frames::near(rng, limits, clock),
            false => other(rng, &setup, &first),
        };
        if rng.one_in(2) {
            std::mem::swap(&mut first, &mut second);
        }
        match rng.below(12) {
            0 => frames::damage(rng, &frames::pair_of(&setup, &first), &mut first),
            1 => frames::damage(rng, &frames::pair_of(&setup, &second), &mut second),
            2 => clock = rng.pick(&[modulus, modulus + 1, clock + 65_536]),
            3 => setup.spoil(rng),
            _ => (),
        }
        CompareCase { setup, clock, first, second }
    }
}

/// A frame whose sum is less than ε before or after v.
fn close(rng: &mut Prng, limits: &impl Limits, v: i64) -> Vec<u8> {
    let (setup, pair) = (limits.own(), frames::pair(rng, limits));
    let (node, c) = (rng.below(setup.n), rng.below(setup.epsilon.min(pair.epsilon)));
    let sum = rng.range(1 - setup.epsilon, setup.epsilon - 1);
    frames::sound(rng, &pair, v, node, sum - c, c)
}

/// A frame that differs from another in one place that the order looks at, or in none; where frames
/// have two widths (02, 2.10) often of the other one, with the same counts as far as it has them.
fn other(rng: &mut Prng, settings: &impl Spoil, bytes: &[u8]) -> Vec<u8> {
    let Frame { mut node, timestamp, .. } = read(settings, bytes).expect("a sound frame");
    let Timestamp { mut r, mut c, kn } = timestamp;
    let mut setup = frames::pair_of(settings, bytes);
    let mut kn = kn.to_vec();
    let pair = frames::pair(rng, settings);
    if pair.epsilon != setup.epsilon && c < pair.epsilon {
        kn = (-pair.epsilon..pair.epsilon).map(|offset| timestamp.count(offset)).collect();
        setup = pair;
    }
    match rng.below(9) {
        0 => r = (r + rng.pick(&[1, setup.modulus - 1])) % setup.modulus,
        1 => node = rng.below(setup.n),
        2 | 5..=7 => {
            // at offsets −ε to c; the order leaves out the lowest of them
            let low = if rng.one_in(4) { -setup.epsilon } else { c - setup.epsilon + 1 };
            let offset = rng.range(low, c);
            let least = i64::from(offset == c);
            kn[(offset + setup.epsilon) as usize] = rng.range(least, setup.n) as u8;
        }
        3 if c > 0 => {
            // the same sum and counts, with r one later: each count one offset further down
            (r, c) = ((r + 1) % setup.modulus, c - 1);
            kn.remove(0);
            kn.push(0);
        }
        4 if c + 1 < setup.epsilon => {
            // the sum one later, by c
            c += 1;
            kn[(c + setup.epsilon) as usize] = 1;
        }
        _ => (),
    }
    let payload = rng.payload();
    frames::encode(node, &Timestamp { r, c, kn: &kn }, &payload)
}
