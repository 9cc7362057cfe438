//! Calls that should be refused.

use super::{Prng, TickCase};
use crate::setup::VERDICTS;
use crate::{Both, Settings, Setup};

/// A setup of which a number can be put outside its limits.
pub trait Spoil: Settings {
    fn spoil(&mut self, rng: &mut Prng);
}

impl Spoil for Setup {
    fn spoil(&mut self, rng: &mut Prng) {
        spoil_setup(rng, self);
    }
}

impl Spoil for Both {
    /// Any of the nine numbers; often both pairs are in their limits and the wider is the smaller, by
    /// one or by all, now and then one of them is out of them besides.
    fn spoil(&mut self, rng: &mut Prng) {
        let huge = i64::from(u32::MAX);
        let (epsilon, delta) = (self.old.epsilon, self.old.delta);
        match rng.below(8) {
            0 | 1 => spoil_setup(rng, &mut self.old),
            2 => self.wider_epsilon = rng.pick(&[0, (epsilon - 1).max(0), 17, huge]),
            3 => self.wider_delta = rng.pick(&[(delta - 1).max(0), 65, 256, huge]),
            4 => {
                let b = self.old.modulus.min(65_535);
                self.change = rng.pick(&[b, b + 1, 65_536 + self.change.min(b), huge]);
            }
            5 => self.marked = rng.pick(&[2, 3, 256, 257, huge]),
            6 => self.old.modulus = (self.wider().least_modulus() - 1).clamp(0, huge),
            _ => {
                std::mem::swap(&mut self.old.epsilon, &mut self.wider_epsilon);
                if rng.one_in(2) {
                    std::mem::swap(&mut self.old.delta, &mut self.wider_delta);
                }
            }
        }
    }
}

/// Spoils one argument of a call, rarely more.
pub fn spoil<S: Spoil>(rng: &mut Prng, case: &mut TickCase<S>) {
    loop {
        let (outgoing, delivery) = least_lengths(&case.setup);
        match rng.below(9) {
            0 => case.setup.spoil(rng),
            1 => spoil_clock(rng, &case.setup.widest(), &mut case.clock),
            2 => spoil_length(rng, &mut case.holdback),
            3 => {
                let length = rng.pick(&[33, 34, 64, 255, 256, 300, 65_536]);
                case.payload = rng.bytes(length);
            }
            4 | 5 => spoil_batch(rng, &mut case.batch),
            6 => shorten(rng, &mut case.outgoing, outgoing),
            7 => shorten(rng, &mut case.delivery, delivery),
            _ => shorten(rng, &mut case.verdicts, VERDICTS),
        }
        if !rng.one_in(4) {
            return;
        }
    }
}

/// The least lengths of the outgoing and the delivery buffer; 0 where the setup is wrong.
fn least_lengths(setup: &impl Settings) -> (usize, usize) {
    if setup.check().is_ok() {
        (setup.widest().longest_frame(), setup.widest().holdback_len())
    } else {
        (0, 0)
    }
}

/// Puts one number of the setup outside its limits, by little or by much.
pub fn spoil_setup(rng: &mut Prng, setup: &mut Setup) {
    let huge = i64::from(u32::MAX);
    match rng.below(5) {
        0 => setup.n = rng.pick(&[0, 17, 256, huge]),
        1 => setup.epsilon = rng.pick(&[0, 17, 256, huge]),
        2 => setup.delta = rng.pick(&[65, 256, huge]),
        3 => setup.modulus = rng.pick(&[0, setup.least_modulus() - 1, 65_536, huge]).min(huge),
        _ => setup.own = rng.pick(&[setup.n, 16, 256, huge]),
    }
}

/// A clock that is not below B; some would be, cut to two bytes.
pub fn spoil_clock(rng: &mut Prng, setup: &Setup, clock: &mut i64) {
    let modulus = setup.modulus.min(65_536);
    let wide = 65_536 + *clock % 65_536;
    *clock = rng.pick(&[modulus, modulus + 1, wide, u32::MAX.into()]);
}

/// Makes a buffer a little longer or shorter, much longer, or empty.
pub fn spoil_length(rng: &mut Prng, buffer: &mut Vec<u8>) {
    match rng.below(4) {
        0 => buffer.push(0),
        1 => buffer.truncate(buffer.len().saturating_sub(1)),
        2 => buffer.resize(buffer.len() + 65_536, 0),
        _ => buffer.clear(),
    }
}

/// Makes a buffer shorter than its least length, by one or by all.
pub fn shorten(rng: &mut Prng, buffer: &mut Vec<u8>, least: usize) {
    let length = rng.pick(&[0, least.saturating_sub(1)]);
    buffer.truncate(length);
}

/// A batch that mostly does not end after its last entry.
pub fn spoil_batch(rng: &mut Prng, batch: &mut Vec<u8>) {
    match rng.below(5) {
        0 => batch.clear(),
        1 => batch.push(rng.bits() as u8),
        2 => batch.truncate(rng.place(batch.len().max(1))),
        3 if !batch.is_empty() => batch[0] = batch[0].wrapping_add(rng.pick(&[1, 255])),
        _ => *batch = rng.bytes(40),
    }
}
