//! Polls: of queues that ticks left, at their clock and at others, and of any queues.

use super::spoil::{self, Spoil};
use super::{memory, Prng, TickCase};
use crate::{holdback, Limits, Outlook, Setup};

/// A call of the poll.
#[derive(Clone, Debug, PartialEq, Eq)]
pub struct PollCase<S = Setup> {
    pub setup: S,
    pub clock: i64,
    pub within: u16,
    pub holdback: Vec<u8>,
}

impl<S: Spoil> PollCase<S> {
    /// A poll of a queue at a clock, its bound mostly close to a due clock.
    pub fn of(rng: &mut Prng, setup: S, clock: i64, holdback: Vec<u8>) -> Self {
        let within = bound(rng, &setup.at(clock), clock, &holdback);
        PollCase { setup, clock, within, holdback }
    }

    /// The poll after an accepted tick, which left this.
    pub fn after(rng: &mut Prng, left: &TickCase<S>) -> Self {
        Self::of(rng, left.setup, left.clock, left.holdback.clone())
    }

    /// A poll of what a tick left at a later clock or one before, or of any queue, often close to
    /// where clocks wrap; arguments are now and then wrong.
    pub fn random(rng: &mut Prng, left: &TickCase<S>) -> Self {
        let (setup, settings) = (left.setup.widest(), left.setup);
        let longest = setup.delta + 2 * setup.epsilon;
        let any = rng.below(setup.modulus);
        let other = left.clock + rng.range(-1, longest);
        let edge = setup.modulus - rng.range(1, longest);
        let mut case = if rng.one_in(4) {
            Self::of(rng, settings, other.rem_euclid(setup.modulus), left.holdback.clone())
        } else {
            let clock = rng.pick(&[any, edge]);
            let limits = &settings.at(clock);
            let overdue = rng.range(-limits.own().epsilon, 0);
            let least = rng.pick(&[1, 1, 1, 0, overdue]);
            let holdback = memory::holdback(rng, limits, clock, least);
            Self::of(rng, settings, clock, holdback)
        };
        while rng.one_in(4) {
            case.spoil(rng);
        }
        case
    }

    /// Calls the oracle.
    pub fn run(&self) -> Result<Outlook, u8> {
        crate::poll(&self.setup, self.clock, self.within, &self.holdback)
    }

    /// Spoils one argument.
    fn spoil(&mut self, rng: &mut Prng) {
        match rng.below(3) {
            0 => self.setup.spoil(rng),
            1 => spoil::spoil_clock(rng, &self.setup.widest(), &mut self.clock),
            _ => spoil::spoil_length(rng, &mut self.holdback),
        }
    }
}

/// How many ticks a poll looks ahead: to a due clock, one less or one more, none, all, or any.
fn bound(rng: &mut Prng, limits: &impl Limits, v: i64, bytes: &[u8]) -> u16 {
    let mut dues: Vec<i64> = holdback::dues(limits, v, bytes).collect();
    dues.push(limits.own().delta + limits.own().epsilon);
    let (due, any) = (rng.pick(&dues), rng.below(65_536));
    let within = rng.pick(&[due - 1, due, due, due + 1, dues[0] - 1, dues[0], 0, 65_535, any]);
    within.clamp(0, 65_535) as u16
}
