//! Calls of observers (02's listeners).

use super::{FreshCase, Prng, TickCase};
use crate::{Answer, Buffers, LastClock, Limits, Listening, Settings, Setup};

/// A call for an observer's start.
#[derive(Clone, Debug, PartialEq, Eq)]
pub struct FreshLastCase {
    /// The own number is not looked at, and may be any.
    pub setup: Setup,
    pub clock: i64,
    pub last: LastClock,
}

impl FreshLastCase {
    /// The call for an observer where a node starts with this one.
    pub fn of(case: FreshCase) -> Self {
        let FreshCase { setup, clock, state } = case;
        FreshLastCase { setup, clock, last: [state[0], state[1]] }
    }
}

/// An observer's call.
#[derive(Clone, Debug, PartialEq, Eq)]
pub struct ListenCase<S = Setup> {
    /// The own number is not looked at, and may be any.
    pub setup: S,
    pub clock: i64,
    pub last: LastClock,
    pub holdback: Vec<u8>,
    pub batch: Vec<u8>,
    pub verdicts: Vec<u8>,
    pub delivery: Vec<u8>,
}

impl<S: Settings> ListenCase<S> {
    /// The call of an observer where a node makes this one: its last clock is r of the tables.
    pub fn of(case: TickCase<S>) -> Self {
        let TickCase { setup, clock, state, holdback, batch, verdicts, delivery, .. } = case;
        ListenCase { setup, clock, last: [state[0], state[1]], holdback, batch, verdicts, delivery }
    }

    /// The call of an observer with another memory: a step of 0 to ε + 1, often from the clock 0, and
    /// any queue. Now and then the last clock is B too large: B itself where it should be 0.
    pub fn stepped(rng: &mut Prng, case: &TickCase<S>) -> Self {
        let Setup { epsilon, modulus, .. } = *case.setup.at(case.clock).own();
        let clock = if rng.one_in(4) { rng.range(1, epsilon) } else { case.clock };
        let mut case = Self::of(TickCase { clock, ..case.clone() }.stepped(rng));
        let larger = case.last_clock() + modulus;
        if let (Ok(larger), true) = (u16::try_from(larger), rng.one_in(4)) {
            case.last = larger.to_le_bytes();
        }
        case
    }

    /// The last clock as a number.
    pub fn last_clock(&self) -> i64 {
        u16::from_le_bytes(self.last).into()
    }

    /// Calls the oracle.
    pub fn run(&mut self) -> Answer {
        let call = Listening { setup: self.setup, clock: self.clock, batch: &self.batch };
        let mut buffers = Buffers {
            holdback: &mut self.holdback,
            verdicts: &mut self.verdicts,
            delivery: &mut self.delivery,
        };
        crate::listen(&call, &mut self.last, &mut buffers)
    }
}
