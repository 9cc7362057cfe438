//! Setups with both pairs (02, 2.10), and where V lies to a call.

use super::cases::random_state;
use super::{frames, memory, Prng, TickCase};
use crate::{batch, Both, ClockState, Limits, Settings, Setup};

/// A valid setup with both pairs: often small, the pairs often equal in one limit and now and then
/// in both, B often at its least. V and the mark are any.
pub fn setup(rng: &mut Prng) -> Both {
    let old = super::setup(rng);
    let wider = |rng: &mut Prng, least: i64, most: i64| {
        let little = (least + rng.range(1, 3)).min(most);
        let any = rng.range(least, most);
        let any = if rng.one_in(8) { any } else { little };
        rng.pick(&[least, little, little, any])
    };
    let wider_epsilon = wider(rng, old.epsilon, 16);
    let wider_delta = wider(rng, old.delta, 64);
    let mut both = Both { old, wider_epsilon, wider_delta, change: 0, marked: 0 };
    both.old.modulus = modulus(rng, &both);
    both.change = rng.below(both.old.modulus);
    both.marked = rng.below(2);
    both
}

/// A B for both pairs.
fn modulus(rng: &mut Prng, both: &Both) -> i64 {
    let least = both.old.least_modulus().max(both.wider().least_modulus());
    match rng.below(8) {
        0..=3 => least,
        4..=5 => least + rng.range(1, 8),
        6 => rng.range(least, 65_535),
        _ => 65_535,
    }
}

/// The same setup with V close to a clock v on either side, or at it, mostly with the mark that is
/// right if V is the nearest such clock; now and then V and the mark are any.
pub fn aimed(rng: &mut Prng, both: Both, v: i64) -> Both {
    let Both { old: Setup { modulus, .. }, wider_epsilon, wider_delta, .. } = both;
    let reach = wider_delta + 4 * wider_epsilon;
    let close = rng.range(-wider_epsilon, wider_epsilon);
    let any = rng.range(-reach, reach);
    let ahead = rng.pick(&[close, close, any, any, 0, 1, -1]);
    let right = i64::from(ahead <= 0);
    let marked = if rng.one_in(6) { 1 - right } else { right };
    let change = if rng.one_in(16) { rng.below(modulus) } else { v + ahead };
    Both { change: change.rem_euclid(modulus), marked, ..both }
}

impl TickCase<Both> {
    /// The same call with V elsewhere.
    pub fn aimed(&self, rng: &mut Prng) -> Self {
        TickCase { setup: aimed(rng, self.setup, self.clock), ..self.clone() }
    }

    /// The same call after the longest step, with a queue at its count limit or a little above.
    pub fn crowded(&self, rng: &mut Prng) -> Self {
        let (limits, v) = (&self.setup.at(self.clock), self.clock);
        let step = limits.own().epsilon;
        let most = limits.own().capacity() + rng.place(3);
        let state = memory::sound_state(rng, limits, v, step);
        let holdback = memory::crowd(rng, limits, v, 1 - step, most);
        TickCase { state, holdback, ..self.clone() }
    }
}

/// A node's memory on its way through V with both pairs, in an air of frames that nobody sent.
pub struct Walk {
    setup: Both,
    /// V and the node's clock as true clocks.
    change: i64,
    clock: i64,
    state: ClockState,
    holdback: Vec<u8>,
    /// Frames that it heard lately.
    heard: Vec<Vec<u8>>,
}

impl Walk {
    /// From any memory, mostly shortly before V, now and then where calls with both pairs start.
    pub fn start(rng: &mut Prng) -> Self {
        let setup = setup(rng);
        let Both { old: Setup { modulus, .. }, wider_epsilon, wider_delta, .. } = setup;
        let change = 2 * modulus + setup.change;
        let close = rng.range(1, wider_delta + 4 * wider_epsilon);
        let clock = change - rng.pick(&[close, close, close, modulus]);
        let (state, holdback) = (random_state(rng), Vec::new());
        let mut walk = Walk { setup, change, clock, state, holdback, heard: Vec::new() };
        let v = clock + 1;
        let setup = walk.setup_for(v);
        let case = TickCase::idle(rng, setup, v % modulus, state, Vec::new()).stepped(rng);
        (walk.state, walk.holdback) = (case.state, case.holdback);
        walk
    }

    /// The setup of a call for this clock.
    fn setup_for(&self, v: i64) -> Both {
        Both { marked: i64::from(v >= self.change), ..self.setup }
    }

    /// The next call, which is not yet made; none once V is B behind.
    pub fn next_case(&mut self, rng: &mut Prng) -> Option<TickCase<Both>> {
        let Both { old, wider_epsilon, .. } = self.setup;
        let any = rng.range(1, wider_epsilon);
        let v = self.clock + rng.pick(&[1, 1, any, old.epsilon.min(any)]);
        if v >= self.change + old.modulus {
            return None;
        }
        let (setup, clock) = (self.setup_for(v), v % old.modulus);
        let mut case = TickCase::idle(rng, setup, clock, self.state, self.holdback.clone());
        let mut heard: Vec<Vec<u8>> =
            (0..rng.range(0, 6)).map(|_| frames::any(rng, &setup.at(clock), clock)).collect();
        for frame in &self.heard {
            if rng.one_in(4) {
                heard.insert(rng.place(heard.len() + 1), frame.clone());
            }
        }
        heard.truncate(40);
        case.batch = batch::encode(&heard);
        case.send = rng.one_in(2);
        case.payload = rng.payload();
        self.heard = heard;
        self.heard.truncate(12);
        self.clock = v;
        Some(case)
    }

    /// Takes over what an accepted call left.
    pub fn settle(&mut self, left: TickCase<Both>) {
        (self.state, self.holdback) = (left.state, left.holdback);
    }
}
