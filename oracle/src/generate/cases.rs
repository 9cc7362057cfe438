//! One call with all its arguments and buffers.

use super::spoil::Spoil;
use super::{memory, Prng};
use crate::words::LINE;
use crate::{node, Answer, Both, Buffers, Call, ClockState, Limits, Settings, Setup};

/// How much too large a number or a length can be and look right, cut to one byte or two.
pub(super) const FAR: [i64; 2] = [256, 65_536];

/// The numbers that a judgement gives.
const NUMBERS: [u8; 8] = [0, 10, 11, 12, 13, 14, 15, 16];

/// Some that none gives. 17 had a line of words before 02's 2.7.
const OTHERS: [u8; 5] = [1, 9, 17, 18, 255];

/// A call of the tick.
#[derive(Clone, Debug, PartialEq, Eq)]
pub struct TickCase<S = Setup> {
    pub setup: S,
    pub clock: i64,
    pub state: ClockState,
    pub holdback: Vec<u8>,
    pub batch: Vec<u8>,
    pub send: bool,
    pub payload: Vec<u8>,
    pub outgoing: Vec<u8>,
    pub verdicts: Vec<u8>,
    pub delivery: Vec<u8>,
}

impl<S: Settings> TickCase<S> {
    /// A call that hears and sends nothing, with random bytes in its buffers, which are long
    /// enough, often not longer and rarely much longer.
    pub fn idle(
        rng: &mut Prng,
        setup: S,
        clock: i64,
        state: ClockState,
        holdback: Vec<u8>,
    ) -> Self {
        let widest = setup.widest();
        TickCase {
            setup,
            clock,
            state,
            holdback,
            batch: vec![0],
            send: false,
            payload: Vec::new(),
            outgoing: buffer(rng, widest.longest_frame()),
            verdicts: buffer(rng, crate::setup::VERDICTS),
            delivery: buffer(rng, widest.holdback_len()),
        }
    }

    /// The same call with another memory: tables that are sound but for the step, which is 0 to
    /// ε + 1, and any queue beside them.
    pub fn stepped(&self, rng: &mut Prng) -> Self {
        let (limits, v) = (&self.setup.at(self.clock), self.clock);
        let setup = limits.own();
        let any = rng.range(1, setup.epsilon);
        let step = rng.pick(&[0, 1, any, any, setup.epsilon, setup.epsilon + 1]);
        let state = memory::sound_state(rng, limits, v, step);
        let sound = node::tables(limits, v, &state).sound_step(setup, v);
        let least = memory::least_due(rng, setup, sound);
        let holdback = memory::holdback(rng, limits, v, least);
        TickCase { state, holdback, ..self.clone() }
    }

    /// The same call with another setup, of any kind.
    pub fn with<T>(self, setup: T) -> TickCase<T> {
        let TickCase { clock, state, holdback, batch, send, payload, .. } = self;
        let TickCase { outgoing, verdicts, delivery, .. } = self;
        TickCase {
            setup,
            clock,
            state,
            holdback,
            batch,
            send,
            payload,
            outgoing,
            verdicts,
            delivery,
        }
    }

    /// Calls the oracle.
    pub fn run(&mut self) -> Answer {
        let call = Call {
            setup: self.setup,
            clock: self.clock,
            batch: &self.batch,
            send: self.send,
            payload: &self.payload,
        };
        let mut buffers = Buffers {
            holdback: &mut self.holdback,
            verdicts: &mut self.verdicts,
            delivery: &mut self.delivery,
        };
        crate::tick(&call, &mut self.state, &mut self.outgoing, &mut buffers)
    }
}

/// A call for a node's start.
#[derive(Clone, Debug, PartialEq, Eq)]
pub struct FreshCase<S = Setup> {
    pub setup: S,
    pub clock: i64,
    pub state: ClockState,
}

impl<S: Spoil> FreshCase<S> {
    /// A call for some clock, often the first or the last, each argument sometimes wrong.
    pub fn random(rng: &mut Prng, mut setup: S) -> Self {
        let modulus = setup.widest().modulus;
        let any = rng.below(modulus);
        let mut clock = rng.pick(&[any, any, 0, modulus - 1]);
        if rng.one_in(4) {
            super::spoil::spoil_clock(rng, &setup.widest(), &mut clock);
        }
        if rng.one_in(4) {
            setup.spoil(rng);
        }
        FreshCase { setup, clock, state: random_state(rng) }
    }
}

/// A call of the reader alone.
#[derive(Clone, Debug, PartialEq, Eq)]
pub struct ReadCase<S = Setup> {
    pub setup: S,
    pub frame: Vec<u8>,
    pub state: ClockState,
}

impl<S: Spoil> ReadCase<S> {
    /// A call for some frame near v, the setup rarely wrong, and rarely a frame with more after
    /// it than a batch's entry can have.
    pub fn random(rng: &mut Prng, mut setup: S, v: i64) -> Self {
        let mut frame = super::frames::any(rng, &setup.at(v), v);
        if rng.one_in(16) {
            let more = rng.pick(&FAR);
            frame.extend(rng.bytes(more as usize));
        }
        if rng.one_in(16) {
            setup.spoil(rng);
        }
        ReadCase { setup, frame, state: random_state(rng) }
    }
}

/// A call of the writer alone.
#[derive(Clone, Debug, PartialEq, Eq)]
pub struct WriteCase {
    pub setup: Setup,
    pub node: i64,
    pub state: ClockState,
    pub payload: Vec<u8>,
    pub out: Vec<u8>,
}

impl WriteCase {
    /// A call for some clock state, each argument sometimes wrong.
    pub fn random(rng: &mut Prng, setup: Setup, v: i64) -> Self {
        let mut case = Self::random_in(rng, setup, v);
        if rng.one_in(16) {
            super::spoil::spoil_setup(rng, &mut case.setup);
        }
        case.out = rng.bytes(case.out.len());
        case
    }

    /// The same with this setup, and zeros in the buffer.
    fn random_in(rng: &mut Prng, setup: Setup, v: i64) -> Self {
        let state = memory::state(rng, &setup, v);
        let node = rng.below(setup.n);
        let wrong = rng.pick(&[setup.n, node + FAR[0], node + FAR[1], u32::MAX.into()]);
        let node = if rng.one_in(8) { wrong } else { node };
        let payload = if rng.one_in(8) { rng.bytes(33) } else { rng.payload() };
        let exact = 7 + setup.width() as i64 + payload.len() as i64;
        let far = exact + rng.pick(&FAR);
        let length = rng.pick(&[exact, exact + 1, exact - 1, 71, far]);
        WriteCase { setup, node, state, payload, out: vec![0; length as usize] }
    }
}

/// A call of the writer of a setup with both pairs.
#[derive(Clone, Debug, PartialEq, Eq)]
pub struct WriteInCase {
    pub setup: Both,
    /// Has the frame the wider pair's counts?
    pub wide: bool,
    pub node: i64,
    pub state: ClockState,
    pub payload: Vec<u8>,
    pub out: Vec<u8>,
}

impl WriteInCase {
    /// A call for some tables of either width; now and then a c that only the other pair allows, and
    /// each argument sometimes wrong.
    pub fn random(rng: &mut Prng, mut setup: Both, v: i64) -> Self {
        let pairs = [setup.old, setup.wider()];
        let wide = rng.one_in(2);
        let pair = pairs[usize::from(wide != rng.one_in(8))];
        let WriteCase { node, mut state, payload, mut out, .. } =
            WriteCase::random_in(rng, pair, v);
        out = rng.bytes(out.len());
        if rng.one_in(8) {
            state[2] = rng.pick(&pairs).epsilon as u8 - 1;
        }
        if rng.one_in(16) {
            setup.spoil(rng);
        }
        WriteInCase { setup, wide, node, state, payload, out }
    }
}

/// A call of the words.
#[derive(Clone, Debug, PartialEq, Eq)]
pub struct WordsCase<S = Setup> {
    pub setup: S,
    pub batch: Vec<u8>,
    pub verdicts: Vec<u8>,
    pub text: Vec<u8>,
}

impl<S: Spoil> WordsCase<S> {
    /// What an accepted tick heard and judged, with a text buffer that is long enough, often not
    /// longer.
    pub fn judged(rng: &mut Prng, case: &TickCase<S>) -> Self {
        let more = if rng.one_in(32) { FAR[0] } else { rng.range(-2, 2).max(0) };
        let length = LINE * usize::from(case.batch[0]) + more as usize;
        WordsCase {
            setup: case.setup,
            batch: case.batch.clone(),
            verdicts: case.verdicts.clone(),
            text: rng.bytes(length),
        }
    }

    /// The same with one argument changed: verdicts that are not these frames', or one that is
    /// no verdict; a setup, a batch or a buffer that mostly is wrong.
    pub fn spoil(mut self, rng: &mut Prng) -> Self {
        let count = usize::from(self.batch[0]);
        match rng.below(8) {
            0 => self.setup.spoil(rng),
            1 => super::spoil::spoil_batch(rng, &mut self.batch),
            2 => super::spoil::shorten(rng, &mut self.verdicts, count),
            3 => super::spoil::shorten(rng, &mut self.text, LINE * count),
            4 => {
                let at = rng.place(count.min(self.verdicts.len() - 1) + 1);
                self.verdicts[at] = rng.pick(&OTHERS);
            }
            _ => self.verdicts.iter_mut().for_each(|number| *number = rng.pick(&NUMBERS)),
        }
        self
    }

    /// The first of the frames' verdicts that no judgement gives, if there is one.
    pub fn no_verdict(&self) -> Option<u8> {
        let verdicts = self.verdicts.get(..self.batch[0].into())?;
        verdicts.iter().copied().find(|number| !NUMBERS.contains(number))
    }
}

/// A buffer of random bytes that is long enough, often not longer and rarely much longer.
pub(super) fn buffer(rng: &mut Prng, least: usize) -> Vec<u8> {
    let more = if rng.one_in(32) { rng.pick(&FAR) } else { rng.range(-2, 2).max(0) };
    rng.bytes(least + more as usize)
}

/// A clock state of random bytes.
pub fn random_state(rng: &mut Prng) -> ClockState {
    let bytes = rng.bytes(size_of::<ClockState>());
    bytes.try_into().expect("as many bytes as asked for")
}
