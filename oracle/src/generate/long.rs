//! Calls of engines with long clocks (02, 2.9): of good runs, and with other frames, another memory and
//! wrong arguments. Of the setup B is used to make clock states, and the calls do not look at it.

use super::cases::{buffer, FAR};
use super::{frames, memory, spoil, Prng};
use crate::long::{self, holdback_len, longest_frame, CAPACITY};
use crate::setup::VERDICTS;
use crate::{batch, engine, Answer, Buffers, ClockState, LongCall, LongState, Setup, Timestamp};

/// The first clock that an engine does not take.
pub const BOUND: u64 = 1 << 63;

/// A call of an engine's tick.
#[derive(Clone, Debug, PartialEq, Eq)]
pub struct LongCase {
    pub setup: Setup,
    pub clock: u64,
    pub state: LongState,
    pub holdback: Vec<u8>,
    pub batch: Vec<u8>,
    pub send: bool,
    pub payload: Vec<u8>,
    pub outgoing: Vec<u8>,
    pub verdicts: Vec<u8>,
    pub delivery: Vec<u8>,
}

impl LongCase {
    /// A call that hears and sends nothing, with random bytes in its buffers.
    pub fn idle(
        rng: &mut Prng,
        setup: Setup,
        clock: u64,
        state: LongState,
        holdback: Vec<u8>,
    ) -> Self {
        LongCase {
            setup,
            clock,
            state,
            holdback,
            batch: vec![0],
            send: false,
            payload: Vec::new(),
            outgoing: buffer(rng, longest_frame(&setup)),
            verdicts: buffer(rng, VERDICTS),
            delivery: buffer(rng, holdback_len(&setup)),
        }
    }

    /// The same call with another memory: tables that are sound but for the step, which is 0 to ε + 1,
    /// or any, and any queue beside them.
    pub fn stepped(&self, rng: &mut Prng) -> Self {
        let setup = &self.setup;
        let any = rng.range(1, setup.epsilon);
        let step = rng.pick(&[0, 1, any, any, setup.epsilon, setup.epsilon + 1]);
        let v = reduced(setup, self.clock);
        let state = match rng.one_in(4) {
            true => memory::state(rng, setup, v),
            false => memory::sound_state(rng, setup, v, step),
        };
        let state = state_at(rng, setup, self.clock, &state);
        let holdback = beside(rng, setup, self.clock, &state);
        LongCase { state, holdback, ..self.clone() }
    }

    /// The same call with frames that nobody sent among those that are heard, damaged ones and repeats
    /// of held ones, now and then very many.
    pub fn noisy(mut self, rng: &mut Prng) -> Self {
        let held = frames_of(&self.setup, &self.holdback);
        let heard = batch::entries(&self.batch).expect("an exact batch");
        let mut heard: Vec<Vec<u8>> = heard.into_iter().map(<[u8]>::to_vec).collect();
        let flood = if rng.one_in(16) { 120 } else { 5 };
        for _ in 0..rng.range(0, flood) {
            let frame = match held.is_empty() || !rng.one_in(4) {
                true => any(rng, &self.setup, self.clock),
                false => held[rng.place(held.len())].clone(),
            };
            heard.insert(rng.place(heard.len() + 1), frame);
        }
        heard.truncate(255);
        self.batch = batch::encode(&heard);
        self
    }

    /// Spoils one argument, rarely more.
    pub fn spoil(mut self, rng: &mut Prng) -> Self {
        loop {
            let setup = self.setup;
            let lengths = match long::is_valid(&setup) {
                true => [longest_frame(&setup), holdback_len(&setup)],
                false => [0; 2],
            };
            match rng.below(10) {
                0 | 1 => spoil::spoil_setup(rng, &mut self.setup),
                2 => self.clock = odd_clock(rng, self.clock),
                3 => spoil::spoil_length(rng, &mut self.holdback),
                4 => {
                    let length = rng.pick(&[33, 34, 64, 255, 256, 300, 65_536]);
                    self.payload = rng.bytes(length);
                }
                5 | 6 => spoil::spoil_batch(rng, &mut self.batch),
                7 => spoil::shorten(rng, &mut self.outgoing, lengths[0]),
                8 => spoil::shorten(rng, &mut self.delivery, lengths[1]),
                _ => spoil::shorten(rng, &mut self.verdicts, VERDICTS),
            }
            if !rng.one_in(4) {
                return self;
            }
        }
    }

    /// Calls the oracle.
    pub fn run(&mut self) -> Answer {
        let call = LongCall {
            setup: self.setup,
            clock: self.clock,
            batch: &self.batch,
            send: self.send,
            payload: &self.payload,
        };
        let mut buffers = Buffers {
            holdback: &mut self.holdback,
            verdicts: &mut self.verdicts,
            delivery: &mut self.delivery,
        };
        crate::long_tick(&call, &mut self.state, &mut self.outgoing, &mut buffers)
    }
}

/// A call for an engine's start.
#[derive(Clone, Debug, PartialEq, Eq)]
pub struct LongFreshCase {
    pub setup: Setup,
    pub clock: u64,
    pub state: LongState,
}

impl LongFreshCase {
    /// A call for this clock or one that is mostly none, the setup sometimes wrong.
    pub fn random(rng: &mut Prng, mut setup: Setup, clock: u64) -> Self {
        let clock = if rng.one_in(2) { odd_clock(rng, clock) } else { clock };
        if rng.one_in(4) {
            spoil::spoil_setup(rng, &mut setup);
        }
        LongFreshCase { setup, clock, state: random_tables(rng) }
    }
}

/// A call of an engine's reader alone.
#[derive(Clone, Debug, PartialEq, Eq)]
pub struct LongReadCase {
    pub setup: Setup,
    pub frame: Vec<u8>,
    pub state: LongState,
}

impl LongReadCase {
    /// A call for some frame near v, the setup rarely wrong, and rarely a frame with more after it
    /// than a batch's entry can have.
    pub fn random(rng: &mut Prng, mut setup: Setup, v: u64) -> Self {
        let mut frame = any(rng, &setup, v);
        if rng.one_in(16) {
            let more = rng.pick(&FAR);
            frame.extend(rng.bytes(more as usize));
        }
        if rng.one_in(16) {
            spoil::spoil_setup(rng, &mut setup);
        }
        LongReadCase { setup, frame, state: random_tables(rng) }
    }
}

/// A call of an engine's writer alone.
#[derive(Clone, Debug, PartialEq, Eq)]
pub struct LongWriteCase {
    pub setup: Setup,
    pub node: i64,
    pub state: LongState,
    pub payload: Vec<u8>,
    pub out: Vec<u8>,
}

impl LongWriteCase {
    /// A call for some tables, each argument sometimes wrong.
    pub fn random(rng: &mut Prng, mut setup: Setup, v: u64) -> Self {
        let state = memory::state(rng, &setup, reduced(&setup, v));
        let state = state_at(rng, &setup, v, &state);
        let node = rng.below(setup.n);
        let wrong = rng.pick(&[setup.n, node + FAR[0], node + FAR[1], u32::MAX.into()]);
        let node = if rng.one_in(8) { wrong } else { node };
        let payload = if rng.one_in(8) { rng.bytes(33) } else { rng.payload() };
        let exact = 13 + setup.width() as i64 + payload.len() as i64;
        let far = exact + rng.pick(&FAR);
        let length = rng.pick(&[exact, exact + 1, exact - 1, exact - 6, 77, far]);
        if rng.one_in(16) {
            spoil::spoil_setup(rng, &mut setup);
        }
        LongWriteCase { setup, node, state, payload, out: rng.bytes(length as usize) }
    }
}

/// A clock modulo B.
fn reduced(setup: &Setup, clock: u64) -> i64 {
    (clock % setup.modulus as u64) as i64
}

/// Tables of random bytes.
fn random_tables(rng: &mut Prng) -> LongState {
    let bytes = rng.bytes(size_of::<LongState>());
    bytes.try_into().expect("as many bytes as asked for")
}

/// A clock that an engine takes or, mostly, not; it is close to another in some of its bytes.
fn odd_clock(rng: &mut Prng, clock: u64) -> u64 {
    let odd = [BOUND, BOUND, BOUND - 1, BOUND + 1, u64::MAX, clock | BOUND, clock.swap_bytes()];
    rng.pick(&odd)
}

/// A station's clock state as an engine's tables at v: r the same step before v, rarely another one,
/// and rarely junk all over.
fn state_at(rng: &mut Prng, setup: &Setup, v: u64, state: &ClockState) -> LongState {
    if rng.one_in(16) {
        return random_tables(rng);
    }
    let r = u16::from_le_bytes([state[0], state[1]]).into();
    let r = v.wrapping_sub(setup.step(r, reduced(setup, v)) as u64);
    let r = if rng.one_in(16) { odd_clock(rng, r) } else { r };
    let mut tables = [0; size_of::<LongState>()];
    tables[..8].copy_from_slice(&r.to_le_bytes());
    tables[8..].copy_from_slice(&state[2..]);
    tables
}

/// Any queue beside these tables at v, its due clocks mostly such that it is sound.
fn beside(rng: &mut Prng, setup: &Setup, v: u64, tables: &LongState) -> Vec<u8> {
    let tables = long::of_state(setup, tables);
    let step = i64::try_from(v).ok().and_then(|v| engine::sound_step(setup, &tables, v));
    let least = memory::least_due(rng, setup, step);
    holdback(rng, setup, v, least)
}

/// Any memory of an engine before its call for v: tables and queue.
pub fn memory(rng: &mut Prng, setup: &Setup, v: u64) -> (LongState, Vec<u8>) {
    let state = memory::state(rng, setup, reduced(setup, v));
    let state = state_at(rng, setup, v, &state);
    let holdback = beside(rng, setup, v, &state);
    (state, holdback)
}

/// The bytes of an engine's frame.
pub fn encode(node: i64, timestamp: &Timestamp, payload: &[u8]) -> Vec<u8> {
    let mut bytes = vec![0; 13 + timestamp.kn.len() + payload.len()];
    long::put(node, timestamp, payload, &mut bytes);
    bytes
}

/// A frame that passes 10 and 12, and 11 too where its r, which is `ahead` of v, is a clock.
fn sound(rng: &mut Prng, setup: &Setup, v: u64, node: i64, ahead: i64, c: i64) -> Vec<u8> {
    let (kn, payload) = frames::contents(rng, setup, ahead, c);
    let r = v.wrapping_add_signed(ahead) as i64;
    encode(node, &Timestamp { r, c, kn: &kn }, &payload)
}

/// Any bytes for a batch's entry: mostly a frame near v, now and then damaged or of a far clock.
pub fn any(rng: &mut Prng, setup: &Setup, v: u64) -> Vec<u8> {
    if rng.one_in(12) {
        let length = rng.pick(&[0, 1, 13, longest_frame(setup), 77, 255]);
        return rng.bytes(length);
    }
    let (node, ahead, c) = frames::place_near(rng, setup);
    let far = rng.pick(&[-setup.modulus, setup.modulus, -65_536, 65_536, 1 << 40]);
    let ahead = if rng.one_in(12) { ahead + far } else { ahead };
    let mut frame = sound(rng, setup, v, node, ahead, c);
    if rng.one_in(3) {
        let r = odd_clock(rng, v);
        frames::damage_with(rng, setup, &r.to_le_bytes(), &mut frame);
    }
    frame
}

/// Any hold-back queue of an engine at v, mostly with no due clock below the least.
fn holdback(rng: &mut Prng, setup: &Setup, v: u64, least: i64) -> Vec<u8> {
    let length = holdback_len(setup);
    if rng.one_in(12) {
        return rng.bytes(length);
    }
    let away = if rng.one_in(8) { rng.pick(&[-1, 1]) } else { 0 };
    let mut frames = held(rng, setup, v.wrapping_add_signed(away), least);
    if rng.one_in(6) {
        repeat(rng, &mut frames);
    }
    let mut bytes = memory::assemble_in(rng, length, &frames);
    if rng.one_in(6) {
        let used = 2 + frames.iter().map(Vec::len).sum::<usize>();
        bytes[rng.place(used.min(length))] ^= 1 << rng.below(8);
    }
    if rng.one_in(8) {
        bytes[0] = bytes[0].wrapping_add(rng.pick(&[1, 255]));
    }
    bytes
}

/// Frames that make a sound queue, in any order, but for their number, which is often close to what
/// an engine may hold.
fn held(rng: &mut Prng, setup: &Setup, v: u64, least: i64) -> Vec<Vec<u8>> {
    let mut places: Vec<(i64, i64)> = (0..setup.n)
        .flat_map(|node| memory::held_range(setup, least).map(move |ahead| (node, ahead)))
        .collect();
    let any = rng.place(CAPACITY + 1);
    let full = CAPACITY - rng.place(3);
    let count = rng.pick(&[any.min(8), any, full, full, CAPACITY, CAPACITY, CAPACITY + 1]);
    let mut frames = Vec::new();
    while frames.len() < count && !places.is_empty() {
        let (node, ahead) = places.swap_remove(rng.place(places.len()));
        let c = memory::held_c(rng, setup, setup.epsilon, least, ahead).expect("a c");
        frames.push(sound(rng, setup, v, node, ahead, c));
    }
    frames
}

/// Gives a station and r twice, with the same contents or others.
fn repeat(rng: &mut Prng, frames: &mut Vec<Vec<u8>>) {
    if frames.is_empty() {
        return;
    }
    let mut frame = frames[rng.place(frames.len())].clone();
    let other = &frames[rng.place(frames.len())];
    if rng.one_in(2) && frame.len() >= 10 && other.len() >= 10 {
        frame.splice(10.., other[10..].iter().copied());
    }
    let at = rng.place(frames.len() + 1);
    match rng.one_in(2) && at < frames.len() {
        true => frames[at] = frame,
        false => frames.insert(at, frame),
    }
}

/// The frames behind a two-byte count as they lie there, up to what is no frame.
fn frames_of(setup: &Setup, bytes: &[u8]) -> Vec<Vec<u8>> {
    let mut rest = &bytes[2..];
    let count = crate::holdback::count(bytes);
    let next = |_| {
        let (frame, after) = long::split(setup, rest)?;
        rest = after;
        Some(frame.bytes.to_vec())
    };
    (0..count).map_while(next).collect()
}

/// A setup for a group of which engines can hold all, or not: often a small one, sometimes one where
/// more than 64 messages are held.
pub fn setup(rng: &mut Prng) -> Setup {
    if rng.one_in(2) {
        return super::setup(rng);
    }
    let (n, epsilon, delta) = match rng.below(8) {
        0 => (16, 16, 64),
        1 => (rng.range(1, 16), rng.range(1, 16), rng.range(0, 64)),
        _ => (rng.range(2, 8), rng.range(2, 5), rng.range(4, 12)),
    };
    let setup = Setup { n, epsilon, delta, modulus: 0, own: rng.below(n) };
    let modulus = setup.least_modulus() + if rng.one_in(2) { 0 } else { rng.below(64) };
    Setup { modulus, ..setup }
}
