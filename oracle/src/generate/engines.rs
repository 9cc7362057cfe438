//! Engines with long clocks beside the nodes of a group (02, 2.9): each is given what its node is, with
//! clocks that are not reduced. Beside each of them stands another whose air and memory are bad.

use super::{long, Group, Habits, LongCase, Prng, TickCase};
use crate::holdback::count;
use crate::long::{fresh_tables, holdback_len, split, LongState};
use crate::{batch, Answer, Frame, Setup};
use std::collections::HashMap;

/// A group that keeps both limits, and its engines.
pub struct Beside {
    group: Group,
    /// How far an engine's clock is past its node's true clock: a multiple of B.
    base: u64,
    engines: Vec<Memory>,
    wild: Vec<Memory>,
    /// The engines' frames, by those of the nodes. At one time no two frames in the air are the same.
    frames: HashMap<Vec<u8>, Vec<u8>>,
    /// The clocks at the start.
    start: i64,
}

/// What an engine keeps.
struct Memory {
    state: LongState,
    holdback: Vec<u8>,
}

/// The next call of a member, as its node and as its engine makes it.
pub struct Pair {
    pub member: usize,
    pub node: TickCase,
    pub engine: LongCase,
}

impl Beside {
    /// All fresh. The engines' clocks are those of the nodes, or some multiples of B later; in some
    /// groups they come to 2^63.
    pub fn fresh(rng: &mut Prng, setup: Setup, nudges: bool) -> Self {
        let habits = Habits { noise: false, dips: false, nudges, deafness: rng.range(1, 4) };
        let group = Group::fresh(rng, setup, habits);
        let modulus = setup.modulus as u64;
        let start = group.highest();
        let last = long::BOUND - 1 - start as u64 - rng.below(2 * setup.modulus.min(100)) as u64;
        let few = rng.below(4) as u64 * modulus;
        let some = [0, 0, few, few, 1 << 16, 1 << 32, last, last];
        let base = rng.pick(&some) / modulus * modulus;
        let memory = |node: usize| Memory {
            state: fresh_tables(&setup, base + group.clock(node) as u64),
            holdback: vec![0; holdback_len(&setup)],
        };
        let engines = (0..setup.n as usize).map(memory).collect();
        let wild = (0..setup.n as usize).map(memory).collect();
        Beside { group, base, engines, wild, frames: HashMap::new(), start }
    }

    /// The next call of some member, as node and as engine. Neither is made yet.
    pub fn next_pair(&mut self, rng: &mut Prng) -> Pair {
        let (member, node) = self.group.next_case(rng);
        let last = self.group.clock(member);
        let clock = self.base + (last + node.setup.step(last, node.clock)) as u64;
        let Memory { state, holdback } = &self.engines[member];
        let mut engine = LongCase::idle(rng, node.setup, clock, *state, holdback.clone());
        let heard = batch::entries(&node.batch).expect("an exact batch");
        let heard: Vec<_> = heard.into_iter().map(|frame| &self.frames[frame]).collect();
        engine.batch = batch::encode(&heard);
        (engine.send, engine.payload) = (node.send, node.payload.clone());
        Pair { member, node, engine }
    }

    /// Takes over what both accepted calls left, and their answers.
    pub fn settle(&mut self, left: Pair, node: &Answer, engine: &Answer) {
        let Pair { member, node: short, engine: long } = left;
        if node.outgoing > 0 {
            let frame = short.outgoing[..node.outgoing.into()].to_vec();
            self.frames.insert(frame, long.outgoing[..engine.outgoing.into()].to_vec());
        }
        self.engines[member] = Memory { state: long.state, holdback: long.holdback };
        self.group.settle(member, short, node);
    }

    /// The call of the member's wild engine where its engine makes this one. Frames that nobody sent
    /// are heard, and now and then its memory is overwritten.
    pub fn wild_case(&self, rng: &mut Prng, member: usize, engine: &LongCase) -> LongCase {
        let Memory { state, holdback } = &self.wild[member];
        let (state, holdback) = match rng.one_in(6) {
            true => long::memory(rng, &engine.setup, engine.clock),
            false => (*state, holdback.clone()),
        };
        LongCase { state, holdback, ..engine.clone() }.noisy(rng)
    }

    /// Takes over what that accepted call left.
    pub fn settle_wild(&mut self, member: usize, left: LongCase) {
        self.wild[member] = Memory { state: left.state, holdback: left.holdback };
    }

    /// How often the nodes' clocks have come to B since the start.
    pub fn wraps(&self) -> i64 {
        let modulus = self.group.setup.modulus;
        self.group.highest() / modulus - self.start / modulus
    }
}

/// An engine's tables as a station's: r modulo B.
fn shortened_tables(setup: &Setup, state: &LongState) -> Vec<u8> {
    let (r, rest) = state.split_at(8);
    [&shortened_r(setup, r)[..], rest].concat()
}

/// An engine's frame as a station's: r modulo B in two bytes, and count 3.
pub fn shortened_frame(setup: &Setup, frame: &[u8]) -> Vec<u8> {
    [&[3, frame[1]], &shortened_r(setup, &frame[2..10])[..], &frame[10..]].concat()
}

fn shortened_r(setup: &Setup, r: &[u8]) -> [u8; 2] {
    let r = u64::from_le_bytes(r.try_into().expect("eight bytes"));
    ((r % setup.modulus as u64) as u16).to_le_bytes()
}

/// What a node's call left, against what its engine's did, r modulo B in two bytes and with count 3: the
/// answers, tables, verdict bytes, outgoing frames, hand-outs, and what both still hold. Or in what they
/// differ.
pub fn same(
    node: &TickCase,
    node_answer: &Answer,
    engine: &LongCase,
    engine_answer: &Answer,
) -> Result<(), &'static str> {
    let setup = &node.setup;
    let sent = &engine.outgoing[..engine_answer.outgoing.into()];
    let sent = if sent.is_empty() { Vec::new() } else { shortened_frame(setup, sent) };
    let answer = Answer { outgoing: sent.len() as u8, ..*engine_answer };
    let judged = usize::from(node.batch[0]);
    let shown = shortened(setup, &engine.delivery);
    let (mut held, mut shelved) =
        (shortened(setup, &engine.holdback), frames(setup, &node.holdback));
    held.sort();
    shelved.sort();
    let parts = [
        ("answers", *node_answer == answer),
        ("tables", node.state[..] == shortened_tables(setup, &engine.state)),
        ("verdicts", node.verdicts[..judged] == engine.verdicts[..judged]),
        ("outgoing frames", node.outgoing[..sent.len()] == sent),
        ("hand-outs", frames(setup, &node.delivery) == shown),
        ("held frames", shelved == held),
    ];
    parts.into_iter().find(|(_, same)| !same).map_or(Ok(()), |(what, _)| Err(what))
}

/// A node's frames behind a two-byte count.
fn frames(setup: &Setup, bytes: &[u8]) -> Vec<Vec<u8>> {
    all(bytes, |rest| Frame::split(setup, rest)).iter().map(|frame| frame.bytes.to_vec()).collect()
}

/// An engine's frames behind a two-byte count, as a node's.
fn shortened(setup: &Setup, bytes: &[u8]) -> Vec<Vec<u8>> {
    let frames = all(bytes, |rest| split(setup, rest));
    frames.iter().map(|frame| shortened_frame(setup, frame.bytes)).collect()
}

fn all<'a>(
    bytes: &'a [u8],
    split: impl Fn(&'a [u8]) -> Option<(Frame<'a>, &'a [u8])>,
) -> Vec<Frame<'a>> {
    let mut rest = &bytes[2..];
    let next = |_| {
        let (frame, after) = split(rest).expect("a frame");
        rest = after;
        frame
    };
    (0..count(bytes)).map(next).collect()
}
