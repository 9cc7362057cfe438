//! The twin: the library's tick, its poll and an observer's call, written by hand for speed, over the same buffers and with the same
//! answers.
//! It shares no code with the oracle or the proved crates.
//!
//! What it does for speed: where board and batch are empty it looks no further; a frame is looked at through one window of 39 bytes,
//! which holds all of it but the payload; counts are held to their limits 32 at a time, and taken in where they stand in the batch;
//! all that the order looks at is compared as numbers, without a branch, since how far two frames are alike cannot be foreseen;
//! origins are bits; where each sum starts in the queue is kept, so that a search looks at the frames of one sum only; and what is
//! due before v and at v leaves the queue at once, at the end.

mod frame;
mod hear;
mod observer;
mod poll;
mod queue;

use frame::{part, Counts, COUNTS, MASKS, WIDEST};
use hear::Owner;
pub use observer::{listen, Listening};
pub use poll::{poll, Poll};

const MAX_PAYLOAD: usize = 32;

/// The arguments of the tick.
pub struct Call<'a> {
    /// n, ε, δ, B, own number.
    pub setup: [u32; 5],
    pub clock: u32,
    pub tables: &'a mut [u8; 35],
    pub board: Board<'a>,
    pub send: bool,
    pub payload: &'a [u8],
    pub outgoing: &'a mut [u8],
}

/// What a tick and an observer's call hear, judge and hand out.
pub struct Board<'a> {
    pub holdback: &'a mut [u8],
    pub batch: &'a [u8],
    pub verdicts: &'a mut [u8],
    pub delivery: &'a mut [u8],
}

/// One tick, its answer packed as the library's.
pub fn tick(call: &mut Call) -> u64 {
    match check(call) {
        0 => accept(call),
        number => number.into(),
    }
}

/// Checks 1 to 6.
fn check(call: &Call) -> u8 {
    let number = check_shelf(call.setup, call.clock, call.board.holdback);
    let longest = 39 + 2 * call.setup[1] as usize;
    match () {
        _ if number != 0 => number,
        _ if call.payload.len() > MAX_PAYLOAD => 4,
        _ => check_board(&call.board, call.outgoing.len() < longest),
    }
}

/// Checks 5 and 6, where the shelf has its length and another buffer may be short.
fn check_board(board: &Board, short: bool) -> u8 {
    match () {
        _ if !ends_exactly(board.batch) => 5,
        _ if short || board.verdicts.len() < 255 => 6,
        _ if board.delivery.len() < board.holdback.len() => 6,
        _ => 0,
    }
}

/// Checks 1 to 3.
fn check_shelf(setup: [u32; 5], clock: u32, holdback: &[u8]) -> u8 {
    let [n, epsilon, delta, modulus, own] = setup;
    let limits = (1..=16).contains(&n) && (1..=16).contains(&epsilon) && delta <= 64 && own < n;
    if !limits || modulus > 65_535 || modulus < 6 * epsilon + delta + 1 {
        return 1;
    }
    let size = 2 + (39 + 2 * epsilon) * n * (delta + 3 * epsilon);
    match () {
        _ if clock >= modulus => 2,
        _ if holdback.len() != size as usize => 3,
        _ => 0,
    }
}

/// Does the batch end exactly after its last entry?
fn ends_exactly(batch: &[u8]) -> bool {
    let Some(&count) = batch.first() else { return false };
    let mut at = 1;
    for _ in 0..count {
        let Some(&size) = batch.get(at) else { return false };
        at += 1 + usize::from(size);
    }
    at == batch.len()
}

/// The numbers of an accepted call, and what follows from them.
struct Group {
    n: u8,
    epsilon: usize,
    /// 2ε, how many counts a timestamp has.
    width: usize,
    delta: usize,
    modulus: u32,
    clock: u32,
    /// The clock whose reading is 0: the least that a queue can have which is sound at some step.
    zero: u32,
    /// How far the least due clock that a frame in the queue may have lies ahead of v: 1 in a poll, otherwise 0 or less.
    least: i32,
    /// 255 in the places past the counts, which are ignored, otherwise 0.
    ignored: &'static Counts,
    /// The limits of counts: n, in the places past the counts 255; and of them, for each c, those that a frame may reach.
    most: Counts,
    reached: &'static [Counts; 16],
    /// What the order takes of the eight newest counts as a word, and, if there are more, of the eight behind them.
    newest: u64,
    older: u64,
}

/// The own timestamp while a tick is at work on it.
struct Local {
    c: i32,
    kn: Counts,
}

fn accept(call: &mut Call) -> u64 {
    let mut group = Group::of(call.setup, call.clock);
    let (mut local, repair);
    (local, repair, group.least) = match group.sound_step(call.tables) {
        Some(step) => (group.step(call.tables, step), 0, 1 - step as i32),
        None => (Local { c: 0, kn: [0; WIDEST] }, 1, 0),
    };
    let answer = group.attend(&mut call.board, &mut local);
    for i in 0..WIDEST {
        local.kn[i] += u8::from(i as u8 == group.epsilon as u8);
    }
    put_tables(call, &local);
    let sent = if call.send { group.send(call) } else { 0 };
    repair << 8 | (sent as u64) << 24 | answer
}

fn put_tables(call: &mut Call, local: &Local) {
    call.tables[..2].copy_from_slice(&(call.clock as u16).to_le_bytes());
    call.tables[2] = local.c as u8;
    call.tables[3..].copy_from_slice(&local.kn);
}

impl Group {
    fn of([n, epsilon, delta, modulus, _]: [u32; 5], clock: u32) -> Self {
        let zero = clock.wrapping_sub(delta + 3 * epsilon - 2);
        let zero = zero.min(zero.wrapping_add(modulus));
        let (n, epsilon, delta) = (n as u8, epsilon as usize, delta as usize);
        let (width, least) = (2 * epsilon, 1);
        let ignored = part(&MASKS, 2 * WIDEST - width);
        let most = ignored.map(|ignored| ignored | n);
        let reached = &frame::REACHED[epsilon - 1];
        let newest = u64::MAX << (8 * 8usize.saturating_sub(epsilon));
        let older = u64::MAX << (8 * (16 - epsilon.max(9)));
        Group {
            n,
            epsilon,
            width,
            delta,
            modulus,
            clock,
            zero,
            least,
            ignored,
            most,
            reached,
            newest,
            older,
        }
    }

    /// How many frames a queue can have.
    fn depth(&self) -> usize {
        usize::from(self.n) * (self.delta + 3 * self.epsilon)
    }

    /// The step to the new clock, if the tables are sound for it.
    fn sound_step(&self, tables: &[u8; 35]) -> Option<usize> {
        let step = self.clock_step(*part(tables, 0))?;
        let sound = self.is_sound(tables[2].into(), part(tables, 3))
            && self.below_n(part(tables, 3), self.epsilon + 1);
        sound.then_some(step)
    }

    /// The step from a last clock to the new one, if it is below B and 1 to ε before it.
    fn clock_step(&self, last: [u8; 2]) -> Option<usize> {
        let last = u32::from(u16::from_le_bytes(last));
        let apart = self.clock.wrapping_sub(last);
        let step = apart.min(apart.wrapping_add(self.modulus)) as usize;
        let sound = last < self.modulus && (1..=self.epsilon).contains(&step);
        sound.then_some(step)
    }

    fn step(&self, tables: &[u8; 35], step: usize) -> Local {
        let mut placed = [0; 2 * WIDEST];
        for i in 0..WIDEST {
            placed[i] = tables[3 + i] & !self.ignored[i];
        }
        Local { c: (i32::from(tables[2]) - step as i32).max(0), kn: *part(&placed, step) }
    }

    /// Lays down the outgoing frame; its length.
    fn send(&self, call: &mut Call) -> usize {
        let own = call.setup[4] as u8;
        let [low, high, c] = *part(call.tables, 0);
        let at = COUNTS + self.width;
        let out = &mut call.outgoing[..];
        out[..COUNTS].copy_from_slice(&[3, own, low, high, 1 + self.width as u8, c]);
        out[COUNTS..at].copy_from_slice(&call.tables[3..3 + self.width]);
        out[at] = call.payload.len() as u8;
        out[at + 1..at + 1 + call.payload.len()].copy_from_slice(call.payload);
        at + 1 + call.payload.len()
    }
}
