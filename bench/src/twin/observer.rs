//! The twin's observer (02, 2.6): its tick without the stamp.

use super::hear::Entry;
use super::{check_board, check_shelf, Board, Group, Owner};

/// The arguments of an observer's call.
pub struct Listening<'a> {
    /// n, ε, δ, B.
    pub setup: [u32; 4],
    pub clock: u32,
    pub last: &'a mut [u8; 2],
    pub board: Board<'a>,
}

/// An observer judges without 15, and has nothing to count in.
struct Observer;

impl Owner for Observer {
    const ASKS_COUNTS: bool = false;

    fn count_in(&mut self, _: &Group, _: &Entry, _: i32) {}
}

/// An observer's call, its answer packed as the library's.
pub fn listen(call: &mut Listening) -> u64 {
    let [n, epsilon, delta, modulus] = call.setup;
    // Where n is in its limits, 0 is below it.
    let setup = [n, epsilon, delta, modulus, 0];
    match check_shelf(setup, call.clock, call.board.holdback) {
        0 => {}
        number => return number.into(),
    }
    match check_board(&call.board, false) {
        0 => accept(setup, call),
        number => number.into(),
    }
}

fn accept(setup: [u32; 5], call: &mut Listening) -> u64 {
    let mut group = Group::of(setup, call.clock);
    let repair;
    (repair, group.least) = match group.clock_step(*call.last) {
        Some(step) => (0, 1 - step as i32),
        None => (1, 0),
    };
    *call.last = (call.clock as u16).to_le_bytes();
    repair << 8 | group.attend(&mut call.board, &mut Observer)
}
