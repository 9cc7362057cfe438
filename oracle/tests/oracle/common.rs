//! What the tests share.

use oracle::batch;
use oracle::generate::{frames, ListenCase, TickCase};
use oracle::timestamp::fresh;
use oracle::{Answer, ClockState, Setup, Timestamp};

/// What buffers hold before a call.
pub const FILL: u8 = 0xEE;

/// The setup of 01's samples.
pub const SETUP: Setup = Setup { n: 2, epsilon: 2, delta: 1, modulus: 14, own: 0 };

/// A frame by its fields.
pub fn frame(node: i64, r: i64, c: i64, kn: &[u8], payload: &[u8]) -> Vec<u8> {
    frames::encode(node, &Timestamp { r, c, kn }, payload)
}

/// Frame A of the samples.
pub fn frame_a() -> Vec<u8> {
    frame(1, 2, 0, &[1, 1, 1, 0], &[0x41])
}

/// Tables by their fields.
pub fn state(r: i64, c: i64, kn: &[u8]) -> ClockState {
    Timestamp { r, c, kn }.to_state()
}

/// A call for v of a node that was fresh one before, which hears these frames.
pub fn fresh_case<T: AsRef<[u8]>>(setup: Setup, v: i64, heard: &[T]) -> TickCase {
    let before = (v - 1).rem_euclid(setup.modulus);
    TickCase {
        setup,
        clock: v,
        state: fresh(&setup, before),
        holdback: vec![0; setup.holdback_len()],
        batch: batch::encode(heard),
        send: false,
        payload: Vec::new(),
        outgoing: vec![FILL; setup.longest_frame()],
        verdicts: vec![FILL; 255],
        delivery: vec![FILL; setup.holdback_len()],
    }
}

/// Runs the call; its answer and what it left.
pub fn run(mut case: TickCase) -> (Answer, TickCase) {
    let answer = case.run();
    (answer, case)
}

/// An observer's call for v with this last clock, which hears these frames.
pub fn listening<T: AsRef<[u8]>>(setup: Setup, last: i64, v: i64, heard: &[T]) -> ListenCase {
    let last = (last as u16).to_le_bytes();
    ListenCase { last, ..ListenCase::of(fresh_case(setup, v, heard)) }
}

/// Runs an observer's call; its answer and what it left.
pub fn listen(mut case: ListenCase) -> (Answer, ListenCase) {
    let answer = case.run();
    (answer, case)
}

/// The verdict of one frame heard at v by a node that was fresh one before.
pub fn verdict(v: i64, frame: &[u8]) -> u8 {
    let (answer, after) = run(fresh_case(SETUP, v, &[frame]));
    assert_eq!(answer.number, 0);
    after.verdicts[0]
}

/// A hold-back queue of these frames with zeros after them.
pub fn holdback<T: AsRef<[u8]>>(setup: &Setup, frames: &[T]) -> Vec<u8> {
    let mut bytes = packed(frames);
    bytes.resize(setup.holdback_len(), 0);
    bytes
}

/// The frames of a hand-out as bytes.
pub fn packed<T: AsRef<[u8]>>(frames: &[T]) -> Vec<u8> {
    let mut bytes = (frames.len() as u16).to_le_bytes().to_vec();
    frames.iter().for_each(|frame| bytes.extend(frame.as_ref()));
    bytes
}
