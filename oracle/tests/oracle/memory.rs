//! Sound and unsound memory, and what comes of it.

use crate::common::{frame, fresh_case, holdback, run, state, SETUP};
use oracle::generate::{self, memory, Prng};
use oracle::holdback::Holdback;
use oracle::{ClockState, Setup, Timestamp};

/// The repair of an empty tick at 5 with this memory.
fn repair(state: ClockState, holdback: &[u8]) -> u8 {
    let mut case = fresh_case::<&[u8]>(SETUP, 5, &[]);
    (case.state, case.holdback) = (state, holdback.to_vec());
    let (answer, _) = run(case);
    assert_eq!(answer.number, 0);
    answer.repair
}

const SOUND: ClockState = {
    let mut state = [0; 35];
    (state[0], state[5]) = (4, 1);
    state
};

#[test]
fn the_four_repairs() {
    let (empty, junk) = (holdback::<&[u8]>(&SETUP, &[]), vec![0xFF; SETUP.holdback_len()]);
    assert_eq!(repair(SOUND, &empty), 0);
    assert_eq!(repair([0xFF; 35], &empty), 1);
    assert_eq!(repair(SOUND, &junk), 2);
    assert_eq!(repair([0xFF; 35], &junk), 3);
}

#[test]
fn unsound_tables() {
    let empty = holdback::<&[u8]>(&SETUP, &[]);
    let repair = |r, c, kn: &[u8; 4]| repair(state(r, c, kn), &empty);
    assert_eq!(repair(4, 1, &[2, 2, 2, 1]), 0, "n is allowed up to offset 0");
    assert_eq!(repair(4, 1, &[2, 2, 2, 2]), 1, "but not ahead");
    assert_eq!(repair(4, 0, &[3, 0, 1, 0]), 1, "a count above n");
    assert_eq!(repair(4, 0, &[0, 0, 0, 0]), 1, "no count at c");
    assert_eq!(repair(4, 0, &[0, 0, 1, 1]), 1, "a count above c");
    assert_eq!(repair(4, 2, &[0, 0, 1, 1]), 1, "c above ε − 1");
    assert_eq!(repair(3, 0, &[0, 0, 1, 0]), 0, "r ε before");
    assert_eq!(repair(2, 0, &[0, 0, 1, 0]), 1, "r one more before");
    assert_eq!(repair(3, 1, &[2, 2, 2, 2]), 1, "n ahead of r, though at v");
    assert_eq!(repair(5, 0, &[0, 0, 1, 0]), 1, "r at v");
    assert_eq!(repair(4 + 14, 0, &[0, 0, 1, 0]), 1, "r not below B");
}

#[test]
fn replaced_tables_take_no_step_and_places_past_the_counts_come_back_0() {
    let mut case = fresh_case::<&[u8]>(SETUP, 5, &[]);
    case.state = [0xFF; 35];
    assert_eq!(run(case.clone()).1.state, state(5, 0, &[0, 0, 1, 0]));
    case.state[..7].copy_from_slice(&state(4, 1, &[2, 1, 1, 1])[..7]);
    let (answer, after) = run(case);
    assert_eq!(answer.repair, 0, "what lies past the counts is ignored");
    assert_eq!(after.state, state(5, 0, &[1, 1, 2, 0]));
}

#[test]
fn tables_are_sound_across_the_wrap() {
    let mut case = fresh_case::<&[u8]>(SETUP, 0, &[]);
    case.state = state(13, 0, &[0, 0, 1, 0]);
    assert_eq!(run(case).0.repair, 0);
}

#[test]
fn unsound_queues() {
    let f = |node, r, c, kn: &[u8; 4]| frame(node, r, c, kn, &[]);
    let repair = |frames: &[Vec<u8>]| repair(SOUND, &holdback(&SETUP, frames));
    let (two, three) = (f(0, 2, 0, &[1, 1, 1, 0]), f(0, 3, 0, &[1, 1, 1, 0]));
    assert_eq!(repair(&[two.clone(), three.clone()]), 0);
    assert_eq!(repair(&[three.clone(), two.clone()]), 2, "out of order");
    assert_eq!(repair(&[two.clone(), two.clone()]), 2, "twice the same");
    let again = f(0, 2, 1, &[1, 1, 1, 1]);
    let tied = f(1, 3, 0, &[1, 1, 1, 0]);
    assert_eq!(repair(&[two.clone(), tied]), 0);
    assert_eq!(repair(&[two.clone(), again.clone()]), 2, "station and r twice");
    assert_eq!(repair(&[again]), 0);
    assert_eq!(repair(&[f(0, 1, 0, &[1, 1, 1, 0])]), 2, "past due");
    assert_eq!(repair(&[f(0, 1, 1, &[1, 1, 1, 1])]), 0, "due, though r is 4 behind");
    assert_eq!(repair(&[f(0, 6, 0, &[1, 1, 2, 0])]), 0, "sum 1 ahead, 15 is not asked");
    assert_eq!(repair(&[f(0, 6, 1, &[1, 1, 1, 1])]), 2, "sum 2 ahead");
    assert_eq!(repair(&[f(2, 2, 0, &[1, 1, 1, 0])]), 2, "11");
    assert_eq!(repair(&[f(0, 2, 0, &[1, 1, 0, 0])]), 2, "12");
    assert_eq!(repair(&[two[1..].to_vec()]), 2, "10");
}

#[test]
fn what_lies_behind_the_frames_is_ignored_and_cleared() {
    let two = frame(0, 3, 0, &[1, 1, 1, 0], &[]);
    let mut case = fresh_case::<&[u8]>(SETUP, 5, &[]);
    case.holdback = holdback(&SETUP, &[&two]);
    case.holdback[2 + two.len()..].fill(0xFF);
    let (answer, after) = run(case);
    assert_eq!((answer.repair, answer.delivered), (0, 0));
    assert_eq!(after.holdback, holdback(&SETUP, &[two]));
}

#[test]
fn generated_sound_memory_is_sound_and_fills_the_queue() {
    let mut rng = Prng::new(7);
    let mut fullest = 0;
    for _ in 0..2_000 {
        let setup: Setup = generate::setup(&mut rng);
        let v = rng.below(setup.modulus);
        let step = rng.range(1, setup.epsilon);
        let state = memory::sound_state(&mut rng, &setup, v, step);
        assert_eq!(Timestamp::of_state(&setup, &state).sound_step(&setup, v), Some(step));
        let frames = memory::sound_frames(&mut rng, &setup, v, 1 - step);
        let bytes = memory::assemble(&mut rng, &setup, &frames);
        let queue = Holdback::decode(&setup, v, 1 - step, &bytes).expect("a sound queue");
        assert_eq!(queue.len(), frames.len());
        let possible = (setup.n * (setup.delta + 3 * setup.epsilon - 2 + step)) as usize;
        let most = possible.min(setup.capacity());
        assert!(queue.len() <= most);
        fullest += u32::from(queue.len() == most);
    }
    assert!(fullest > 100);
}

#[test]
fn a_tick_leaves_sound_memory_for_the_next() {
    let mut rng = Prng::new(8);
    for _ in 0..2_000 {
        let setup: Setup = generate::setup(&mut rng);
        let v = rng.below(setup.modulus);
        let heard: Vec<_> = (0..9).map(|_| generate::frames::near(&mut rng, &setup, v)).collect();
        let mut case = fresh_case(setup, v, &heard);
        case.state = memory::state(&mut rng, &setup, v);
        let step = Timestamp::of_state(&setup, &case.state).sound_step(&setup, v);
        let least = memory::least_due(&mut rng, &setup, step);
        case.holdback = memory::holdback(&mut rng, &setup, v, least);
        let (answer, mut after) = run(case);
        assert_eq!(answer.number, 0);
        after.clock = (v + rng.range(1, setup.epsilon)) % setup.modulus;
        let answer = run(after).0;
        assert_eq!((answer.number, answer.repair), (0, 0));
    }
}
