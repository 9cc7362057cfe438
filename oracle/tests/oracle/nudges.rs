//! 02's nudged clocks: steps of 1 to ε, and what is due on the way.

use crate::common::{frame, fresh_case, holdback, packed, run, state, FILL};
use oracle::generate::{self, memory, Prng, TickCase};
use oracle::holdback::Entry;
use oracle::timestamp::fresh;
use oracle::{read, Setup};

/// Steps of up to 4; sum + 5 is the due clock.
pub const WIDE: Setup = Setup { n: 2, epsilon: 4, delta: 1, modulus: 30, own: 0 };

/// A frame of WIDE with c 0, so r is its sum.
pub fn wide(node: i64, r: i64, payload: u8) -> Vec<u8> {
    frame(node, r.rem_euclid(WIDE.modulus), 0, &[0, 0, 0, 0, 1, 0, 0, 0], &[payload])
}

/// A call at v that steps from r, with these frames on the shelf.
fn stepped<T: AsRef<[u8]>>(setup: Setup, r: i64, v: i64, shelf: &[T]) -> TickCase {
    let mut case = fresh_case::<&[u8]>(setup, v, &[]);
    case.state = fresh(&setup, r);
    case.holdback = holdback(&setup, shelf);
    case
}

#[test]
fn c_drops_by_the_step_and_counts_move_down_by_it() {
    // The tick counts its own event at offset 0.
    let steps: [(i64, i64, [u8; 8]); 4] = [
        (1, 2, [2, 3, 4, 5, 6 + 1, 1, 1, 0]),
        (2, 1, [3, 4, 5, 6, 1 + 1, 1, 0, 0]),
        (3, 0, [4, 5, 6, 1, 1 + 1, 0, 0, 0]),
        (4, 0, [5, 6, 1, 1, 1, 0, 0, 0]),
    ];
    let setup = Setup { n: 16, ..WIDE };
    for (step, c, kn) in steps {
        for r in [10, 28, 29] {
            let v = (r + step) % setup.modulus;
            let mut case = stepped::<&[u8]>(setup, r, v, &[]);
            case.state = state(r, 3, &[1, 2, 3, 4, 5, 6, 1, 1]);
            let (answer, after) = run(case);
            assert_eq!((answer.repair, after.state), (0, state(v, c, &kn)), "a step of {step}");
        }
    }
}

#[test]
fn steps_of_0_and_above_epsilon_replace_the_tables() {
    for step in 0..WIDE.modulus {
        let v = (20 + step) % WIDE.modulus;
        let mend = run(stepped::<&[u8]>(WIDE, 20, v, &[])).0.repair;
        assert_eq!(mend, u8::from(!(1..=4).contains(&step)), "a step of {step}");
    }
}

#[test]
fn early_frames_go_out_first_and_then_those_due_at_v() {
    // Last clock 28, v 2 after a step of 4: due clocks 29, 0 and 1 are early, 2 is v.
    let early = [wide(1, 24, 1), wide(0, 25, 2), wide(1, 25, 3), wide(0, 26, 4)];
    let (due, stays) = (wide(1, 27, 5), wide(0, 28, 6));
    let mut case = stepped(WIDE, 28, 2, &[&early[..], &[due.clone(), stays.clone()]].concat());
    let (heard, later) = (wide(0, 27, 7), wide(1, 29, 8));
    case.batch = oracle::batch::encode(&[&heard, &later, &early[3], &due]);
    let (answer, after) = run(case);
    assert_eq!((answer.repair, answer.taken, answer.delivered), (0, 2, 6));
    assert_eq!(after.verdicts[..5], [0, 0, 13, 16, FILL], "an early one is too old to be heard");
    let handed = packed(&[&early[..], &[heard, due]].concat());
    assert_eq!(after.delivery[..handed.len()], handed);
    assert!(after.delivery[handed.len()..].iter().all(|&byte| byte == FILL));
    assert_eq!(after.holdback, holdback(&WIDE, &[stays, later]));
}

/// The mend of a call that steps from r to v with one shelved frame of this sum.
fn mend(r: i64, v: i64, sum: i64) -> u8 {
    run(stepped(WIDE, r, v, &[wide(0, sum, 0)])).0.repair
}

#[test]
fn a_shelved_frame_is_due_after_the_last_clock() {
    for v in [10_i64, 0, 2, 29] {
        for step in 1..=4 {
            let r = (v - step).rem_euclid(WIDE.modulus);
            for past in -2..=step {
                let due = r + past;
                let expected = if past > 0 { 0 } else { 2 };
                assert_eq!(mend(r, v, due - 5), expected, "from {r} to {v}, due at {due}");
            }
        }
    }
}

#[test]
fn beside_replaced_tables_a_shelved_frame_is_due_at_v_or_later() {
    for (step, past, expected) in [(0, -1, 3), (0, 0, 1), (5, -1, 3), (5, 0, 1), (9, -4, 3)] {
        assert_eq!(mend(10 - step, 10, 10 + past - 5), expected, "{past} past v");
    }
    // r is fine and the stamp is not.
    let mut case = stepped(WIDE, 8, 10, &[wide(0, 4, 0)]);
    assert_eq!(run(case.clone()).0.repair, 0);
    case.state[2] = 4;
    let (answer, after) = run(case);
    assert_eq!((answer.repair, answer.delivered), (3, 0));
    assert_eq!(after.holdback, holdback::<&[u8]>(&WIDE, &[]));
}

#[test]
fn a_shelved_r_may_lie_delta_and_3_epsilon_less_2_behind_v() {
    // c 3 makes the due clock 7, one past the last clock; r is 11 behind v.
    let shelved = frame(0, 29, 3, &[0, 0, 0, 0, 1, 1, 1, 1], &[]);
    let mut case = stepped(WIDE, 6, 10, &[shelved]);
    assert_eq!(WIDE.near(29, 10), -(WIDE.delta + 3 * WIDE.epsilon - 2));
    assert_eq!(run(case.clone()).0, oracle::Answer { delivered: 1, ..Default::default() });
    case.state = fresh(&WIDE, 7);
    assert_eq!(run(case).0.repair, 2, "due at the last clock");
}

/// Frames of both stations with r from 4 on, sound for a step from 11 to 15, in order.
fn crowd(last: [i64; 2]) -> Vec<Vec<u8>> {
    let shelved = |(node, r): (i64, i64)| {
        let c = (7 - r).max(0);
        let mut kn = [0; 8];
        kn[4 + c as usize] = 1;
        frame(node, r, c, &kn, &[])
    };
    let origins = (0..2).flat_map(|node| (4..=last[node as usize]).map(move |r| (node, r)));
    let mut frames: Vec<_> = origins.map(shelved).collect();
    frames.sort_by(|a, b| near(&WIDE, 15, a).order(&near(&WIDE, 15, b)));
    frames
}

fn near<'a>(setup: &Setup, v: i64, bytes: &'a [u8]) -> Entry<'a> {
    Entry::near(setup, v, read(setup, bytes).unwrap())
}

#[test]
fn a_full_shelf_has_room_once_the_early_frames_have_left() {
    let frames = crowd([16, 16]);
    assert_eq!(frames.len(), WIDE.capacity());
    let mut case = stepped(WIDE, 11, 15, &frames);
    case.batch = oracle::batch::encode(&[wide(0, 17, 0)]);
    let (answer, _) = run(case);
    // Sums 7 to 9 are early (7 has four r a station), 10 is due at 15.
    assert_eq!((answer.repair, answer.taken, answer.delivered), (0, 1, 2 * (4 + 1 + 1) + 2));
}

#[test]
fn one_frame_above_the_limit_makes_an_unsound_shelf() {
    let frames = crowd([17, 16]);
    assert_eq!(frames.len(), WIDE.capacity() + 1);
    assert_eq!(run(stepped(WIDE, 11, 15, &frames)).0.repair, 2);
    assert_eq!(run(stepped(WIDE, 11, 15, &frames[1..])).0.repair, 0);
}

#[test]
fn a_step_hands_out_all_that_is_due_on_its_way() {
    let mut rng = Prng::new(9);
    let mut handed = 0;
    for _ in 0..2_000 {
        let setup = generate::setup(&mut rng);
        let (v, step) = (rng.below(setup.modulus), rng.range(1, setup.epsilon));
        let frames = memory::sound_frames(&mut rng, &setup, v, 1 - step);
        let r = (v - step).rem_euclid(setup.modulus);
        let (answer, after) = run(stepped(setup, r, v, &frames));
        assert_eq!((answer.number, answer.repair), (0, 0));
        let (due, stay): (Vec<_>, Vec<_>) =
            frames.iter().partition(|bytes| near(&setup, v, bytes).due(&setup) <= 0);
        let expected = packed(&due);
        assert_eq!(after.delivery[..expected.len()], expected);
        assert_eq!(after.holdback, holdback(&setup, &stay));
        handed += due.len();
    }
    assert!(handed > 5_000, "only {handed} frames handed out");
}
