//! 02's comparison: which of two frames is first, and what decided.

use crate::common::{frame, frame_a, SETUP};
use oracle::generate::{self, CompareCase, Prng};
use oracle::holdback::Entry;
use oracle::reason::decide;
use oracle::replay::replay_text;
use oracle::trace::Trace;
use oracle::{compare, Frame, Reason, Setup};
use std::cmp::Ordering::{Equal, Greater, Less};

fn timed(node: i64, r: i64, c: i64, kn: [u8; 4]) -> Vec<u8> {
    frame(node, r, c, &kn, &[])
}

/// Checks what decides at v, and that it is the same the other way round.
fn decides(v: i64, first: &[u8], second: &[u8], reason: Reason) {
    assert_eq!(compare(&SETUP, v, first, second), Ok((Less, reason)));
    assert_eq!(compare(&SETUP, v, second, first), Ok((Greater, reason)));
}

#[test]
fn the_frames_of_the_sample() {
    decides(1, &frame_a(), &timed(0, 1, 1, [0, 1, 2, 1]), Reason::Count(1));
}

#[test]
fn sum_station_r_and_nothing() {
    decides(5, &timed(1, 3, 0, [2, 2, 2, 0]), &timed(0, 3, 1, [0, 0, 0, 1]), Reason::Sum);
    decides(5, &timed(0, 4, 0, [0, 1, 1, 0]), &timed(1, 3, 1, [0, 0, 1, 1]), Reason::Node);
    decides(5, &timed(0, 3, 1, [0, 0, 1, 1]), &timed(0, 4, 0, [0, 1, 1, 0]), Reason::R);
    let (one, other) = (timed(1, 4, 0, [2, 1, 1, 0]), timed(1, 4, 0, [0, 1, 1, 0]));
    assert_eq!(compare(&SETUP, 5, &one, &other), Ok((Equal, Reason::Nothing)));
    assert_eq!(
        compare(&SETUP, 5, &one, &frame(1, 4, 0, &[2, 1, 1, 0], &[7])),
        Ok((Equal, Reason::Nothing))
    );
}

#[test]
fn a_count_at_every_clock_also_around_the_wrap() {
    for v in 0..14 {
        for ahead in -3..2 {
            let r = (v + ahead + 14) % 14;
            let newest = [timed(1, r, 0, [1, 1, 1, 0]), timed(0, r, 0, [0, 0, 2, 0])];
            decides(v, &newest[0], &newest[1], Reason::Count(r));
            let before = [timed(1, r, 0, [1, 0, 1, 0]), timed(0, r, 0, [0, 1, 1, 0])];
            decides(v, &before[0], &before[1], Reason::Count((r + 13) % 14));
        }
    }
}

#[test]
fn the_questions_in_turn() {
    let (good, short) = (frame_a(), &frame_a()[1..]);
    let (far, unsound) = (timed(2, 2, 0, [1, 1, 1, 0]), timed(1, 2, 0, [1, 1, 0, 0]));
    assert_eq!(compare(&Setup { own: 2, ..SETUP }, 14, short, short), Err(1));
    assert_eq!(compare(&SETUP, 14, short, short), Err(2));
    assert_eq!(compare(&SETUP, 1, short, &unsound), Err(10));
    assert_eq!(compare(&SETUP, 1, &far, short), Err(11));
    assert_eq!(compare(&SETUP, 1, &unsound, short), Err(12));
    assert_eq!(compare(&SETUP, 1, &good, short), Err(10));
    assert_eq!(compare(&SETUP, 1, &good, &far), Err(11));
    assert_eq!(compare(&SETUP, 1, &good, &unsound), Err(12));
}

#[test]
fn its_order_is_that_of_the_queue() {
    let mut rng = Prng::new(24);
    for _ in 0..2_000 {
        let setup = generate::setup(&mut rng);
        let CompareCase { setup, clock, first, second } = CompareCase::random(&mut rng, setup);
        if compare(&setup, clock, &first, &second).is_err() {
            continue;
        }
        let near = |bytes| Entry::near(&setup, clock, Frame::parse(&setup, bytes).unwrap());
        let (first, second) = (near(&first), near(&second));
        assert_eq!(decide(&setup, clock, &first, &second).0, first.order(&second));
    }
}

#[test]
fn a_reason_is_against_the_line_before_and_anew_in_each_hand_out() {
    // At 5 three frames are due, of which the second and third differ in their stations alone; at 6 one.
    let text = "setup 3 2 1 14 0\ntick 4\nframe 2 2 0 1,1,1,0 41\nframe 0 2 0 1,1,2,0 42\n\
                frame 1 2 0 1,1,2,0 43\nframe 1 3 0 1,1,1,0 44\ntick 5\ntick 6";
    let lines = "tick 4 mend 0 c 0 took 4 sent 0 gave 0\ntick 5 mend 0 c 0 took 0 sent 0 gave 3\n\
                 give 2 2 41 -\ngive 0 2 42 count 2\ngive 1 2 43 station\n\
                 tick 6 mend 0 c 0 took 0 sent 0 gave 1\ngive 1 3 44 -\n";
    assert_eq!(replay_text(&Trace::from_text(text).unwrap().to_bytes()), lines);
}
