//! 01's sample judgements.

use crate::common::{frame, frame_a, fresh_case, run, state, verdict, SETUP};
use oracle::holdback::Entry;
use oracle::{ClockState, Frame, Setup};

#[test]
fn a_the_frame_is_taken_and_counted_in() {
    let (answer, after) = run(fresh_case(SETUP, 1, &[frame_a()]));
    assert_eq!((answer.number, answer.taken, after.verdicts[0]), (0, 1, 0));
    assert_eq!(after.state, state(1, 1, &[0, 1, 2, 1]));
}

#[test]
fn b_the_frame_sent_comes_after_a_by_the_second_count() {
    let a = frame_a();
    let mut case = fresh_case(SETUP, 1, &[&a]);
    case.send = true;
    let (answer, after) = run(case);
    let sent = &after.outgoing[..answer.outgoing.into()];
    assert_eq!(sent, frame(0, 1, 1, &[0, 1, 2, 1], &[]));
    let near = |bytes| Entry::near(&SETUP, 1, Frame::parse(&SETUP, bytes).unwrap());
    let (a, sent) = (near(&a), near(sent));
    assert_eq!((a.sum, sent.sum), (1, 1), "both sums are 2, one ahead of 1");
    assert!(a.order(&sent).is_lt() && sent.order(&a).is_gt());
    let from_c_down = |entry: Entry| {
        let t = entry.frame.timestamp;
        [t.count(t.c), t.count(t.c - 1)]
    };
    assert_eq!((from_c_down(a), from_c_down(sent)), ([1, 1], [1, 2]));
}

#[test]
fn c_both_are_due_at_5() {
    for bytes in [frame_a(), frame(0, 1, 1, &[0, 1, 2, 1], &[])] {
        let frame = Frame::parse(&SETUP, &bytes).unwrap();
        assert_eq!(Entry::near(&SETUP, 1, frame).due(&SETUP), 4, "four ahead of 1");
        assert_eq!(Entry::near(&SETUP, 5, frame).due(&SETUP), 0);
    }
}

#[test]
fn d_three_behind_is_taken() {
    assert_eq!(verdict(5, &frame(1, 2, 0, &[1, 1, 1, 0], &[])), 0);
}

#[test]
fn e_four_behind_gets_13() {
    assert_eq!(verdict(5, &frame(1, 1, 0, &[1, 1, 1, 0], &[])), 13);
}

#[test]
fn f_a_sum_too_far_ahead_gets_14() {
    assert_eq!(verdict(1, &frame(1, 2, 1, &[1, 1, 1, 1], &[])), 14);
}

#[test]
fn g_two_ahead_is_read_as_twelve_behind() {
    assert_eq!(SETUP.near(3, 1), -12);
    assert_eq!(verdict(1, &frame(1, 3, 0, &[1, 1, 1, 0], &[])), 13);
}

#[test]
fn h_n_counted_at_v_gets_15() {
    assert_eq!(verdict(1, &frame(1, 2, 0, &[1, 2, 1, 0], &[])), 15);
}

#[test]
fn i_no_count_at_c_gets_12() {
    assert_eq!(verdict(1, &frame(1, 2, 0, &[1, 1, 0, 0], &[])), 12);
}

#[test]
fn j_13_is_one_behind_0() {
    assert_eq!(SETUP.near(13, 0), -1);
}

/// The mend of an empty tick at 5 from these tables, and the new ones.
fn mend_at_5(tables: ClockState) -> (u8, ClockState) {
    let mut case = fresh_case::<&[u8]>(SETUP, 5, &[]);
    case.state = tables;
    let (answer, after) = run(case);
    assert_eq!(answer.number, 0);
    (answer.repair, after.state)
}

#[test]
fn k_tables_with_r_2_at_clock_5_are_replaced() {
    let replaced = state(5, 0, &[0, 0, 1, 0]);
    assert_eq!(mend_at_5(state(2, 0, &[1, 1, 1, 0])), (1, replaced));
    assert_eq!(mend_at_5(state(5, 0, &[1, 1, 1, 0])), (1, replaced), "a step of 0");
}

#[test]
fn k_a_step_of_2_is_sound_since_02() {
    assert_eq!(mend_at_5(state(3, 0, &[1, 1, 2, 0])), (0, state(5, 0, &[2, 0, 1, 0])));
    assert_eq!(mend_at_5(state(3, 1, &[1, 1, 2, 1])), (0, state(5, 0, &[2, 1, 1, 0])));
    assert_eq!(mend_at_5(state(4, 1, &[1, 1, 2, 1])), (0, state(5, 0, &[1, 2, 2, 0])));
}

#[test]
fn l_the_smallest_group() {
    let setup = Setup { n: 1, epsilon: 1, delta: 0, modulus: 7, own: 0 };
    let (answer, after) = run(fresh_case::<&[u8]>(setup, 1, &[]));
    assert_eq!((answer.number, answer.repair), (0, 0));
    assert_eq!(after.state, state(1, 0, &[1, 1]));
}

#[test]
fn b_13_gets_1_and_a_payload_of_33_gets_4() {
    let mut case = fresh_case::<&[u8]>(SETUP, 1, &[]);
    case.setup.modulus = 13;
    assert_eq!(run(case).0.number, 1);
    let mut case = fresh_case::<&[u8]>(SETUP, 1, &[]);
    case.payload = vec![0; 33];
    assert_eq!(run(case.clone()).0.number, 4, "even if nothing is to be sent");
    case.payload.pop();
    assert_eq!(run(case).0.number, 0);
}
