//! The order of two stamps: the first difference decides.

use crate::common::{frame, SETUP};
use oracle::holdback::Entry;
use oracle::{Frame, Setup};

/// Checks that the first frame comes before the second at v, and not the other way round.
fn comes_first(setup: &Setup, v: i64, first: &[u8], second: &[u8]) {
    let near = |bytes| Entry::near(setup, v, Frame::parse(setup, bytes).unwrap());
    assert!(near(first).order(&near(second)).is_lt());
    assert!(near(second).order(&near(first)).is_gt());
    assert!(near(first).order(&near(first)).is_eq());
}

fn timed(node: i64, r: i64, c: i64, kn: [u8; 4]) -> Vec<u8> {
    frame(node, r, c, &kn, &[])
}

#[test]
fn the_sum_decides_first() {
    comes_first(&SETUP, 5, &timed(1, 3, 0, [2, 2, 2, 0]), &timed(0, 3, 1, [0, 0, 0, 1]));
    comes_first(&SETUP, 5, &timed(1, 4, 0, [2, 2, 2, 0]), &timed(0, 5, 0, [0, 0, 1, 0]));
    comes_first(&SETUP, 0, &timed(1, 13, 0, [2, 2, 2, 0]), &timed(0, 0, 0, [0, 0, 1, 0]));
}

#[test]
fn then_the_counts_from_offset_c_down() {
    comes_first(&SETUP, 5, &timed(1, 4, 0, [2, 2, 1, 0]), &timed(0, 4, 0, [0, 0, 2, 0]));
    comes_first(&SETUP, 5, &timed(1, 4, 0, [2, 0, 1, 0]), &timed(0, 4, 0, [0, 1, 1, 0]));
    comes_first(&SETUP, 5, &timed(1, 4, 0, [0, 2, 1, 0]), &timed(0, 3, 1, [0, 0, 0, 2]));
}

#[test]
fn only_so_many_counts_as_the_drift_limit() {
    comes_first(&SETUP, 5, &timed(0, 4, 0, [2, 1, 1, 0]), &timed(1, 4, 0, [0, 1, 1, 0]));
    comes_first(&SETUP, 5, &timed(0, 4, 1, [0, 2, 1, 1]), &timed(1, 4, 1, [0, 0, 1, 1]));
    let three = Setup { epsilon: 3, modulus: 20, ..SETUP };
    let (low, high) = ([0, 0, 2, 1, 0, 0], [0, 1, 2, 1, 0, 0]);
    let frames = [frame(1, 4, 0, &low, &[]), frame(0, 4, 0, &high, &[])];
    comes_first(&three, 5, &frames[0], &frames[1]);
}

#[test]
fn then_the_node_and_at_last_r_read_near_v() {
    comes_first(&SETUP, 5, &timed(0, 4, 0, [0, 1, 1, 0]), &timed(1, 3, 1, [0, 0, 1, 1]));
    comes_first(&SETUP, 5, &timed(0, 3, 1, [0, 0, 1, 1]), &timed(0, 4, 0, [0, 1, 1, 0]));
    comes_first(&SETUP, 1, &timed(0, 13, 1, [0, 0, 1, 1]), &timed(0, 0, 0, [0, 1, 1, 0]));
}
