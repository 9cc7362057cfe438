//! 02's figures (2.13).

use crate::common::{frame, frame_a, listen, listening, run, fresh_case, SETUP};
use oracle::figures::{FIGURES, COLUMNS, TICKS};
use oracle::{batch, figures};

/// The total at a column.
fn total(bytes: &[u8], column: usize) -> u16 {
    u16::from_le_bytes([bytes[1 + 2 * column], bytes[2 + 2 * column]])
}

/// All columns that are not 0, with their totals.
fn totals(bytes: &[u8]) -> Vec<(usize, u16)> {
    (0..COLUMNS).map(|column| (column, total(bytes, column))).filter(|&(_, total)| total > 0).collect()
}

#[test]
fn each_verdict_has_its_column() {
    let mut bytes = vec![0; FIGURES];
    assert_eq!(bytes.len(), 29_155);
    let numbers = [0, 10, 11, 12, 13, 14, 15, 16];
    assert_eq!(figures(2, &batch::encode(&vec![frame_a(); 8]), &numbers, &mut bytes), Ok(()));
    let one = [(7, 1), (8, 1), (9, 1), (10, 1), (11, 1), (12, 1), (13, 1), (112, 1)];
    assert_eq!(totals(&bytes), one);
    assert_eq!(bytes[0], 1);
    let row: Vec<(usize, u16)> = one.to_vec();
    assert_eq!((0..COLUMNS).filter(|&column| bytes[227 + column] > 0).collect::<Vec<_>>(), row.iter().map(|&(column, _)| column).collect::<Vec<_>>());
}

#[test]
fn a_station_not_below_n_has_the_line_of_its_own() {
    let mut bytes = vec![0; FIGURES];
    let entries = [frame(2, 2, 0, &[1, 1, 1, 0], &[]), frame(1, 2, 0, &[1, 1, 1, 0], &[]), vec![], frame(255, 2, 0, &[], &[])];
    assert_eq!(figures(2, &batch::encode(&entries), &[11, 11, 16, 0], &mut bytes), Ok(()));
    assert_eq!(totals(&bytes), [(6, 1), (8, 1), (112, 2)]);
}

#[test]
fn after_256_calls_the_oldest_goes() {
    let mut bytes = vec![0; FIGURES];
    let (one, none) = (batch::encode(&[frame_a()]), vec![0]);
    for call in 0..TICKS + 2 {
        let heard = if call < 2 { &one } else { &none };
        assert_eq!(figures(2, heard, &[0], &mut bytes), Ok(()));
        let expected = [1, 2][call.min(1)] - (call.saturating_sub(TICKS - 1)) as u16;
        assert_eq!(total(&bytes, 7), expected, "after call {call}");
    }
}

#[test]
fn from_any_bytes_the_totals_are_right_after_256_calls() {
    let mut bytes: Vec<u8> = (0..FIGURES).map(|at| (at * 7 + at / 251) as u8).collect();
    for _ in 0..TICKS {
        assert_eq!(figures(2, &batch::encode(&[frame_a()]), &[16], &mut bytes), Ok(()));
    }
    assert_eq!(totals(&bytes), [(13, 256)]);
}

#[test]
fn wrong_arguments_get_their_number_and_change_nothing() {
    let one = batch::encode(&[frame_a()]);
    let refusal = |n: i64, batch: &[u8], verdicts: &[u8], length: usize| {
        let mut bytes = vec![7; length];
        let answer = figures(n, batch, verdicts, &mut bytes);
        assert!(bytes.iter().all(|&byte| byte == 7));
        answer.unwrap_err()
    };
    for n in [0, 17, 65_540] {
        assert_eq!(refusal(n, &[], &[], 0), 1);
    }
    assert_eq!(refusal(16, &[], &[], FIGURES - 1), 3);
    assert_eq!(refusal(1, &[], &[], FIGURES + 1), 3);
    assert_eq!(refusal(1, &one[..one.len() - 1], &[], FIGURES), 5);
    assert_eq!(refusal(1, &one, &[], FIGURES), 6);
    for number in (1..10).chain(17..=255) {
        assert_eq!(refusal(1, &one, &[number], FIGURES), 6, "{number}");
    }
}

#[test]
fn a_tick_and_a_listeners_call_are_counted_also_where_they_mend() {
    let mut bytes = vec![0; FIGURES];
    let mut case = fresh_case(SETUP, 3, &[frame_a()]);
    case.state = [255; 35];
    let (answer, left) = run(case);
    assert_eq!((answer.number, answer.repair), (0, 1));
    assert_eq!(figures(SETUP.n, &left.batch, &left.verdicts, &mut bytes), Ok(()));
    let (answer, left) = listen(listening(SETUP, 9, 3, &[frame_a(), frame_a()]));
    assert_eq!((answer.number, answer.repair), (0, 1));
    assert_eq!(figures(SETUP.n, &left.batch, &left.verdicts, &mut bytes), Ok(()));
    assert_eq!(totals(&bytes), [(7, 2), (13, 1)]);
}
