//! 02's lines of words.

use crate::common::{frame, frame_a, FILL, SETUP};
use oracle::{batch, words, Setup};

/// The lines of some entries and verdicts.
fn lines(setup: &Setup, entries: &[Vec<u8>], verdicts: &[u8]) -> Result<String, u8> {
    let mut text = vec![FILL; 29 * entries.len() + 3];
    let length = words(setup, &batch::encode(entries), verdicts, &mut text)?;
    assert!(text[length..].iter().all(|&byte| byte == FILL), "bytes beyond the text stay");
    text.truncate(length);
    Ok(String::from_utf8(text).unwrap())
}

#[test]
fn each_number_has_its_word_and_its_limits() {
    let numbers = [0, 10, 11, 12, 13, 14, 15, 16];
    let text = "0 1 2 taken\n1 - - form\n2 1 2 range 2 14\n3 1 2 stamp 2 1\n4 1 2 late 3\n\
                5 1 2 early 1\n6 1 2 count 1\n7 1 2 repeat\n";
    assert_eq!(lines(&SETUP, &vec![frame_a(); 8], &numbers), Ok(text.into()));
}

#[test]
fn the_longest_line_has_29_bytes() {
    let setup = Setup { n: 16, epsilon: 16, delta: 64, modulus: 65_535, own: 0 };
    let entries = vec![frame(255, 65_535, 0, &[], &[]); 255];
    let text = lines(&setup, &entries, &[11; 255]).unwrap();
    let last = text.lines().last().unwrap();
    assert_eq!((last, last.len() + 1), ("254 255 65535 range 16 65535", 29));
}

#[test]
fn missing_bytes_read_as_0() {
    assert_eq!(lines(&SETUP, &[vec![]], &[0]), Ok("0 0 0 taken\n".into()));
    assert_eq!(lines(&SETUP, &[vec![9, 8, 7]], &[16]), Ok("0 8 7 repeat\n".into()));
}

#[test]
fn wrong_arguments_get_their_number_and_nothing_is_written() {
    let one = batch::encode(&[frame_a()]);
    let refusal = |setup: &Setup, batch: &[u8], verdicts: &[u8], length: usize| {
        let mut text = vec![FILL; length];
        let answer = words(setup, batch, verdicts, &mut text);
        assert!(text.iter().all(|&byte| byte == FILL));
        answer.unwrap_err()
    };
    assert_eq!(refusal(&Setup { own: 2, ..SETUP }, &[], &[], 0), 1);
    assert_eq!(refusal(&SETUP, &[], &[], 0), 5);
    assert_eq!(refusal(&SETUP, &one[..one.len() - 1], &[0], 29), 5);
    assert_eq!(refusal(&SETUP, &one, &[], 29), 6);
    assert_eq!(refusal(&SETUP, &one, &[0], 28), 6);
    for number in (1..10).chain(17..=255) {
        assert_eq!(refusal(&SETUP, &one, &[number], 29), 6, "{number}");
    }
}

#[test]
fn no_frames_have_no_lines_and_verdicts_past_the_last_are_not_looked_at() {
    assert_eq!(lines(&SETUP, &[], &[]), Ok(String::new()));
    assert_eq!(lines(&SETUP, &[frame_a()], &[0, 9]), Ok("0 1 2 taken\n".into()));
}
