//! The replay of traces.

use oracle::generate::traces::{LONGEST_QUEUE, TOO_LONG_QUEUE};
use oracle::replay::replay_text;
use oracle::trace::Trace;

const SAMPLE: &str = include_str!("../../samples/sample.txt");

/// The text that 01 gives for its sample, with the endings of 02.
const SAMPLE_LINES: &str = "\
tick 1 mend 0 c 1 took 1 sent 1 gave 0
tick 2 mend 0 c 0 took 1 sent 0 gave 0
tick 3 mend 0 c 0 took 0 sent 0 gave 0
tick 4 mend 0 c 0 took 0 sent 0 gave 0
tick 5 mend 0 c 0 took 0 sent 0 gave 2
give 1 2 41 -
give 0 1 42 count 1
";

pub fn sample() -> Vec<u8> {
    Trace::from_text(SAMPLE).unwrap().to_bytes()
}

fn replay_of(text: &str) -> String {
    replay_text(&Trace::from_text(text).unwrap().to_bytes())
}

#[test]
fn the_sample() {
    assert_eq!(replay_text(&sample()), SAMPLE_LINES);
}

#[test]
fn the_sample_cut_anywhere_gets_5_after_its_whole_ticks() {
    let sample = sample();
    let empty_tick = 5;
    let first_end = 8 + 4 + 1 + 1 + 1 + 12;
    let second_end = first_end + 4 + 1 + 1 + 12;
    let ends: Vec<_> = [first_end, second_end]
        .into_iter()
        .chain((1..=3).map(|n| second_end + n * empty_tick))
        .collect();
    assert_eq!(ends[4], sample.len());
    for length in 0..sample.len() {
        let ticks = ends.iter().filter(|&&end| end <= length).count();
        let lines: Vec<_> = SAMPLE_LINES.lines().take(ticks).chain(["refused 5"]).collect();
        assert_eq!(replay_text(&sample[..length]).lines().collect::<Vec<_>>(), lines);
    }
}

#[test]
fn an_overlong_trace_gets_5_after_all_its_lines() {
    let text = replay_text(&[&sample()[..], &[0]].concat());
    assert_eq!(text, format!("{SAMPLE_LINES}refused 5\n"));
}

#[test]
fn a_bad_send_byte_gets_5_before_the_call() {
    let mut trace = sample();
    trace[10] = 2;
    assert_eq!(replay_text(&trace), "refused 5\n");
    trace[8] = 14;
    assert_eq!(replay_text(&trace), "refused 5\n", "also where the clock is wrong");
}

#[test]
fn the_setup_is_judged_once_read() {
    assert_eq!(replay_text(&[2, 2, 1, 13, 0, 0]), "refused 1\n");
    assert_eq!(replay_text(&[2, 2, 1, 13, 0]), "refused 5\n");
    assert_eq!(replay_text(&[2, 2, 1, 14, 0, 2]), "refused 1\n");
}

#[test]
fn a_queue_above_65536_bytes_counts_as_setup_1() {
    let empty = |setup| Trace { setup, ticks: Vec::new(), count: None, tail: Vec::new() };
    assert_eq!((LONGEST_QUEUE.holdback_len(), TOO_LONG_QUEUE.holdback_len()), (65_535, 65_552));
    assert!(TOO_LONG_QUEUE.is_valid());
    assert_eq!(replay_text(&empty(LONGEST_QUEUE).to_bytes()), "");
    assert_eq!(replay_text(&empty(TOO_LONG_QUEUE).to_bytes()), "refused 1\n");
}

#[test]
fn refusals_of_the_call_stop_the_replay() {
    let long = "00".repeat(33);
    let setup = "setup 2 2 1 14 0\ntick 1\ntick";
    let first = "tick 1 mend 0 c 0 took 0 sent 0 gave 0\n";
    let of = |rest: String| replay_of(&format!("{setup} {rest}"));
    assert_eq!(of("14\ntick 3".into()), format!("{first}refused 2\n"));
    assert_eq!(of(format!("2\nkeep {long}\ntick 3")), format!("{first}refused 4\n"));
    assert_eq!(of(format!("14\nsend {long}")), format!("{first}refused 2\n"), "2 before 4");
}

#[test]
fn it_starts_fresh_before_the_first_clock_and_mends_a_jump() {
    let lines = "tick 0 mend 0 c 0 took 0 sent 0 gave 0\ntick 5 mend 1 c 0 took 0 sent 1 gave 0\n";
    assert_eq!(replay_of("setup 2 2 1 14 0\ntick 0\ntick 5\nsend -"), lines);
    assert_eq!(replay_of("setup 2 2 1 14 0"), "", "no ticks, no output");
}

#[test]
fn a_later_tick_may_step_by_1_to_epsilon_without_a_mend() {
    let line =
        |clock: i64, mend: i64| format!("tick {clock} mend {mend} c 0 took 0 sent 0 gave 0\n");
    let text = "setup 2 2 1 14 0\ntick 11\ntick 13\ntick 1\ntick 2\ntick 2\ntick 5";
    let lines = [(11, 0), (13, 0), (1, 0), (2, 0), (2, 1), (5, 1)].map(|(v, mend)| line(v, mend));
    assert_eq!(replay_of(text), lines.concat());
}

#[test]
fn a_step_past_a_due_clock_hands_out_what_was_due_before_first() {
    // Frame A is due at 5; the tick at 6 steps over it and hears one that is due at 6.
    let text = "setup 2 2 1 14 0\ntick 4\nframe 1 2 0 1,1,1,0 41\ntick 6\nframe 0 3 0 0,1,1,0 42";
    let lines = "tick 4 mend 0 c 0 took 1 sent 0 gave 0\n\
                 tick 6 mend 0 c 0 took 1 sent 0 gave 2\ngive 1 2 41 -\ngive 0 3 42 sum\n";
    assert_eq!(replay_of(text), lines);
}

#[test]
fn an_empty_payload_prints_as_a_dash_and_hexadecimal_is_lower_case() {
    let text = "setup 2 2 1 14 0\ntick 5\nkeep 00\nframe 1 2 0 1,1,1,0 -\nframe 0 2 0 1,1,1,0 00aF";
    let lines = "tick 5 mend 0 c 0 took 2 sent 0 gave 2\ngive 0 2 00af -\ngive 1 2 - station\n";
    assert_eq!(replay_of(text), lines);
}
