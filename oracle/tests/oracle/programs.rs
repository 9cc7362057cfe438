//! The programs themselves.

use crate::rehearsing;
use crate::replaying::sample;
use oracle::streaming::{self, Sample, LIMIT};
use std::io::{Read, Write};
use std::process::{Child, Command, Stdio};
use std::time::Duration;

const REPLAY: &str = env!("CARGO_BIN_EXE_replay");
const YARD: &str = env!("CARGO_BIN_EXE_yard");

fn start(program: &str) -> Child {
    let mut command = Command::new(program);
    command.stdin(Stdio::piped()).stdout(Stdio::piped()).stderr(Stdio::piped());
    command.spawn().expect("a program that starts")
}

#[test]
fn replay_prints_a_tick_before_it_reads_the_next() {
    streaming::check(REPLAY, &Sample::of_replay(), LIMIT).unwrap();
}

#[test]
fn yard_prints_a_step_before_it_reads_the_next() {
    streaming::check(YARD, &Sample::of_yard(), LIMIT).unwrap();
}

#[test]
fn both_end_where_they_cannot_write() {
    streaming::check_full(REPLAY, &Sample::of_replay(), LIMIT).unwrap();
    streaming::check_full(YARD, &Sample::of_yard(), LIMIT).unwrap();
    let limit = Duration::from_millis(200);
    let error = streaming::check_full("wc", &Sample::of_replay(), limit).unwrap_err();
    assert_eq!(error, "wc: it goes on where it cannot write");
}

#[test]
fn a_program_that_reads_all_first_or_writes_other_lines_is_found() {
    let (sample, short) = (Sample::of_replay(), Duration::from_millis(200));
    let late = streaming::check("wc", &sample, short).unwrap_err();
    assert!(late.starts_with("wc: tick 1: `tick 1 mend 0 c 1") && late.ends_with("in time"));
    let other = streaming::check("yes", &sample, LIMIT).unwrap_err();
    assert!(other.starts_with("yes: tick 1: `y`, not `tick 1 mend 0 c 1"));
    let late = streaming::check("wc", &Sample::of_yard(), short).unwrap_err();
    assert!(late.starts_with("wc: tick 1: `0 tick 14 mend 0 c 0") && late.ends_with("in time"));
}

#[test]
fn both_judge_the_setup_before_they_read_on_and_yard_the_count() {
    assert_eq!(answer_before_the_end(REPLAY, &[2, 2, 1, 13, 0, 0]), "refused 1\n");
    assert_eq!(answer_before_the_end(YARD, &[2, 2, 1, 13, 0]), "refused 1\n");
    assert_eq!(answer_before_the_end(YARD, &[2, 2, 1, 14, 0, 0xe9, 3]), "refused 5\n");
}

/// What a program writes for these bytes, and ends, while there may be more to come.
fn answer_before_the_end(program: &str, bytes: &[u8]) -> String {
    let mut child = start(program);
    let mut stdin = child.stdin.take().unwrap();
    stdin.write_all(bytes).unwrap();
    let mut text = String::new();
    child.stdout.take().unwrap().read_to_string(&mut text).unwrap();
    drop(stdin);
    assert!(child.wait().unwrap().success());
    text
}

#[test]
fn trace_writes_the_samples_and_reports_a_bad_line() {
    let run = |text: &str| {
        let mut child = start(env!("CARGO_BIN_EXE_trace"));
        child.stdin.take().unwrap().write_all(text.as_bytes()).unwrap();
        child.wait_with_output().unwrap()
    };
    let good = run(include_str!("../../samples/sample.txt"));
    assert!(good.status.success());
    assert_eq!(good.stdout, sample());
    let good = run(include_str!("../../samples/yard.txt"));
    assert!(good.status.success());
    assert_eq!(good.stdout, rehearsing::sample());
    let bad = run("setup 2 2 1 14 0\nsing");
    assert!(!bad.status.success());
    assert_eq!(bad.stderr, b"trace: line 2: a tick comes first\n");
}

#[cfg(feature = "plant")]
#[test]
fn compare_meets_every_number_and_finds_every_fault() {
    let mut command = Command::new(env!("CARGO_BIN_EXE_compare"));
    let output = command
        .args([
            "selfcheck",
            "--calls",
            "90000",
            "--engines",
            "60000",
            "--traces",
            "500",
            "--wider",
            "40000",
            "--charges",
            "20000",
            "--figures",
            "20000",
        ])
        .output();
    let output = output.unwrap();
    let text = String::from_utf8(output.stdout).unwrap();
    assert!(output.status.success(), "{text}");
    let found = text.lines().filter(|line| line.starts_with("fault ")).count();
    assert_eq!(found, oracle::fault::all().count());
}
