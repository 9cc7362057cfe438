//! The rehearsal of a whole group (02, 2.8).

use crate::common::fresh_case;
use oracle::generate::traces::{LONGEST_QUEUE, TOO_LONG_QUEUE};
use oracle::generate::yards::{self, Flaw, Habits, LARGEST_GROUP};
use oracle::generate::{Prng, TickCase};
use oracle::replay::replay_text;
use oracle::trace::{Trace, TraceTick};
use oracle::yard::yard_text;
use oracle::yard_trace::{TraceStep, YardTrace};
use oracle::Setup;

const SAMPLE: &str = include_str!("../../samples/yard.txt");

pub fn sample() -> Vec<u8> {
    YardTrace::from_text(SAMPLE).unwrap().to_bytes()
}

fn yard_of(text: &str) -> String {
    yard_text(&YardTrace::from_text(text).unwrap().to_bytes())
}

/// The lines of steps, of which there are no closing ones.
fn lines_of(text: &str) -> Vec<&str> {
    text.lines().filter(|line| line.contains(" tick ") || line.contains(" give ")).collect()
}

/// The closing lines.
fn figures(text: &str) -> Vec<&str> {
    let lines: Vec<_> = text.lines().collect();
    lines[lines.len() - 7..].to_vec()
}

#[test]
fn lines_are_replays_after_the_node_and_seven_lines_close() {
    // As in 01's sample, station 0 hears a frame of station 1 that is ahead, and then its own.
    let text = "yard 2 2 1 14\nstep 1 2 send 41\nstep 0 1 send 42 hears 1\nstep 0 2 hears 2\n\
                step 0 3\nstep 0 4\nstep 0 5 hears 1";
    let lines = "\
1 tick 2 mend 0 c 0 took 0 sent 1 gave 0
0 tick 1 mend 0 c 1 took 1 sent 1 gave 0
0 tick 2 mend 0 c 0 took 1 sent 0 gave 0
0 tick 3 mend 0 c 0 took 0 sent 0 gave 0
0 tick 4 mend 0 c 0 took 0 sent 0 gave 0
0 tick 5 mend 0 c 0 took 0 sent 0 gave 2
0 give 1 2 41 -
0 give 0 1 42 count 1
10 -
11 -
12 -
13 -
14 -
15 -
16 6
";
    assert_eq!(yard_of(text), lines);
}

#[test]
fn a_figure_counts_the_opening_steps_from_1() {
    // r 2 is three behind 5, which is taken, and four behind 6.
    let late = |clocks: &str| {
        let start = "yard 2 2 1 14\nstep 1 2 send -\n";
        let text = yard_of(&format!("{start}{clocks} hears 1"));
        figures(&text)[3].to_string()
    };
    assert_eq!(late("step 0 4\nstep 0 5\nstep 0 6"), "13 4");
    assert_eq!(late("step 0 4\nstep 0 5"), "13 -");
    assert_eq!(late("step 0 6"), "13 2");
    let twice = "yard 2 2 1 14\nstep 1 2 send -\nstep 0 6 hears 1\nstep 0 7 hears 1";
    assert_eq!(figures(&yard_of(twice))[3], "13 2", "the first of them");
}

#[test]
fn the_figures_of_14_15_and_16() {
    // Station 0 knows of clock 3 and sends at 2: too early for a clock of 1.
    let early = "yard 3 2 1 14\nstep 2 3 send -\nstep 0 2 send - hears 1\nstep 1 1 hears 2";
    assert_eq!(figures(&yard_of(early)), ["10 -", "11 -", "12 -", "13 -", "14 3", "15 -", "16 -"]);
    // Both have been at clock 2, and station 0 comes to it again.
    let again = "yard 2 2 1 14\nstep 0 2 send -\nstep 1 2 send - hears 1\nstep 0 2 hears 2";
    assert_eq!(figures(&yard_of(again)), ["10 -", "11 -", "12 -", "13 -", "14 -", "15 3", "16 -"]);
    let repeat = "yard 2 2 1 14\nstep 0 2 send -\nstep 1 2 hears 1,1";
    assert_eq!(figures(&yard_of(repeat)), ["10 -", "11 -", "12 -", "13 -", "14 -", "15 -", "16 2"]);
}

#[test]
fn the_sample_shows_one_order_on_all_boards() {
    let text = yard_text(&sample());
    let board = |node: usize| {
        let shown = |line: &str| {
            let words: Vec<_> = line.strip_prefix(&format!("{node} give "))?.split(' ').collect();
            Some(words[2].to_string())
        };
        text.lines().filter_map(shown).collect::<Vec<_>>()
    };
    let order = ["a1", "c1", "b1", "a2", "b2", "a3", "c2", "a4", "b3", "b4", "c3"];
    (0..3).for_each(|node| assert_eq!(board(node), order, "board {node}"));
    assert!(text.lines().any(|line| line == "2 tick 1 mend 0 c 0 took 2 sent 0 gave 3"));
    assert_eq!(figures(&text), ["10 -", "11 -", "12 -", "13 26", "14 -", "15 -", "16 7"]);
}

#[test]
fn the_sample_cut_anywhere_gets_5_after_its_whole_steps() {
    let (bytes, trace) = (sample(), YardTrace::from_text(SAMPLE).unwrap());
    let text = yard_text(&bytes);
    let all = lines_of(&text);
    let ticks: Vec<_> = (0..all.len()).filter(|&at| all[at].contains(" tick ")).collect();
    for length in 0..bytes.len() {
        let is_whole = |steps: &usize| {
            let steps = trace.steps[..*steps].to_vec();
            YardTrace { steps, ..trace.clone() }.to_bytes().len() <= length
        };
        let whole = (0..trace.steps.len()).rev().find(is_whole).unwrap_or(0);
        let cut = yard_text(&bytes[..length]);
        let lines: Vec<_> = all[..ticks[whole]].iter().chain(&["refused 5"]).copied().collect();
        assert_eq!(cut.lines().collect::<Vec<_>>(), lines, "{length} bytes");
    }
}

#[test]
fn an_overlong_trace_gets_5_after_its_lines_and_no_figures() {
    let text = yard_text(&sample());
    let lines: Vec<_> = lines_of(&text).into_iter().chain(["refused 5"]).collect();
    let overlong = yard_text(&[&sample()[..], &[0]].concat());
    assert_eq!(overlong.lines().collect::<Vec<_>>(), lines);
}

#[test]
fn the_setup_is_judged_once_read_and_so_is_the_count() {
    assert_eq!(yard_text(&[2, 2, 1, 13]), "refused 5\n");
    assert_eq!(yard_text(&[2, 2, 1, 13, 0]), "refused 1\n");
    assert_eq!(yard_text(&[0, 2, 1, 14, 0]), "refused 1\n");
    assert_eq!(yard_text(&[2, 2, 1, 14, 0, 0]), "refused 5\n");
    let nothing = "10 -\n11 -\n12 -\n13 -\n14 -\n15 -\n16 -\n";
    assert_eq!(yard_text(&[2, 2, 1, 14, 0, 0, 0]), nothing, "no steps");
    let of = |setup: Setup| yard_text(&YardTrace::new(setup).to_bytes());
    assert_eq!(of(LONGEST_QUEUE), nothing);
    assert_eq!(of(LARGEST_GROUP), nothing);
    assert_eq!(of(TOO_LONG_QUEUE), "refused 1\n");
}

#[test]
fn a_trace_may_have_1000_steps() {
    let mut trace = YardTrace::new(Setup { n: 1, epsilon: 1, delta: 0, modulus: 2_000, own: 0 });
    let step = |clock: u16| TraceStep { clock, ..TraceStep::default() };
    trace.steps = (1..=1_000).map(step).collect();
    let text = yard_text(&trace.to_bytes());
    assert_eq!((lines_of(&text).len(), text.lines().count()), (1_000, 1_007));
    trace.steps.push(step(1_001));
    assert_eq!(yard_text(&trace.to_bytes()), "refused 5\n");
    assert_eq!(yard_text(&trace.to_bytes()[..7]), "refused 5\n", "before any step is read");
}

#[test]
fn steps_that_get_5() {
    let start = "yard 2 2 1 14\nstep 0 1 send -\nstep 1 1\n";
    let first =
        "0 tick 1 mend 0 c 0 took 0 sent 1 gave 0\n1 tick 1 mend 0 c 0 took 0 sent 0 gave 0\n";
    let refused = format!("{first}refused 5\n");
    let of = |step: &str| yard_of(&format!("{start}step {step}\nstep 0 9 send -"));
    assert_eq!(of("2 2"), refused, "station n");
    assert_eq!(of("1 2 hears 0"), refused, "step 0");
    assert_eq!(of("1 2 send - hears 3"), refused, "its own step");
    assert_eq!(of("1 2 hears 4"), refused, "a later step");
    assert_eq!(of("1 2 hears 5"), refused, "no step");
    assert_eq!(of("1 2 hears 2"), refused, "a step that sent nothing");
    assert_eq!(of("1 2 hears 1,1,2"), refused, "the last of several");
    assert_eq!(of("2 14"), refused, "before the clock is looked at");
    assert!(of("1 2 hears 1").ends_with("\n16 -\n"));
    let mut trace = YardTrace::from_text(&format!("{start}step 1 14")).unwrap();
    trace.steps[2].send = 2;
    assert_eq!(yard_text(&trace.to_bytes()), refused, "a send byte of 2, before the clock");
}

#[test]
fn refusals_of_the_call_stop_the_rehearsal() {
    let long = "00".repeat(33);
    let start = "yard 2 2 1 14\nstep 0 1\nstep";
    let first = "0 tick 1 mend 0 c 0 took 0 sent 0 gave 0\n";
    let of = |rest: String| yard_of(&format!("{start} {rest}"));
    assert_eq!(of("1 14\nstep 0 2".into()), format!("{first}refused 2\n"));
    assert_eq!(of(format!("1 2 keep {long}\nstep 0 2")), format!("{first}refused 4\n"));
    assert_eq!(of(format!("1 14 send {long}")), format!("{first}refused 2\n"), "2 before 4");
}

#[test]
fn each_node_starts_before_its_own_first_clock() {
    let text =
        yard_of("yard 3 2 1 20\nstep 2 19\nstep 0 8\nstep 2 0\nstep 1 0\nstep 0 10\nstep 1 5");
    let mends: Vec<_> = text.lines().filter_map(|line| line.split(" mend ").nth(1)).collect();
    let mends: Vec<_> = mends.iter().map(|rest| &rest[..1]).collect();
    assert_eq!(mends, ["0", "0", "0", "0", "0", "1"], "only the last one jumps");
}

#[test]
fn each_flaw_gets_its_number_after_the_lines_before_it() {
    let mut rng = Prng::new(28);
    for flaw in Flaw::ALL {
        let mut met = 0;
        while met < 60 {
            let habits = Habits::random(&mut rng);
            let trace = yards::good(&mut rng, habits);
            let text = yard_text(&trace.to_bytes());
            let Some(bytes) = yards::spoilt(&mut rng, trace, flaw) else { continue };
            let spoilt = yard_text(&bytes);
            let lines: Vec<_> = spoilt.lines().collect();
            let (last, before) = lines.split_last().unwrap();
            assert_eq!(*last, format!("refused {}", flaw.number()), "{flaw:?}");
            assert_eq!(before, &lines_of(&text)[..before.len()], "{flaw:?}");
            met += 1;
        }
    }
}

/// What the calls of a trace leave, made one by one.
struct Calls {
    setup: Setup,
    /// Each node's latest call, if it has made one.
    latest: Vec<Option<TickCase>>,
    sent: Vec<Vec<u8>>,
    verdicts: Vec<Vec<u8>>,
    /// A trace for replay for each node.
    traces: Vec<Trace>,
    nodes: Vec<usize>,
}

impl Calls {
    fn of(trace: &YardTrace) -> Self {
        let setup = trace.setup;
        let own = |own| Setup { own, ..setup };
        let empty =
            |node| Trace { setup: own(node), ticks: Vec::new(), count: None, tail: Vec::new() };
        let mut calls = Calls {
            setup,
            latest: (0..setup.n).map(|_| None).collect(),
            sent: Vec::new(),
            verdicts: Vec::new(),
            traces: (0..setup.n).map(empty).collect(),
            nodes: Vec::new(),
        };
        trace.steps.iter().for_each(|step| calls.make(step));
        calls
    }

    fn make(&mut self, step: &TraceStep) {
        let node = usize::from(step.node);
        let frame = |&number: &u16| self.sent[usize::from(number) - 1].clone();
        let heard: Vec<Vec<u8>> = step.heard.iter().map(frame).collect();
        let setup = Setup { own: node as i64, ..self.setup };
        let fresh = fresh_case(setup, step.clock.into(), &heard);
        let mut case = match self.latest[node].take() {
            None => fresh,
            Some(TickCase { state, holdback, .. }) => TickCase { state, holdback, ..fresh },
        };
        (case.send, case.payload) = (step.send == 1, step.payload.clone());
        let answer = case.run();
        assert_eq!(answer.number, 0);
        self.sent.push(case.outgoing[..answer.outgoing.into()].to_vec());
        self.verdicts.push(case.verdicts[..heard.len()].to_vec());
        self.latest[node] = Some(case);
        self.nodes.push(node);
        let TraceStep { clock, send, ref payload, .. } = *step;
        let tick = TraceTick { clock, send, payload: payload.clone(), batch: heard };
        self.traces[node].ticks.push(tick);
    }

    /// The smallest number of opening steps in which a check refused a frame.
    fn figure(&self, check: u8) -> String {
        let refused = |steps: &usize| self.verdicts[..*steps].concat().contains(&check);
        match (0..=self.verdicts.len()).find(refused) {
            Some(steps) => format!("{check} {steps}"),
            None => format!("{check} -"),
        }
    }
}

#[test]
fn a_run_is_the_same_calls_made_one_by_one() {
    let mut rng = Prng::new(8);
    for _ in 0..200 {
        let habits = Habits::random(&mut rng);
        let trace = yards::good(&mut rng, habits);
        let calls = Calls::of(&trace);
        let text = yard_text(&trace.to_bytes());
        let lines = lines_of(&text);
        for (node, trace) in calls.traces.iter().enumerate() {
            let own = |line: &&str| line.strip_prefix(&format!("{node} ")).map(String::from);
            let own: Vec<_> = lines.iter().filter_map(own).collect();
            let alone = replay_text(&trace.to_bytes());
            assert_eq!(own, alone.lines().collect::<Vec<_>>());
        }
        let ticks = lines.iter().filter(|line| line.contains(" tick "));
        let nodes = ticks.map(|line| line.split(' ').next().unwrap().parse().unwrap());
        assert_eq!(nodes.collect::<Vec<usize>>(), calls.nodes, "in the order of the steps");
        let of_calls: Vec<_> = (10..=16).map(|check| calls.figure(check)).collect();
        assert_eq!(figures(&text), of_calls);
    }
}

#[test]
fn within_the_limits_only_repeats_are_refused() {
    let mut rng = Prng::new(3);
    let mut repeats = 0;
    for _ in 0..300 {
        let habits = Habits { steady: true, ..Habits::random(&mut rng) };
        let trace = yards::good(&mut rng, habits);
        let text = yard_text(&trace.to_bytes());
        let figures = figures(&text);
        assert_eq!(figures[..6], ["10 -", "11 -", "12 -", "13 -", "14 -", "15 -"]);
        assert!(!text.contains(" mend 1 ") && !text.contains(" mend 3 "));
        repeats += u32::from(figures[6] != "16 -");
    }
    assert!(repeats > 150);
}

#[test]
fn no_frame_that_was_sent_fails_10_to_12() {
    let mut rng = Prng::new(4);
    for _ in 0..500 {
        let habits = Habits { steady: false, ..Habits::random(&mut rng) };
        let trace = yards::good(&mut rng, habits);
        let text = yard_text(&trace.to_bytes());
        assert_eq!(figures(&text)[..3], ["10 -", "11 -", "12 -"]);
        assert!(!text.contains(" mend 2 "), "a queue is sound wherever the tables are");
    }
}

#[test]
fn sixteen_of_the_longest_queues() {
    let largest = LARGEST_GROUP.holdback_len();
    assert_eq!((largest, LARGEST_GROUP.least_modulus()), (65_522, LARGEST_GROUP.modulus));
    for (n, epsilon) in (1..=16).flat_map(|n| (1..=16).map(move |epsilon| (n, epsilon))) {
        for delta in 0..=64 {
            let setup = Setup { n, epsilon, delta, modulus: 65_535, own: 0 };
            let length = setup.holdback_len();
            assert!(length > 65_536 || n as usize * length <= 16 * largest);
        }
    }
}

#[test]
fn the_text_form_gives_the_bytes_of_a_trace() {
    let text =
        "# a comment\nyard 2 2 1 14\nstep 0 258 send 0aFF # more\nstep 1 2 keep 01 hears 1,1\n\
                step 1 3 hears 513 send -\nsteps 772\ntail 0708";
    let bytes = YardTrace::from_text(text).unwrap().to_bytes();
    let expected = [
        &[2, 2, 1, 14, 0, 4, 3][..],
        &[0, 2, 1, 1, 2, 10, 255, 0],
        &[1, 2, 0, 0, 1, 1, 2, 1, 0, 1, 0],
        &[1, 3, 0, 1, 0, 1, 1, 2],
        &[7, 8],
    ];
    assert_eq!(bytes, expected.concat());
    assert_eq!(oracle::trace::bytes_of_text(text), Ok(bytes));
}

#[test]
fn a_bad_text_names_its_line() {
    let many = "1,".repeat(255) + "1";
    let bad = [
        ("", "no yard"),
        ("step 0 1", "line 1: the yard comes first"),
        ("yard 2 2 1 14\nyard 2 2 1 14", "line 2: a second yard"),
        ("yard 2 2 1 14 0", "line 1: `0` is too much"),
        ("yard 2 2 1", "line 1: something is missing"),
        ("yard 2 2 1 14\nstep 256 1", "line 2: `256` is not a number that fits"),
        ("yard 2 2 1 14\nstep 0 1 sing", "line 2: `sing` is not known"),
        ("yard 2 2 1 14\n\nstep 0 1 hears 1,x", "line 3: `x` is not a number that fits"),
        ("yard 2 2 1 14\nstep 0 1 send 0", "line 2: `0` is not hexadecimal"),
        ("yard 2 2 1 14\ntick 1", "line 2: `tick` is not known"),
    ];
    for (text, error) in bad {
        assert_eq!(YardTrace::from_text(text), Err(error.into()));
    }
    let text = format!("yard 2 2 1 14\nstep 0 1 hears {many}");
    assert_eq!(YardTrace::from_text(&text), Err("line 2: more than 255 frames".into()));
}
