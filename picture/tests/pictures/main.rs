//! Pictures of the samples and of random traces, good and spoilt.

mod xml;

use oracle::generate::{traces, yards, Prng};
use oracle::playing::hex;
use picture::layout::{lay_out, Area, Item, Layout, LEFT, TOP};
use picture::run::{Kind, Run, Step};
use picture::{draw, read};
use std::collections::BTreeSet;

const YARD: &[u8] = include_bytes!("../../../crates/yard/stdin");
const YARD_TEXT: &str = include_str!("../../../crates/yard/stdout");
const REPLAY: &[u8] = include_bytes!("../../../crates/replay/stdin");
const REPLAY_TEXT: &str = include_str!("../../../crates/replay/stdout");

/// How many random traces of each kind are drawn, where PICTURES does not say it, and how many of the
/// pictures are kept.
const RANDOM: usize = 300;
const KEPT: usize = 120;

/// Draws a trace with the second program's text; none if it is refused, with a clear message.
fn drawn(kind: Kind, trace: &[u8]) -> Option<(Run, String)> {
    let text = kind.text(trace);
    let refusal = text.lines().last().and_then(|line| line.strip_prefix("refused "));
    match (draw(kind, trace, &text), refusal) {
        (Ok(picture), None) => Some((read(kind, trace, &text).unwrap(), picture)),
        (Err(error), Some(number)) => {
            let said = format!("the trace is refused with {number} after ");
            assert!(error.starts_with(&said), "{error}");
            None
        }
        (result, _) => panic!("{}: {result:?}", hex(trace)),
    }
}

/// Do two areas have a point in common?
fn overlap(one: &Area, other: &Area) -> bool {
    one.x < other.right()
        && other.x < one.right()
        && one.y < other.bottom()
        && other.y < one.bottom()
}

/// No two things that must be read overlap, and none is cut off.
fn check_places(layout: &Layout) {
    let mut areas: Vec<Area> = layout.placed.iter().map(|placed| placed.area).collect();
    areas.sort_by_key(|area| area.x);
    for (place, area) in areas.iter().enumerate() {
        assert!(area.x >= LEFT && area.right() <= layout.width, "{area:?} is cut off");
        assert!(area.y >= TOP && area.bottom() <= layout.bottom, "{area:?} is cut off");
        for other in areas[place + 1..].iter().take_while(|other| other.x < area.right()) {
            assert!(!overlap(area, other), "{area:?} and {other:?} overlap");
        }
    }
}

/// How many different numbers a step refuses by.
fn numbers_refused(step: &Step) -> usize {
    let verdicts = step.hearings.iter().map(|hearing| hearing.verdict);
    verdicts.filter(|&verdict| verdict > 0).collect::<BTreeSet<u8>>().len()
}

/// The picture has as many sendings, hearings, deliveries and mends as the text says.
fn check_numbers(run: &Run, layout: &Layout, picture: &str, text: &str) {
    let placed = |is_one: fn(&Item) -> bool| {
        layout.placed.iter().filter(|placed| is_one(&placed.item)).count()
    };
    let words = |words: &str| text.lines().filter(|line| line.contains(words)).count();
    let hearings: usize = run.steps.iter().map(|step| step.hearings.len()).sum();
    let refused = run.steps.iter().map(numbers_refused).sum::<usize>();
    assert_eq!(placed(|item| *item == Item::Mark), words("tick "));
    assert_eq!(placed(|item| matches!(item, Item::Delivery(_))), words("give "));
    assert_eq!(placed(|item| *item == Item::Mend), words("tick ") - words(" mend 0 "));
    assert!(placed(|item| matches!(item, Item::Refused(_))) >= refused);
    assert_eq!(picture.matches("class=\"arrow").count(), hearings + 2, "and the legend's");
    let taken: usize = run.steps.iter().map(|step| usize::from(step.tick.taken)).sum();
    assert_eq!(picture.matches("marker-end").count(), taken + 1, "and the legend's");
}

/// Draws random traces, and keeps the first pictures for another reader of XML.
fn check_random(kind: Kind, seed: u64, trace: impl Fn(&mut Prng) -> Vec<u8>) {
    let folder = std::path::Path::new(env!("CARGO_TARGET_TMPDIR")).join(format!("{kind:?}"));
    std::fs::create_dir_all(&folder).unwrap();
    let random = std::env::var("PICTURES").map_or(RANDOM, |count| count.parse().unwrap());
    let mut rng = Prng::new(seed);
    let mut count = 0;
    for _ in 0..random {
        let trace = trace(&mut rng);
        let Some((run, picture)) = drawn(kind, &trace) else { continue };
        let layout = lay_out(&run);
        if let Err(error) = xml::check(&picture) {
            panic!("{error}: {}", hex(&trace));
        }
        check_places(&layout);
        check_numbers(&run, &layout, &picture, &kind.text(&trace));
        if count < KEPT {
            std::fs::write(folder.join(format!("{count}.svg")), &picture).unwrap();
        }
        count += 1;
    }
    assert!(count > random / 3, "{count} pictures");
}

#[test]
fn random_yards_are_drawn() {
    check_random(Kind::Yard, 281, |rng| yards::random(rng).0);
}

#[test]
fn random_replays_are_drawn() {
    check_random(Kind::Replay, 282, traces::random);
}

#[test]
fn samples_are_drawn_from_the_proved_texts() {
    let samples = [(Kind::Yard, YARD, YARD_TEXT), (Kind::Replay, REPLAY, REPLAY_TEXT)];
    for (kind, trace, text) in samples {
        let picture = draw(kind, trace, text).unwrap();
        assert_eq!(xml::check(&picture), Ok(()));
        assert_eq!(Ok(picture), draw(kind, trace, text), "twice the same");
        let run = read(kind, trace, text).unwrap();
        check_places(&lay_out(&run));
    }
}

#[test]
fn the_pointer_finds_ticket_stamp_due_clock_and_reason() {
    let picture = draw(Kind::Yard, YARD, YARD_TEXT).unwrap();
    let said = [
        "ticket c1\nstation 2, stamp r 13, c 1, counts 0,1,2,1 from offset −2\ndue at clock 17\nbecause of a1 of station 0 at 14\n",
        "due at clock 17\non board 1 at 17 (step 9), 2 of 2: behind a1 of station 0 at 14 by count 13, it knew of more events at that clock</title>",
        "heard by station 2 at 15 (step 7): refused by 16: repeat, it is on the shelf already</title>",
        "step 10: station 2 at clock 17\nmend 0, c 0, took 1, gave 2\nits clock was nudged by 2</title>",
    ];
    for words in said {
        assert!(picture.contains(words), "{words}");
    }
}

#[test]
fn clocks_are_counted_on_past_the_wrap() {
    let run = read(Kind::Yard, YARD, YARD_TEXT).unwrap();
    assert_eq!(run.steps[16].clock, 0);
    assert_eq!((run.steps[16].time, run.steps[16].moved), (20, Some(2)));
}

#[test]
fn a_ticket_is_escaped() {
    let text = "yard 1 1 0 7\nstep 0 1 send 3c26223e\n";
    let trace = oracle::trace::bytes_of_text(text).unwrap();
    let (_, picture) = drawn(Kind::Yard, &trace).unwrap();
    assert!(picture.contains("ticket 3c26223e (&lt;&amp;&quot;&gt;)"));
    assert_eq!(xml::check(&picture), Ok(()));
}

#[test]
fn a_mend_is_drawn() {
    let text = "yard 1 1 0 20\nstep 0 1\nstep 0 3\nstep 0 3\nstep 0 2 send 61\n";
    let trace = oracle::trace::bytes_of_text(text).unwrap();
    let (run, picture) = drawn(Kind::Yard, &trace).unwrap();
    assert_eq!(picture.matches(">mend 1<").count(), 3 + 1, "and the legend's");
    for moved in [">+2<", ">+0<", ">−1<"] {
        assert!(picture.contains(moved), "{moved}");
    }
    check_places(&lay_out(&run));
}

#[test]
fn what_is_not_right_is_said() {
    let cut = &YARD[..YARD.len() - 3];
    let error = draw(Kind::Yard, cut, &Kind::Yard.text(cut)).unwrap_err();
    assert!(error.starts_with("the trace is refused with 5 after 30 steps: it is cut"), "{error}");
    let error = draw(Kind::Yard, YARD, "").unwrap_err();
    assert_eq!(error, "there is no text: the trace was not played");
    let half: String = YARD_TEXT.lines().take(4).map(|line| format!("{line}\n")).collect();
    let error = draw(Kind::Yard, YARD, &half).unwrap_err();
    assert!(error.contains("line 5 is `nothing more`"), "{error}");
    let other = YARD_TEXT.replacen("took 2", "took 3", 1);
    let error = draw(Kind::Yard, YARD, &other).unwrap_err();
    assert!(error.contains("line 4 is `2 tick 14 mend 0 c 1 took 3"), "{error}");
}

#[test]
fn a_yard_without_steps_has_its_lanes() {
    let trace = oracle::trace::bytes_of_text("yard 2 1 0 7\n").unwrap();
    let (_, picture) = drawn(Kind::Yard, &trace).unwrap();
    assert!(picture.contains(">station 1<"));
    assert_eq!(xml::check(&picture), Ok(()));
}
