//! 02's wider limits in mid season: each sentence of 2.10 by hand, and that equal pairs do what a
//! plain setup does.

use crate::common::{frame, packed, state, FILL};
use oracle::generate::pairs::clock;
use oracle::generate::{self, spoil, wider, Group, Habits, ListenCase, PollCase, Prng, TickCase};
use oracle::generate::{CompareCase, FreshCase, ReadCase, WordsCase, WriteCase};
use oracle::{batch, compare, node, poll, read, start, words, write, write_in};
use oracle::{Answer, Both, Limits, Pairs, Reason, Settings, Setup};
use std::cmp::Ordering;

/// ε 1 and δ 1 before V, which is 10; ε′ 2 and δ′ 2 from V on.
const OLD: Setup = Setup { n: 2, epsilon: 1, delta: 1, modulus: 15, own: 0 };
const UNMARKED: Both = Both { old: OLD, wider_epsilon: 2, wider_delta: 2, change: 10, marked: 0 };
const MARKED: Both = Both { marked: 1, ..UNMARKED };

/// A frame that heard of no other, narrow or wide.
fn plain(wide: bool, node: i64, r: i64) -> Vec<u8> {
    let kn: &[u8] = if wide { &[0, 0, 1, 0] } else { &[0, 1] };
    frame(node, r, 0, kn, &[node as u8])
}

fn narrow(node: i64, r: i64) -> Vec<u8> {
    plain(false, node, r)
}

fn wide(node: i64, r: i64) -> Vec<u8> {
    plain(true, node, r)
}

/// Frames in a queue of the new size.
fn shelf<T: AsRef<[u8]>>(frames: &[T]) -> Vec<u8> {
    let mut bytes = packed(frames);
    bytes.resize(UNMARKED.wider().holdback_len(), 0);
    bytes
}

/// A call for v with these tables and this queue, which hears these frames.
fn call<T: AsRef<[u8]>>(setup: Both, v: i64, tables: [u8; 35], heard: &[T]) -> TickCase<Both> {
    TickCase {
        setup,
        clock: v,
        state: tables,
        holdback: shelf::<&[u8]>(&[]),
        batch: batch::encode(heard),
        send: true,
        payload: vec![],
        outgoing: vec![FILL; setup.wider().longest_frame()],
        verdicts: vec![FILL; 255],
        delivery: vec![FILL; setup.wider().holdback_len()],
    }
}

/// Narrow or wide tables at a clock, with one event there.
fn tables(wide: bool, r: i64) -> [u8; 35] {
    state(r, 0, if wide { &[0, 0, 1, 0] } else { &[0, 1] })
}

fn run(mut case: TickCase<Both>) -> (Answer, TickCase<Both>) {
    let answer = case.run();
    (answer, case)
}

/// The verdict on one frame in a call for v one tick after the last.
fn verdict(setup: Both, v: i64, bytes: &[u8]) -> u8 {
    let before = tables(setup.is_marked() && v > 10, v - 1);
    let (answer, left) = run(call(setup, v, before, &[bytes]));
    assert_eq!((answer.number, answer.repair), (0, 0));
    left.verdicts[0]
}

#[test]
fn check_1_of_both_pairs_v_and_the_mark_and_then_19() {
    let number = |setup: Both| setup.check().err();
    assert_eq!(number(UNMARKED), None);
    assert_eq!(number(MARKED), None);
    let equal = Both { wider_epsilon: 1, wider_delta: 1, ..UNMARKED };
    assert_eq!(number(equal), None);
    let wrong = [
        Both { old: Setup { n: 17, ..OLD }, ..UNMARKED },
        Both { old: Setup { own: 2, ..OLD }, ..UNMARKED },
        Both { old: Setup { modulus: 14, ..OLD }, ..UNMARKED },
        Both { wider_epsilon: 17, ..UNMARKED },
        Both { wider_epsilon: 0, ..UNMARKED },
        Both { wider_delta: 65, ..UNMARKED },
        Both { change: 15, ..UNMARKED },
        Both { marked: 2, ..UNMARKED },
        Both { wider_delta: 0, marked: 2, ..UNMARKED },
    ];
    for setup in wrong {
        assert_eq!(number(setup), Some(1), "{setup:?}");
    }
    let wide = Setup { epsilon: 2, delta: 2, ..OLD };
    assert_eq!(number(Both { old: wide, wider_epsilon: 1, ..UNMARKED }), Some(19));
    assert_eq!(number(Both { old: wide, wider_delta: 1, ..UNMARKED }), Some(19));
    assert_eq!(number(Both { old: wide, ..UNMARKED }), None);
    let stranger = Both { old: Setup { own: 2, ..OLD }, ..UNMARKED };
    assert_eq!(stranger.check_observer(), Ok(()), "an observer has no own number");
}

#[test]
fn numbers_19_and_2_to_6_in_turn_by_the_wider_pair() {
    let number = |change: &dyn Fn(&mut TickCase<Both>)| {
        let mut case = call(UNMARKED, 5, tables(false, 4), &[narrow(1, 5)]);
        change(&mut case);
        let (answer, left) = run(case.clone());
        assert!(answer.number == 0 || left == case, "a refused call changed something");
        answer.number
    };
    let smaller = Setup { epsilon: 2, ..OLD };
    assert_eq!(number(&|_| ()), 0);
    assert_eq!(number(&|case| (case.setup.old, case.setup.wider_epsilon) = (smaller, 1)), 19);
    assert_eq!(number(&|case| case.clock = 15), 2);
    let old_len = OLD.holdback_len();
    assert_eq!(number(&|case| case.holdback.truncate(old_len)), 3);
    assert_eq!(number(&|case| case.payload = vec![0; 33]), 4);
    assert_eq!(number(&|case| case.batch.push(0)), 5);
    assert_eq!(number(&|case| case.outgoing.truncate(42)), 6, "a narrow frame has 41");
    assert_eq!(number(&|case| case.delivery.truncate(old_len)), 6);
    let mut case = ListenCase::of(call(UNMARKED, 5, tables(false, 4), &[narrow(1, 5)]));
    case.setup.old.own = 16;
    assert_eq!(case.clone().run().number, 0);
    case.setup = Both { old: smaller, wider_epsilon: 1, ..UNMARKED };
    assert_eq!(case.run().number, 19);
}

#[test]
fn where_v_lies() {
    for (v, unmarked, marked) in [(10, 15, 0), (9, 1, -14), (11, 14, -1), (0, 10, -5), (14, 11, -4)]
    {
        assert_eq!(UNMARKED.at(v).change, unmarked, "0 means B");
        assert_eq!(MARKED.at(v).change, marked);
        assert_eq!(*UNMARKED.at(v).own(), OLD);
        assert_eq!(*MARKED.at(v).own(), UNMARKED.wider());
    }
    assert_eq!(start(&UNMARKED, 10), Ok(state(10, 0, &[0, 1])));
    assert_eq!(start(&MARKED, 10), Ok(state(10, 0, &[0, 0, 1, 0])));
    assert_eq!(start(&MARKED, 15), Err(2));
}

#[test]
fn due_by_the_sum_alone() {
    // The old due clock is the sum + 2, the new one the sum + 4.
    let next = |setup: Both, v: i64, bytes: Vec<u8>| poll(&setup, v, 0, &shelf(&[bytes]));
    for make in [narrow, wide] {
        assert_eq!(next(UNMARKED, 7, make(0, 7)).unwrap().next, Some(9), "before V");
        assert_eq!(next(UNMARKED, 8, make(0, 8)).unwrap().next, Some(12), "10 is V");
        assert_eq!(next(MARKED, 10, make(0, 8)).unwrap().next, Some(12));
        assert_eq!(next(MARKED, 10, make(0, 7)).unwrap().next, None, "due at 9: unsound");
    }
    // Shelved at 8 and carried on past V.
    let shelved = shelf(&[narrow(0, 7), narrow(0, 8)]);
    let mut case = call::<&[u8]>(UNMARKED, 9, tables(false, 8), &[]);
    case.holdback = shelved;
    let (answer, mut left) = run(case);
    assert_eq!((answer.repair, answer.delivered), (0, 1));
    (left.setup, left.clock) = (MARKED, 11);
    let (answer, mut left) = run(left);
    assert_eq!((answer.repair, answer.delivered, &left.holdback[..1]), (0, 0, &[1][..]));
    left.clock = 12;
    let (answer, left) = run(left);
    assert_eq!((answer.repair, answer.delivered), (0, 1));
    assert_eq!(left.delivery[..2 + 10], packed(&[narrow(0, 8)]));
}

#[test]
fn check_13_has_two_halves() {
    assert_eq!(verdict(MARKED, 10, &narrow(1, 8)), 0);
    assert_eq!(verdict(MARKED, 10, &narrow(1, 7)), 13, "due at 9, though 3 behind");
    assert_eq!(verdict(MARKED, 12, &narrow(1, 8)), 0, "due at 12");
    assert_eq!(verdict(MARKED, 13, &narrow(1, 8)), 13, "5 behind");
    assert_eq!(verdict(UNMARKED, 9, &narrow(1, 7)), 0);
    assert_eq!(verdict(UNMARKED, 9, &narrow(1, 6)), 13, "3 behind");
}

#[test]
fn the_limits_of_a_ticks_own_clock() {
    // 14: the sum is at most 0 past v before V, 1 from V on. One ahead is read as behind before V.
    assert_eq!(verdict(MARKED, 10, &wide(1, 11)), 0);
    assert_eq!(verdict(MARKED, 10, &frame(1, 11, 1, &[0, 0, 1, 1], &[])), 14);
    assert_eq!(verdict(UNMARKED, 9, &narrow(1, 10)), 13);
    // 12: c at most 0 before V, over the frame's own counts.
    let far = frame(1, 8, 1, &[0, 0, 1, 1], &[]);
    assert_eq!(verdict(UNMARKED, 9, &far), 12);
    assert_eq!(verdict(MARKED, 10, &far), 0);
    assert_eq!(verdict(MARKED, 10, &frame(1, 9, 1, &[0, 1], &[])), 12, "a missing count is 0");
    assert_eq!(verdict(UNMARKED, 9, &wide(1, 9)), 0, "both widths are read always");
    assert_eq!(verdict(UNMARKED, 9, &frame(1, 9, 0, &[0, 0, 0, 1, 0, 0], &[])), 10);
    // 15 over the frame's own counts.
    assert_eq!(verdict(MARKED, 10, &frame(1, 10, 1, &[0, 0, 2, 1], &[])), 15);
    assert_eq!(verdict(MARKED, 10, &frame(1, 9, 0, &[2, 2], &[])), 0);
    // The step: 1 before V, up to 2 from V on.
    let repair = |setup, v, before| run(call::<&[u8]>(setup, v, before, &[])).0.repair;
    assert_eq!(repair(UNMARKED, 9, tables(false, 7)), 1);
    assert_eq!(repair(MARKED, 10, tables(false, 8)), 0);
    assert_eq!(repair(MARKED, 10, tables(false, 7)), 1);
}

#[test]
fn tables_are_narrow_if_their_r_is_before_v() {
    let full = state(9, 0, &[2, 1]);
    let (answer, left) = run(call::<&[u8]>(MARKED, 10, full, &[]));
    assert_eq!(answer.repair, 0);
    assert_eq!(left.state, state(10, 0, &[2, 1, 1, 0]), "offset −1 to −2, 0 to −1");
    let mut wider = full;
    wider[5..].fill(0xFF);
    assert_eq!(run(call::<&[u8]>(MARKED, 11, wider, &[])).1.state, state(11, 0, &[1, 0, 1, 0]));
    let at_v = state(10, 0, &[2, 1, 1, 0]);
    assert_eq!(run(call::<&[u8]>(MARKED, 11, at_v, &[])).1.state, state(11, 0, &[1, 1, 1, 0]));
    assert_eq!(node::tables(&MARKED.at(11), 11, &full).kn.len(), 2);
    assert_eq!(node::tables(&MARKED.at(11), 11, &at_v).kn.len(), 4);
    assert_eq!(node::tables(&UNMARKED.at(10), 10, &full).kn.len(), 2);
}

#[test]
fn frames_are_written_by_the_clock_and_counted_in_by_their_width() {
    let (answer, left) = run(call(UNMARKED, 9, tables(false, 8), &[wide(1, 9)]));
    assert_eq!(left.outgoing[..answer.outgoing.into()], frame(0, 9, 0, &[1, 2], &[]));
    let heard = frame(1, 9, 0, &[2, 1], &[]);
    let (answer, left) = run(call(MARKED, 10, tables(false, 9), &[heard]));
    assert_eq!(left.outgoing[..answer.outgoing.into()], frame(0, 10, 0, &[2, 1, 1, 0], &[]));
}

#[test]
fn frames_due_before_v_compare_the_old_number_of_counts_all_others_the_new() {
    let pair = |r: i64| {
        let first = frame(1, r, 0, &[0, 1], &[]);
        (first, frame(0, r, 0, &[1, 1], &[]))
    };
    let (first, second) = pair(7);
    assert_eq!(compare(&UNMARKED, 8, &first, &second), Ok((Ordering::Greater, Reason::Node)));
    let (first, second) = pair(8);
    let by_count = Ok((Ordering::Less, Reason::Count(7)));
    assert_eq!(compare(&UNMARKED, 8, &first, &second), by_count);
    assert_eq!(compare(&MARKED, 10, &first, &second), by_count);
    let missing = frame(0, 8, 0, &[7, 0, 1, 0], &[]);
    assert_eq!(compare(&MARKED, 10, &missing, &first), Err(12));
    let padded = frame(1, 8, 0, &[0, 0, 1, 0], &[]);
    assert_eq!(compare(&MARKED, 10, &padded, &first), Ok((Ordering::Equal, Reason::Nothing)));
    let far = frame(1, 8, 1, &[0, 0, 1, 1], &[]);
    assert_eq!(compare(&UNMARKED, 9, &far, &far), Err(12), "as a tick there");
}

#[test]
fn reader_and_writer_judge_by_the_width() {
    let far = frame(1, 8, 1, &[0, 0, 1, 1], &[7]);
    for setup in [UNMARKED, MARKED] {
        assert_eq!(read(&setup, &far).unwrap().timestamp.kn, [0, 0, 1, 1]);
        assert_eq!(read(&setup, &frame(1, 8, 1, &[0, 1], &[])).err(), Some(12));
        assert_eq!(read(&setup, &frame(2, 8, 1, &[0, 1], &[])).err(), Some(11));
        let mut out = [FILL; 71];
        let tables = state(8, 1, &[0, 0, 1, 1]);
        assert_eq!(write_in(&setup, 1, true, &tables, &[7], &mut out), Ok(12));
        assert_eq!(out[..12], far);
        assert_eq!(write_in(&setup, 1, false, &tables, &[7], &mut out), Err(12));
        let low = state(8, 0, &[2, 1]);
        assert_eq!(write_in(&setup, 1, false, &low, &[], &mut out[..9]), Ok(9));
        assert_eq!(out[..9], frame(1, 8, 0, &[2, 1], &[]));
        assert_eq!(write_in(&setup, 1, true, &low, &[], &mut out), Err(12));
        assert_eq!(write_in(&setup, 1, false, &low, &[], &mut out[..8]), Err(6));
    }
}

#[test]
fn the_words_have_the_limits_of_the_marks_side() {
    let line = |setup: &Both, number: u8| {
        let mut text = [0; 29];
        let length = words(setup, &batch::encode(&[narrow(1, 8)]), &[number], &mut text).unwrap();
        String::from_utf8(text[..length].to_vec()).unwrap()
    };
    assert_eq!(line(&UNMARKED, 13), "0 1 8 late 2\n");
    assert_eq!(line(&MARKED, 13), "0 1 8 late 4\n");
    assert_eq!(line(&UNMARKED, 12), "0 1 8 stamp 2 0\n");
    assert_eq!(line(&MARKED, 14), "0 1 8 early 1\n");
}

#[test]
fn the_queues_count_limit_is_that_of_the_clock() {
    // n(δ + 3ε) is 8 before V; sound frames of two nodes have 3 values of r there.
    let frames: Vec<_> = (7..=9).flat_map(|r| [narrow(0, r), narrow(1, r)]).collect();
    let mut case = call::<&[u8]>(UNMARKED, 9, tables(false, 8), &[]);
    case.holdback = shelf(&frames);
    assert_eq!(run(case.clone()).0.repair, 0);
    case.holdback[0] = 9;
    assert_eq!(run(case).0.repair, 2);
}

/// A setup whose pairs are equal, with any V and mark.
fn equal(rng: &mut Prng, old: Setup) -> Both {
    let (change, marked) = (rng.below(old.modulus.max(1)), rng.below(2));
    Both { old, wider_epsilon: old.epsilon, wider_delta: old.delta, change, marked }
}

fn same_tick(rng: &mut Prng, case: TickCase) -> (TickCase, Answer) {
    let setup = case.setup;
    let mut both = case.clone().with(equal(rng, setup));
    let mut plain = case;
    let answers = (plain.run(), both.run());
    assert_eq!(answers.0, answers.1);
    assert!(plain == both.with(setup), "equal pairs left something else");
    (plain, answers.0)
}

fn same_listening(rng: &mut Prng, case: TickCase) -> Answer {
    let setup = case.setup;
    let mut both = ListenCase::of(case.clone().with(equal(rng, setup)));
    let mut plain = ListenCase::of(case);
    let answers = (plain.run(), both.run());
    assert_eq!(answers.0, answers.1);
    let ListenCase { last, holdback, verdicts, delivery, .. } = both;
    assert!(plain == ListenCase { last, holdback, verdicts, delivery, ..plain.clone() });
    answers.0
}

/// Frames compared, read and written, starts, polls and words.
fn same_others(rng: &mut Prng, left: &TickCase) {
    let case = CompareCase::random(rng, left.setup);
    let both = equal(rng, case.setup);
    let alone = compare(&case.setup, case.clock, &case.first, &case.second);
    assert_eq!(alone, compare(&both, case.clock, &case.first, &case.second));
    let case = ReadCase::random(rng, left.setup, left.clock);
    assert_eq!(read(&case.setup, &case.frame), read(&equal(rng, case.setup), &case.frame));
    let WriteCase { setup, node, state, payload, mut out } =
        WriteCase::random(rng, left.setup, left.clock);
    let (both, mut other) = (equal(rng, setup), out.clone());
    let alone = write(&setup, node, &state, &payload, &mut out);
    let wide = rng.one_in(2);
    assert_eq!(alone, write_in(&both, node, wide, &state, &payload, &mut other));
    assert_eq!(out, other);
    let case = FreshCase::random(rng, left.setup);
    assert_eq!(start(&case.setup, case.clock), start(&equal(rng, case.setup), case.clock));
    let PollCase { setup, clock, within, holdback } = PollCase::random(rng, left);
    let both = equal(rng, setup);
    assert_eq!(poll(&setup, clock, within, &holdback), poll(&both, clock, within, &holdback));
    let WordsCase { setup, batch, verdicts, mut text } = WordsCase::judged(rng, left).spoil(rng);
    let (both, mut other) = (equal(rng, setup), text.clone());
    let alone = words(&setup, &batch, &verdicts, &mut text);
    assert_eq!(alone, words(&both, &batch, &verdicts, &mut other));
    assert_eq!(text, other);
}

#[test]
fn equal_pairs_do_what_a_plain_setup_does_whatever_v_and_the_mark_are() {
    let mut rng = Prng::new(10);
    let mut accepted = 0;
    for _ in 0..400 {
        let setup = generate::setup(&mut rng);
        let habits = Habits { noise: true, dips: true, nudges: true, deafness: 2 };
        let mut group = Group::fresh(&mut rng, setup, habits);
        for _ in 0..(setup.n * 8).min(30) {
            let (node, case) = group.next_case(&mut rng);
            let mut wrong = case.clone();
            spoil::spoil(&mut rng, &mut wrong);
            same_listening(&mut rng, wrong.clone());
            same_tick(&mut rng, wrong);
            let stepped = case.stepped(&mut rng);
            same_tick(&mut rng, stepped.clone());
            same_listening(&mut rng, stepped);
            let (left, answer) = same_tick(&mut rng, case);
            accepted += u32::from(answer.number == 0);
            same_others(&mut rng, &left);
            group.settle(node, left, &answer);
        }
    }
    assert!(accepted > 5_000, "only {accepted} accepted");
}

#[test]
fn what_a_call_leaves_is_sound_for_every_next_clock_across_v_too() {
    let mut rng = Prng::new(11);
    let mut across = 0;
    for _ in 0..6_000 {
        let both = wider::setup(&mut rng);
        let v = clock(&mut rng, &both.old);
        let both = wider::aimed(&mut rng, both, v);
        let at = both.at(v);
        let heard: Vec<_> = (0..9).map(|_| generate::frames::near(&mut rng, &at, v)).collect();
        let mut case = TickCase::idle(&mut rng, both, v, [0; 35], Vec::new());
        case.batch = batch::encode(&heard);
        let mut case = case.stepped(&mut rng);
        let answer = case.run();
        assert_eq!(answer.number, 0);
        // The next clock, V then by the same reading; a step is right if it is within its limits.
        let step = rng.range(1, both.wider_epsilon);
        let past = at.change <= step;
        let longest = at.of(step).epsilon;
        let out = step - at.change >= both.old.modulus;
        if step > longest || out {
            continue;
        }
        case.clock = (v + step) % both.old.modulus;
        case.setup.marked = i64::from(past);
        across += u32::from(past && !both.is_marked());
        let answer = case.run();
        assert_eq!((answer.number, answer.repair), (0, 0), "a step of {step}");
    }
    assert!(across > 500, "only {across} across V");
}

#[test]
fn an_observer_changes_setups_as_a_node_does() {
    let mut rng = Prng::new(12);
    for _ in 0..2_000 {
        let both = wider::setup(&mut rng);
        let v = clock(&mut rng, &both.old);
        let both = wider::aimed(&mut rng, both, v);
        let case = TickCase::idle(&mut rng, both, v, [0; 35], Vec::new()).stepped(&mut rng);
        let mut listening = ListenCase::of(case.clone());
        let mut ticking = case;
        let (heard, ticked) = (listening.run(), ticking.run());
        let state_alone = ticked.repair & 1 == heard.repair & 1;
        if state_alone {
            assert_eq!((heard.repair, heard.delivered), (ticked.repair, ticked.delivered));
            assert_eq!(listening.holdback, ticking.holdback);
        }
    }
}

#[test]
fn sizes_are_those_of_the_wider_pair() {
    let new = UNMARKED.wider();
    assert_eq!(UNMARKED.widest(), new);
    assert_eq!((new.longest_frame(), new.holdback_len()), (43, 2 + 43 * 2 * 8));
}
