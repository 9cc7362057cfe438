//! 02's engine with long clocks.

use crate::common::{fresh_case, packed, run, FILL, SETUP};
use oracle::generate::engines::{same, shortened_frame};
use oracle::generate::long::{encode, setup, BOUND};
use oracle::generate::{Beside, LongCase, Pair, Prng};
use oracle::long::{fresh_tables, holdback_len, longest_frame, to_state};
use oracle::{abi, batch, long_read, long_start, long_write};
use oracle::{Answer, LongState, Setup, Timestamp};

/// An engine's frame by its fields.
fn frame(node: i64, r: u64, c: i64, kn: &[u8], payload: &[u8]) -> Vec<u8> {
    encode(node, &Timestamp { r: r as i64, c, kn }, payload)
}

/// Frame A of 01's samples.
fn frame_a() -> Vec<u8> {
    frame(1, 2, 0, &[1, 1, 1, 0], &[0x41])
}

/// A frame of a group that knows of no event but its own.
fn lone(setup: &Setup, node: i64, r: u64) -> Vec<u8> {
    let mut kn = vec![0; setup.width()];
    kn[setup.epsilon as usize] = 1;
    frame(node, r, 0, &kn, &[node as u8, r as u8])
}

/// Tables by their fields.
fn tables(r: u64, c: i64, kn: &[u8]) -> LongState {
    to_state(&Timestamp { r: r as i64, c, kn })
}

/// A queue of these frames with zeros after them.
fn holdback<T: AsRef<[u8]>>(setup: &Setup, frames: &[T]) -> Vec<u8> {
    let mut bytes = packed(frames);
    bytes.resize(holdback_len(setup), 0);
    bytes
}

/// A call for v of an engine that was fresh so many clocks before, with these frames held, which hears
/// those.
fn case<T: AsRef<[u8]>, U: AsRef<[u8]>>(
    setup: Setup,
    v: u64,
    step: u64,
    held: &[T],
    heard: &[U],
) -> LongCase {
    LongCase {
        setup,
        clock: v,
        state: fresh_tables(&setup, v.wrapping_sub(step)),
        holdback: holdback(&setup, held),
        batch: batch::encode(heard),
        send: false,
        payload: Vec::new(),
        outgoing: vec![FILL; longest_frame(&setup)],
        verdicts: vec![FILL; 255],
        delivery: vec![FILL; holdback_len(&setup)],
    }
}

const NONE: [&[u8]; 0] = [];

/// Runs a call; its answer and what it left.
fn called(mut case: LongCase) -> (Answer, LongCase) {
    let answer = case.run();
    (answer, case)
}

/// The verdict of one frame heard at v by an engine that was fresh one before.
fn verdict(v: u64, frame: &[u8]) -> u8 {
    let (answer, left) = called(case(SETUP, v, 1, &NONE, &[frame]));
    assert_eq!(answer.number, 0);
    left.verdicts[0]
}

/// The mend of a call that hears nothing.
fn mend<T: AsRef<[u8]>>(setup: Setup, v: u64, step: u64, held: &[T]) -> u8 {
    let (answer, left) = called(case(setup, v, step, held, &NONE));
    assert_eq!((answer.number, &left.state[..8]), (0, &v.to_le_bytes()[..]));
    answer.repair
}

#[test]
fn lengths_follow() {
    assert_eq!((longest_frame(&SETUP), holdback_len(&SETUP)), (49, 2 + 49 * 64));
    let largest = Setup { n: 16, epsilon: 16, delta: 64, modulus: 65_535, own: 0 };
    assert_eq!((longest_frame(&largest), holdback_len(&largest)), (77, 4_930));
    assert_eq!(size_of::<LongState>(), 41);
}

/// The running example of docs/RULES.md, byte for byte.
#[test]
fn the_sample_as_a_station_has_it() {
    let a = [9, 1, 2, 0, 0, 0, 0, 0, 0, 0, 5, 0, 1, 1, 1, 0, 1, 0x41];
    let s = [9, 0, 1, 0, 0, 0, 0, 0, 0, 0, 5, 1, 0, 1, 2, 1, 1, 0x42];
    assert_eq!(frame_a(), a);
    let mut first = case(SETUP, 1, 1, &NONE, &[a]);
    (first.send, first.payload) = (true, vec![0x42]);
    let (answer, mut left) = called(first);
    assert_eq!(abi::pack_tick(&answer), 0x1201_0000);
    assert_eq!(left.state[..13], [1, 0, 0, 0, 0, 0, 0, 0, 1, 0, 1, 2, 1]);
    assert_eq!(left.outgoing[..19], [&s[..], &[FILL]].concat());
    assert_eq!(left.holdback, holdback(&SETUP, &[a]));
    for (v, heard, word, held) in
        [(2, vec![s], 0x1_0000, 2), (3, vec![], 0, 2), (4, vec![], 0, 2), (5, vec![], 2 << 32, 0)]
    {
        (left.clock, left.batch, left.send) = (v, batch::encode(&heard), false);
        assert_eq!(abi::pack_tick(&left.run()), word, "at {v}");
        assert_eq!(left.holdback, holdback(&SETUP, &[a, s][..held]), "at {v}");
    }
    let shown = packed(&[a, s]);
    assert_eq!(left.delivery[..shown.len()], shown);
    assert!(left.delivery[shown.len()..].iter().all(|&byte| byte == FILL));
    assert_eq!(left.state[..13], [5, 0, 0, 0, 0, 0, 0, 0, 0, 1, 1, 1, 0]);
}

#[test]
fn a_start_asks_1_and_2_and_gives_fresh_tables() {
    assert_eq!(long_start(&SETUP, 0), Ok(tables(0, 0, &[0, 0, 1, 0])));
    assert_eq!(long_start(&SETUP, BOUND - 1), Ok(tables(BOUND - 1, 0, &[0, 0, 1, 0])));
    assert_eq!(long_start(&SETUP, BOUND), Err(2));
    assert_eq!(long_start(&SETUP, u64::MAX), Err(2));
    assert_eq!(long_start(&Setup { own: 2, ..SETUP }, BOUND), Err(1));
    assert_eq!(long_start(&Setup { epsilon: 17, ..SETUP }, 0), Err(1));
    assert_eq!(long_start(&Setup { modulus: 0, ..SETUP }, 5), long_start(&SETUP, 5), "it has no B");
    let widest = Setup { n: 16, epsilon: 16, delta: 64, modulus: 0, own: 15 };
    let made = long_start(&widest, 1 << 40).unwrap();
    assert_eq!((made[5], made[9 + 16]), (1, 1));
    assert_eq!(made.iter().map(|&byte| u32::from(byte)).sum::<u32>(), 2);
}

/// The other rows of docs/RULES.md.
#[test]
fn the_sample_calls_and_their_answers() {
    let (a, s) = (frame_a(), frame(0, 1, 1, &[0, 1, 2, 1], &[0x42]));
    let before = tables(4, 0, &[2, 1, 1, 0]);
    let fresh = |clock| fresh_tables(&SETUP, clock);
    let at = |r| frame(1, r, 0, &[1, 1, 1, 0], &[0x41]);
    let (ahead, no_clock) = (at(3), at(BOUND));
    let rows = [
        (5, before, vec![&a, &s], None, 0x2_0000_0000),
        (6, before, vec![&s, &a], None, 0x2_0000_0000),
        (7, fresh(5), vec![&a], None, 0x200),
        (5, fresh(2), vec![&a], None, 0x1_0000_0100),
        (6, fresh(3), vec![&a], None, 0x300),
        (1, fresh(0), vec![], Some((&ahead, 14)), 0),
        (BOUND - 1, fresh(BOUND - 2), vec![], Some((&no_clock, 11)), 0),
        (BOUND, fresh(BOUND - 1), vec![], None, 2),
    ];
    for (v, state, held, heard, word) in rows {
        let frames: Vec<_> = heard.iter().map(|(frame, _)| frame).collect();
        let (answer, left) = called(LongCase { state, ..case(SETUP, v, 1, &held, &frames) });
        assert_eq!(abi::pack_tick(&answer), word, "at {v}");
        heard.iter().for_each(|&(_, number)| assert_eq!(left.verdicts[0], number));
        if answer.delivered == 2 {
            assert_eq!(left.delivery[..38], packed(&[&a, &s]));
        }
    }
    let (answer, left) = called(case(MANY, 100, 1, &many(100), &[lone(&MANY, 4, 101)]));
    assert_eq!((abi::pack_tick(&answer), left.verdicts[0]), (0x10_0000_0000, 18));
}

#[test]
fn clocks_are_read_as_the_numbers_that_they_are() {
    let a = |r| frame(1, r, 0, &[1, 1, 1, 0], &[]);
    for base in [0, 14, 65_536, 1 << 40, BOUND - 8] {
        assert_eq!(verdict(base + 5, &a(base + 2)), 0, "three behind, from {base}");
        assert_eq!(verdict(base + 5, &a(base + 1)), 13, "four behind, from {base}");
        assert_eq!(verdict(base + 5, &a(base + 6)), 0, "one ahead, from {base}");
        assert_eq!(verdict(base + 5, &a(base + 7)), 14, "two ahead, from {base}");
    }
    // ★g and ★j: a station with B 14 reads r 3 at 1 as 12 behind, and r 13 at 0 as one behind.
    assert_eq!((verdict(1, &a(3)), verdict(1, &a(13)), verdict(1, &a(BOUND - 1))), (14, 14, 14));
    assert_eq!(verdict(1, &frame(1, BOUND - 1, 1, &[1, 1, 1, 1], &[])), 14, "a sum of 2^63");
    assert_eq!(verdict(BOUND - 1, &a(0)), 13);
    assert_eq!(verdict(BOUND - 1, &a(BOUND - 4)), 0);
}

#[test]
fn a_clock_from_2_63_up_gets_2_and_such_an_r_11() {
    for clock in [BOUND, BOUND + 1, u64::MAX] {
        let given = case(SETUP, clock, 1, &NONE, &NONE);
        let (answer, left) = called(given.clone());
        assert_eq!((answer, left), (Answer { number: 2, ..Answer::default() }, given));
    }
    assert_eq!(called(case(SETUP, BOUND - 1, 1, &NONE, &NONE)).0, Answer::default());
    for r in [BOUND, BOUND + 1, u64::MAX] {
        let bytes = frame(1, r, 0, &[1, 1, 1, 0], &[]);
        assert_eq!(verdict(BOUND - 1, &bytes), 11, "one ahead, and no clock");
        assert_eq!(long_read(&SETUP, &bytes), Err(11));
        let mut out = [0; 77];
        let state = tables(r, 0, &[1, 1, 1, 0]);
        assert_eq!(long_write(&SETUP, 1, &state, &[], &mut out), Err(11));
        assert_eq!(mend(SETUP, BOUND - 1, 1, &[bytes]), 2);
    }
    // Tables of such an r are never one to ε before a clock.
    for r in [BOUND, u64::MAX, u64::MAX - 1] {
        let given =
            LongCase { state: tables(r, 0, &[0, 0, 1, 0]), ..case(SETUP, 0, 1, &NONE, &NONE) };
        assert_eq!(called(given).0.repair, 1);
    }
}

#[test]
fn frames_are_judged_in_turn() {
    let kn = [1, 1, 1, 0];
    let a = frame_a();
    let short = crate::common::frame_a();
    let range = frame(2, BOUND, 2, &[3, 3, 0, 0], &[]);
    let stamp = frame(1, 9, 0, &[1, 1, 0, 0], &[]);
    let late = frame(1, 1, 0, &[2, 2, 2, 0], &[]);
    let early = frame(1, 6, 1, &[2, 2, 2, 2], &[]);
    let counts = frame(1, 6, 0, &[1, 2, 1, 0], &[]);
    let again = frame(1, 2, 0, &kn, &[9]);
    let heard = [&short, &a[1..], &range, &stamp, &late, &early, &a, &counts, &again];
    let mut v5 = case(SETUP, 5, 1, &NONE, &heard);
    v5.verdicts.push(FILL);
    let (answer, left) = called(v5);
    assert_eq!(left.verdicts[..10], [10, 10, 11, 12, 13, 14, 0, 15, 16, FILL]);
    assert_eq!((answer.taken, answer.delivered), (1, 1));
}

/// 16 stations of which four clocks are heard are 64 messages: those of v − 3 to v.
const MANY: Setup = Setup { n: 16, epsilon: 2, delta: 1, modulus: 0, own: 0 };

fn many(v: u64) -> Vec<Vec<u8>> {
    (v - 3..=v).flat_map(|r| (0..16).map(move |node| lone(&MANY, node, r))).collect()
}

#[test]
fn a_65th_message_gets_18_after_16() {
    let (v, all) = (100, many(100));
    let more = [lone(&MANY, 3, v), lone(&MANY, 4, v + 1), lone(&MANY, 5, 0)];
    // As the last of 65 that are heard, and with 64 that are held.
    let heard = [&all[..], &more].concat();
    for (held, heard) in [(&NONE[..], &heard[..]), (&refs(&all), &more)] {
        let (answer, left) = called(case(MANY, v, 1, held, heard));
        assert_eq!((answer.repair, usize::from(answer.taken)), (0, heard.len() - 3));
        assert_eq!(left.verdicts[heard.len() - 3..heard.len()], [16, 18, 13]);
        assert_eq!(answer.delivered, 16);
        assert_eq!(left.holdback, holdback(&MANY, &all[16..]), "those of v − 3 were due");
    }
    let (answer, left) = called(case(MANY, v, 1, &all[..63], &more[1..]));
    assert_eq!((answer.taken, &left.verdicts[..2]), (1, &[0, 13][..]), "there is room for one");
    // A refused message is not counted in.
    let (_, without) = called(case(MANY, v, 1, &all, &NONE));
    let (_, with) = called(case(MANY, v, 1, &all, &more));
    assert_eq!(with.state, without.state);
}

fn refs(frames: &[Vec<u8>]) -> Vec<&[u8]> {
    frames.iter().map(Vec::as_slice).collect()
}

#[test]
fn what_is_due_before_v_is_held_until_the_hand_out_and_counted_by_18() {
    // Due at 99 and 100 by 16 each, at a last clock of 98; heard at 100.
    let held = many(99);
    let new = lone(&MANY, 0, 100);
    let repeat = held[0].clone();
    let (answer, left) = called(case(MANY, 100, 2, &held, &[&new, &repeat]));
    assert_eq!((answer.repair, answer.taken, answer.delivered), (0, 0, 32));
    assert_eq!(left.verdicts[..2], [18, 13]);
    let shown = packed(&held[..32]);
    assert_eq!(left.delivery[..shown.len()], shown, "what was due before comes first");
    assert_eq!(left.holdback, holdback(&MANY, &held[32..]));
}

#[test]
fn messages_are_held_in_the_order_heard_and_handed_out_in_order() {
    let all = many(100);
    let mixed: Vec<_> = (0..64).map(|k| all[k * 27 % 64].clone()).collect();
    let kept: Vec<_> = mixed.iter().filter(|frame| !all[..16].contains(frame)).collect();
    for (held, heard) in [(&mixed[..], &[][..]), (&[], &mixed), (&mixed[..20], &mixed[20..])] {
        let (answer, left) = called(case(MANY, 100, 1, held, heard));
        assert_eq!((answer.repair, answer.delivered), (0, 16));
        assert_eq!(left.delivery[..packed(&all[..16]).len()], packed(&all[..16]));
        assert_eq!(left.holdback, holdback(&MANY, &kept));
    }
}

#[test]
fn an_unsound_shelf_is_emptied() {
    let v = 100;
    let all = many(v);
    let with = |frame: Vec<u8>| vec![lone(&MANY, 0, v), frame];
    assert_eq!(mend(MANY, v, 1, &all), 0);
    let unsound = [
        [&all[..], &[lone(&MANY, 0, v + 1)]].concat(),
        with(lone(&MANY, 0, v)),
        with(frame(0, v, 1, &[0, 0, 1, 1], &[])),
        with(lone(&MANY, 1, v + 2)),
        with(frame(1, v + 1, 1, &[0, 0, 1, 1], &[])),
        with(lone(&MANY, 1, v - 4)),
        with(lone(&MANY, 16, v)),
        with(frame(1, v, 0, &[0, 0, 0, 0], &[])),
        with(lone(&MANY, 1, v)[1..].to_vec()),
        with(lone(&MANY, 1, BOUND)),
    ];
    for shelf in &unsound {
        assert_eq!(mend(MANY, v, 1, shelf), 2, "{shelf:?}");
        assert_eq!(mend(MANY, v, 0, shelf), 3, "{shelf:?}");
        let (_, left) = called(case(MANY, v, 1, shelf, &[&all[40]]));
        assert_eq!(left.holdback, holdback(&MANY, &[&all[40]]));
    }
    let junk = LongCase { holdback: vec![0xFF; 3_138], ..case(SETUP, v, 9, &NONE, &NONE) };
    let (answer, left) = called(junk);
    assert_eq!((answer.repair, left.holdback), (3, vec![0; 3_138]));
}

#[test]
fn a_step_is_1_to_epsilon_and_a_held_frame_due_after_the_last_clock() {
    let v = 1_000;
    for step in 0..=4 {
        let sound = step == 1 || step == 2;
        assert_eq!(mend(MANY, v, step, &NONE), u8::from(!sound), "a step of {step}");
        let least = if sound { v + 1 - step } else { v };
        for due in v - 3..=v + 3 {
            let (answer, left) = called(case(MANY, v, step, &[lone(&MANY, 1, due - 3)], &NONE));
            let emptied = due < least;
            let repair = u8::from(!sound) + 2 * u8::from(emptied);
            assert_eq!(answer.repair, repair, "a step of {step}, due at {due}");
            assert_eq!(answer.delivered, u16::from(!emptied && due <= v));
            assert_eq!(left.holdback[0], u8::from(due > v));
        }
    }
    assert_eq!(mend(MANY, 1, 2, &NONE), 1, "a clock goes back below 0");
}

#[test]
fn replaced_tables_and_steps_are_a_stations() {
    let kn = [0, 1, 2, 1];
    let given = |r| LongCase { state: tables(r, 1, &kn), ..case(SETUP, 3, 1, &NONE, &NONE) };
    assert_eq!(called(given(1)).1.state, tables(3, 0, &[2, 1, 1, 0]));
    assert_eq!(called(given(2)).1.state, tables(3, 0, &[1, 2, 2, 0]));
    for r in [0, 3, 4, 17] {
        let (answer, left) = called(given(r));
        assert_eq!((answer.repair, left.state), (1, tables(3, 0, &[0, 0, 1, 0])), "from {r}");
    }
}

type Spoil = fn(&mut LongCase);

/// Ways to get a no to each question, in their order.
const WRONG: [(u8, &[Spoil]); 6] = [
    (
        1,
        &[
            |case| case.setup.n = 0,
            |case| case.setup.n = 17,
            |case| case.setup.epsilon = 0,
            |case| case.setup.epsilon = 17,
            |case| case.setup.delta = 65,
            |case| case.setup.own = 2,
        ],
    ),
    (2, &[|case| case.clock = BOUND, |case| case.clock = u64::MAX]),
    (
        3,
        &[
            |case| case.holdback.clear(),
            |case| case.holdback.truncate(3_137),
            |case| case.holdback.push(0),
        ],
    ),
    (4, &[|case| case.payload = vec![0; 33], |case| case.payload = vec![0; 256]]),
    (
        5,
        &[
            |case| case.batch.clear(),
            |case| case.batch = vec![1],
            |case| case.batch.push(0),
            |case| case.batch[0] = 3,
        ],
    ),
    (
        6,
        &[
            |case| case.outgoing.truncate(48),
            |case| case.verdicts.truncate(254),
            |case| case.delivery.truncate(3_137),
        ],
    ),
];

#[test]
fn the_first_no_gives_the_number_and_a_refusal_changes_nothing() {
    let good = case(SETUP, 5, 9, &[frame_a()], &[frame_a(), vec![1]]);
    assert_eq!(called(good.clone()).0.number, 0);
    for (k, &(number, spoils)) in WRONG.iter().enumerate() {
        let mut others: Vec<Spoil> = vec![|_| ()];
        others.extend(WRONG[k + 1..].iter().flat_map(|(_, spoils)| *spoils));
        for (spoil, other) in spoils.iter().flat_map(|spoil| others.iter().map(move |o| (spoil, o)))
        {
            let mut case = good.clone();
            other(&mut case);
            spoil(&mut case);
            let (answer, left) = called(case.clone());
            assert_eq!(answer, Answer { number, ..Answer::default() });
            assert_eq!(left, case);
        }
    }
}

#[test]
fn no_b_is_looked_at() {
    let given = case(SETUP, 1, 1, &NONE, &[frame_a()]);
    let (answer, left) = called(given.clone());
    for modulus in [0, 13, 65_536] {
        let setup = Setup { modulus, ..SETUP };
        let other = called(LongCase { setup, ..given.clone() });
        assert_eq!(other, (answer, LongCase { setup, ..left.clone() }));
    }
}

#[test]
fn reader_and_writer_are_each_others_inverse() {
    let (kn, payload) = ([0, 1, 2, 1], [7; 32]);
    for r in [0, 255, 256, 65_536, 0x0102_0304_0506_0708, BOUND - 1] {
        let state = tables(r, 1, &kn);
        let mut out = [FILL; 49];
        assert_eq!(long_write(&SETUP, 1, &state, &payload, &mut out), Ok(49));
        assert_eq!((out[0], out[1], &out[2..10]), (9, 1, &r.to_le_bytes()[..]));
        let read = long_read(&SETUP, &out).unwrap();
        assert_eq!((read.node, read.payload), (1, &payload[..]));
        assert_eq!(to_state(&read.timestamp), state);
        assert_eq!(long_write(&SETUP, 1, &state, &payload, &mut out[..48]), Err(6));
        assert_eq!(long_write(&SETUP, 2, &state, &[0; 33], &mut out[..48]), Err(4));
        assert_eq!(long_write(&SETUP, 2, &state, &[], &mut out[..1]), Err(11));
        let other = Setup { own: 2, ..SETUP };
        assert_eq!(long_write(&other, 2, &state, &[0; 33], &mut out[..1]), Err(1));
        assert_eq!(long_read(&other, &out), Err(1));
    }
    let mut out = [FILL; 20];
    assert_eq!(long_write(&SETUP, 0, &tables(5, 0, &[0; 4]), &[], &mut out), Err(12));
    assert_eq!(out, [FILL; 20]);
}

/// What a station makes of a frame, an engine makes of it with its long clock.
#[test]
fn one_frame_is_judged_as_a_station_judges_it() {
    let kn = [1, 2, 1, 0];
    for v in 14..28 {
        for r in v - 9..v + 3 {
            let long = frame(1, r, 0, &kn, &[1]);
            let short = shortened_frame(&SETUP, &long);
            let (_, left) = run(fresh_case(SETUP, (v % 14) as i64, &[short]));
            let station = left.verdicts[0];
            // Two ahead reads as 12 behind.
            let expected = if r == v + 2 { (13, 14) } else { (station, station) };
            assert_eq!((station, verdict(v, &long)), expected, "r {r} at {v}");
        }
    }
}

#[test]
fn engines_do_call_for_call_what_their_nodes_do() {
    let mut rng = Prng::new(40);
    let (mut pairs, mut shown, mut wraps) = (0, 0, 0);
    for _ in 0..300 {
        let (setup, nudges) = (setup(&mut rng), rng.one_in(2));
        let mut beside = Beside::fresh(&mut rng, setup, nudges);
        for _ in 0..200 {
            let Pair { member, node, engine } = beside.next_pair(&mut rng);
            let (long, engine) = called(engine);
            if long.number == 2 || engine.verdicts[..engine.batch[0].into()].contains(&18) {
                break;
            }
            let (short, node) = run(node);
            assert_eq!(same(&node, &short, &engine, &long), Ok(()));
            (pairs, shown) = (pairs + 1, shown + u64::from(long.delivered));
            beside.settle(Pair { member, node, engine }, &short, &long);
        }
        wraps += beside.wraps();
    }
    assert!(pairs > 30_000 && shown > 30_000 && wraps > 300, "{pairs}, {shown}, {wraps}");
}

/// `same` tells a difference in each of its parts.
#[test]
fn a_node_and_an_engine_that_differ_are_told_apart() {
    let mut rng = Prng::new(41);
    let mut beside = Beside::fresh(&mut rng, SETUP, false);
    for _ in 0..60 {
        let Pair { member, node, engine } = beside.next_pair(&mut rng);
        let ((long, engine), (short, node)) = (called(engine), run(node));
        assert_eq!(same(&node, &short, &engine, &long), Ok(()));
        let changed = |change: fn(&mut LongCase)| {
            let mut engine = engine.clone();
            change(&mut engine);
            same(&node, &short, &engine, &long)
        };
        assert_eq!(changed(|case| case.state[9] ^= 1), Err("tables"));
        assert_eq!(changed(|case| case.state[0] ^= 1), Err("tables"));
        if node.batch[0] > 0 {
            assert_eq!(changed(|case| case.verdicts[0] ^= 1), Err("verdicts"));
        }
        if short.outgoing > 0 {
            assert_eq!(changed(|case| case.outgoing[2] ^= 1), Err("outgoing frames"));
        }
        if short.delivered > 0 {
            assert_eq!(changed(|case| case.delivery[3] ^= 1), Err("hand-outs"));
        }
        if node.holdback[0] > 0 {
            assert_eq!(changed(|case| case.holdback[3] ^= 1), Err("held frames"));
        }
        let other = Answer { repair: 1, ..long };
        assert_eq!(same(&node, &short, &engine, &other), Err("answers"));
        beside.settle(Pair { member, node, engine }, &short, &long);
    }
}
