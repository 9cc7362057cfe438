//! 02's observers: boards that only listen.

use crate::common::{frame, frame_a, fresh_case, holdback, listen, listening, packed, run};
use crate::common::{FILL, SETUP};
use crate::group::{play_all, Kind};
use crate::nudges::{wide, WIDE};
use oracle::generate::{self, frames, memory, spoil, Group, Habits, ListenCase, Prng, Turn};
use oracle::holdback::dues;
use oracle::{abi, batch, poll, start_last, Answer, Setup};

/// An observer's call that hears nothing, with these frames on its shelf.
fn silent<T: AsRef<[u8]>>(setup: Setup, last: i64, v: i64, shelf: &[T]) -> ListenCase {
    ListenCase { holdback: holdback(&setup, shelf), ..listening::<&[u8]>(setup, last, v, &[]) }
}

/// The mend of such a call.
fn mend<T: AsRef<[u8]>>(setup: Setup, last: i64, v: i64, shelf: &[T]) -> u8 {
    let (answer, left) = listen(silent(setup, last, v, shelf));
    assert_eq!((answer.number, left.last), (0, (v as u16).to_le_bytes()));
    answer.repair
}

#[test]
fn a_start_asks_1_without_the_own_number_and_2() {
    assert_eq!(start_last(&SETUP, 13), Ok([13, 0]));
    assert_eq!(start_last(&SETUP, 14), Err(2));
    assert_eq!(start_last(&Setup { own: 2, ..SETUP }, 13), Ok([13, 0]));
    assert_eq!(start_last(&Setup { modulus: 13, ..SETUP }, 13), Err(1));
    let widest = Setup { n: 16, epsilon: 16, delta: 64, modulus: 65_535, own: 16 };
    assert_eq!(start_last(&widest, 65_534), Ok([0xFE, 0xFF]));
    assert_eq!(start_last(&widest, 65_541), Err(2), "which is not 5");
}

#[test]
fn an_observer_shows_the_sample_as_a_node_does() {
    let sent = frame(0, 1, 1, &[0, 1, 2, 1], &[0x42]);
    let mut case = listening(SETUP, 0, 1, &[frame_a()]);
    for (v, heard, on_shelf) in
        [(1, vec![frame_a()], 1), (2, vec![sent.clone()], 2), (4, vec![], 2)]
    {
        (case.clock, case.batch) = (v, batch::encode(&heard));
        let (answer, left) = listen(case);
        let expected = Answer { taken: heard.len() as u8, ..Answer::default() };
        assert_eq!((answer, left.last), (expected, [v as u8, 0]));
        assert_eq!(left.holdback, holdback(&SETUP, &[frame_a(), sent.clone()][..on_shelf]));
        case = left;
    }
    (case.clock, case.batch) = (5, vec![0]);
    let (answer, left) = listen(case);
    assert_eq!(abi::pack_tick(&answer), 0x2_0000_0000);
    assert_eq!((left.last, left.holdback), ([5, 0], holdback::<&[u8]>(&SETUP, &[])));
    let handed = packed(&[frame_a(), sent]);
    assert_eq!(left.delivery[..handed.len()], handed);
    assert!(left.delivery[handed.len()..].iter().all(|&byte| byte == FILL));
}

/// The rows of docs/RULES.md.
#[test]
fn the_sample_calls_and_their_answers() {
    let h = frame(1, 2, 0, &[1, 2, 1, 0], &[0x41]);
    let (a, none) = (Some(frame_a()), None::<Vec<u8>>);
    let rows = [
        (1, 0, &none, Some(&h), 0x10000),
        (5, 3, &Some(h.clone()), None, 0x1_0000_0000),
        (6, 4, &a, None, 0x1_0000_0000),
        (7, 5, &a, None, 0x200),
        (5, 2, &a, None, 0x1_0000_0100),
        (6, 3, &a, None, 0x300),
        (1, 14, &none, a.as_ref(), 0x10100),
        (0, 13, &none, None, 0),
        (14, 13, &none, None, 2),
    ];
    for (v, last, shelved, heard, word) in rows {
        let mut case = silent(SETUP, last, v, shelved.as_slice());
        case.batch = batch::encode(heard.map_or(&[][..], std::slice::from_ref));
        assert_eq!(abi::pack_tick(&case.run()), word, "from {last} to {v}");
    }
}

#[test]
fn a_frame_that_15_refuses_is_taken_and_shown() {
    // ★h, a frame that counts both stations at v, and one that counts both past it.
    let ahead: [(i64, i64, [u8; 4]); 3] =
        [(2, 0, [1, 2, 1, 0]), (1, 0, [0, 0, 2, 0]), (1, 1, [1, 1, 1, 2])];
    for (r, c, kn) in ahead {
        let bytes = frame(1, r, c, &kn, &[7]);
        assert_eq!(run(fresh_case(SETUP, 1, &[&bytes])).1.verdicts[0], 15);
        let (answer, mut left) = listen(listening(SETUP, 0, 1, &[&bytes]));
        assert_eq!(answer, Answer { taken: 1, ..Answer::default() });
        assert_eq!((left.verdicts[0], &left.holdback), (0, &holdback(&SETUP, &[&bytes])));
        (left.batch, left.clock) = (vec![0], 3);
        for v in [3, r + c + 3] {
            left.clock = v;
            let delivered = u16::from(v == r + c + 3);
            assert_eq!(left.run(), Answer { delivered, ..Answer::default() }, "at {v}");
        }
        assert_eq!(left.delivery[..2 + bytes.len()], packed(&[bytes]));
    }
}

#[test]
fn the_other_questions_are_asked_in_turn() {
    let (a, late) = (frame_a(), frame(1, 11, 0, &[1, 1, 1, 0], &[]));
    let form = &a[1..];
    let range = frame(2, 14, 2, &[3, 3, 0, 0], &[]);
    let stamp = frame(1, 11, 0, &[1, 1, 0, 0], &[]);
    let early = frame(1, 2, 1, &[1, 2, 2, 2], &[]);
    let again = frame(1, 2, 0, &[2, 2, 2, 0], &[9]);
    let heard = [form, &range, &stamp, &late, &early, &a, &again];
    let (answer, left) = listen(listening(SETUP, 0, 1, &heard));
    assert_eq!(left.verdicts[..8], [10, 11, 12, 13, 14, 0, 16, FILL]);
    assert_eq!(answer, Answer { taken: 1, ..Answer::default() });
    assert_eq!(left.holdback, holdback(&SETUP, &[a]));
}

#[test]
fn a_last_clock_is_below_b_and_1_to_epsilon_before_v() {
    for setup in [SETUP, WIDE, Setup { n: 1, epsilon: 1, delta: 0, modulus: 7, own: 0 }] {
        let Setup { epsilon, modulus, .. } = setup;
        for v in 0..modulus {
            for last in (0..3 * modulus).chain([65_535]) {
                let step = (v - last).rem_euclid(modulus);
                let sound = last < modulus && 1 <= step && step <= epsilon;
                let mend = mend::<&[u8]>(setup, last, v, &[]);
                assert_eq!(mend, u8::from(!sound), "from {last} to {v}");
            }
        }
    }
}

#[test]
fn a_last_clock_of_b_is_damaged() {
    for v in 1..=WIDE.epsilon {
        assert_eq!(mend::<&[u8]>(WIDE, 0, v, &[]), 0);
        assert_eq!(mend::<&[u8]>(WIDE, WIDE.modulus, v, &[]), 1);
        // Due at 0: after the last clock −1, that is 29, and not after 0.
        assert_eq!(mend(WIDE, WIDE.modulus - 1, v.min(3), &[wide(0, -5, 0)]), 0);
        assert_eq!(mend(WIDE, 0, v, &[wide(0, -5, 0)]), 2);
        assert_eq!(mend(WIDE, WIDE.modulus, v, &[wide(0, -5, 0)]), 3);
    }
}

#[test]
fn the_largest_b_has_its_wrap_too() {
    let setup = Setup { modulus: 65_535, ..WIDE };
    for (last, v, expected) in [(65_534, 3, 0), (65_534, 4, 1), (65_535, 3, 1), (65_531, 0, 0)] {
        assert_eq!(mend::<&[u8]>(setup, last, v, &[]), expected, "from {last} to {v}");
    }
}

#[test]
fn a_shelved_frame_is_due_past_the_last_clock_and_after_a_mend_not_before_v() {
    for v in [10_i64, 0, 2, 29] {
        for step in 0..=5 {
            let sound = (1..=4).contains(&step);
            let least = if sound { 1 - step } else { 0 };
            for due in -4..=3 {
                let last = (v - step).rem_euclid(WIDE.modulus);
                let case = silent(WIDE, last, v, &[wide(0, v + due - 5, 1)]);
                let (answer, left) = listen(case);
                let expected = u8::from(!sound) + if due < least { 2 } else { 0 };
                assert_eq!(answer.repair, expected, "{v} after {step}, due {due} past it");
                let shown = least <= due && due <= 0;
                assert_eq!(answer.delivered, u16::from(shown));
                assert_eq!(left.holdback[0], u8::from(due > 0), "or it is emptied");
            }
        }
    }
}

#[test]
fn what_is_due_before_v_goes_out_first() {
    // Last clock 28, v 2 after a step of 4: due clocks 29, 0 and 1 are early, 2 is v.
    let early = [wide(1, 24, 1), wide(0, 25, 2), wide(1, 25, 3), wide(0, 26, 4)];
    let (due, stays) = (wide(1, 27, 5), wide(0, 28, 6));
    let mut case = silent(WIDE, 28, 2, &[&early[..], &[due.clone(), stays.clone()]].concat());
    case.holdback[2 + 6 * due.len()..].fill(0xFF);
    let (heard, later) = (wide(0, 27, 7), wide(1, 29, 8));
    case.batch = batch::encode(&[&heard, &later, &early[3], &due]);
    let (answer, left) = listen(case);
    assert_eq!((answer.repair, answer.taken, answer.delivered), (0, 2, 6));
    assert_eq!(left.verdicts[..5], [0, 0, 13, 16, FILL], "an early one has left the shelf");
    let handed = packed(&[&early[..], &[heard, due]].concat());
    assert_eq!(left.delivery[..handed.len()], handed);
    assert!(left.delivery[handed.len()..].iter().all(|&byte| byte == FILL));
    assert_eq!(left.holdback, holdback(&WIDE, &[stays, later]), "zeros behind the frames");
    assert_eq!(left.last, [2, 0]);
}

#[test]
fn an_unsound_shelf_is_emptied() {
    let f = |node, r, c, kn: &[u8; 4]| frame(node, r, c, kn, &[]);
    let (two, three) = (f(0, 3, 0, &[1, 1, 1, 0]), f(0, 4, 0, &[1, 1, 1, 0]));
    assert_eq!(mend(SETUP, 4, 5, &[two.clone(), three.clone()]), 0);
    let unsound = [
        vec![three.clone(), two.clone()],
        vec![two.clone(), two.clone()],
        vec![two.clone(), f(0, 3, 1, &[1, 1, 1, 1])],
        vec![two.clone(), f(0, 6, 1, &[1, 1, 1, 1])],
        vec![two.clone(), f(2, 4, 0, &[1, 1, 1, 0])],
        vec![two.clone(), f(0, 4, 0, &[1, 1, 0, 0])],
        vec![two.clone(), three[1..].to_vec()],
    ];
    for shelf in &unsound {
        assert_eq!(mend(SETUP, 4, 5, shelf), 2, "{shelf:?}");
        assert_eq!(mend(SETUP, 5, 5, shelf), 3, "{shelf:?}");
        let heard = ListenCase { batch: batch::encode(&[&three]), ..silent(SETUP, 4, 5, shelf) };
        assert_eq!(listen(heard).1.holdback, holdback(&SETUP, &[&three]));
    }
    let junk = ListenCase { holdback: vec![0xFF; 604], ..silent::<&[u8]>(SETUP, 99, 5, &[]) };
    let (answer, left) = listen(junk);
    assert_eq!((answer.repair, left.holdback), (3, vec![0; 604]));
}

type Spoil = fn(&mut ListenCase);

/// Ways to get a no to each question, in their order.
const WRONG: [(u8, &[Spoil]); 5] = [
    (
        1,
        &[
            |case| case.setup.n = 0,
            |case| case.setup.n = 17,
            |case| case.setup.epsilon = 0,
            |case| case.setup.epsilon = 17,
            |case| case.setup.delta = 65,
            |case| case.setup.modulus = 13,
            |case| case.setup.modulus = 65_536,
        ],
    ),
    (2, &[|case| case.clock = 14, |case| case.clock = 65_535, |case| case.clock = 65_536 + 5]),
    (
        3,
        &[
            |case| case.holdback.clear(),
            |case| case.holdback.truncate(603),
            |case| case.holdback.push(0),
        ],
    ),
    (
        5,
        &[
            |case| case.batch.clear(),
            |case| case.batch = vec![1],
            |case| case.batch.push(0),
            |case| case.batch[0] = 3,
        ],
    ),
    (
        6,
        &[
            |case| case.verdicts.clear(),
            |case| case.verdicts.truncate(254),
            |case| case.delivery.clear(),
            |case| case.delivery.truncate(603),
        ],
    ),
];

#[test]
fn the_first_no_gives_the_number_and_a_refusal_changes_nothing() {
    let good = ListenCase {
        holdback: holdback(&SETUP, &[frame_a()]),
        ..listening(SETUP, 65_535, 5, &[frame_a(), vec![1]])
    };
    assert_eq!(listen(good.clone()).0.number, 0);
    for (k, &(number, spoils)) in WRONG.iter().enumerate() {
        let later = WRONG[k + 1..].iter().flat_map(|(_, spoils)| *spoils);
        let mut others: Vec<Spoil> = later.copied().collect();
        others.push(|_| ());
        for (spoil, other) in spoils.iter().flat_map(|spoil| others.iter().map(move |o| (spoil, o)))
        {
            let mut case = good.clone();
            other(&mut case);
            spoil(&mut case);
            let (answer, left) = listen(case.clone());
            assert_eq!(answer, Answer { number, ..Answer::default() });
            assert_eq!(left, case);
        }
    }
}

#[test]
fn an_observer_has_no_own_number() {
    let heard = [frame_a()];
    let expected = listen(listening(SETUP, 0, 1, &heard));
    assert_eq!((expected.0.number, expected.0.taken), (0, 1));
    for own in [1, 2, 16, 255, 4_294_967_295] {
        let setup = Setup { own, ..SETUP };
        let (answer, left) = listen(listening(setup, 0, 1, &heard));
        assert_eq!((answer, left.holdback), (expected.0, expected.1.holdback.clone()));
    }
}

/// Where no frame gets 15, an observer with the same queue and a last clock that is as sound as the
/// node's tables does with its board what the node does.
#[test]
fn an_observer_does_what_a_node_does_but_for_15() {
    let mut rng = Prng::new(34);
    let (mut alike, mut more) = (0, 0);
    for _ in 0..6_000 {
        let setup = generate::setup(&mut rng);
        let v = rng.below(setup.modulus);
        let heard: Vec<_> = (0..9).map(|_| frames::any(&mut rng, &setup, v)).collect();
        let case = fresh_case(setup, v, &heard).stepped(&mut rng);
        let (seen, observer) = listen(ListenCase::of(case.clone()));
        let (answer, node) = run(case);
        assert_eq!((seen.number, seen.repair), (0, answer.repair));
        if node.verdicts.contains(&15) {
            assert!(seen.taken >= answer.taken);
            more += u64::from(seen.taken > answer.taken);
            continue;
        }
        assert_eq!(seen, Answer { outgoing: 0, ..answer });
        assert_eq!(observer, ListenCase::of(node));
        alike += 1;
    }
    assert!(alike > 1_500 && more > 1_000, "only {alike} and {more}");
}

#[test]
fn only_an_accepted_call_moves_the_last_clock() {
    let mut rng = Prng::new(35);
    let mut counts = [0; 7];
    for _ in 0..8_000 {
        let setup = generate::setup(&mut rng);
        let mut case = fresh_case(setup, rng.below(setup.modulus), &[frame_a()]).stepped(&mut rng);
        if rng.one_in(2) {
            spoil::spoil(&mut rng, &mut case);
        }
        let case = ListenCase::of(case);
        let (answer, left) = listen(case.clone());
        match answer.number {
            0 => assert_eq!(left.last, (case.clock as u16).to_le_bytes()),
            _ => assert_eq!(left, case),
        }
        counts[usize::from(answer.number)] += 1;
    }
    assert!([0, 1, 2, 3, 5, 6].iter().all(|&number| counts[number] > 100), "{counts:?}");
}

#[test]
fn a_call_leaves_sound_memory_for_the_next_and_for_a_poll() {
    let mut rng = Prng::new(36);
    let mut held = 0;
    for _ in 0..2_000 {
        let setup = generate::setup(&mut rng);
        let v = rng.below(setup.modulus);
        let heard: Vec<_> = (0..9).map(|_| frames::near(&mut rng, &setup, v)).collect();
        let case = fresh_case(setup, v, &heard);
        let (answer, mut left) = listen(ListenCase::stepped(&mut rng, &case));
        assert_eq!(answer.number, 0);
        let count = u16::from_le_bytes([left.holdback[0], left.holdback[1]]);
        assert_eq!(poll(&setup, left.clock, 65_535, &left.holdback).unwrap().within, count);
        held += u64::from(count > 0);
        (left.clock, left.batch) =
            ((left.clock + rng.range(1, setup.epsilon)) % setup.modulus, vec![0]);
        let answer = left.run();
        assert_eq!((answer.number, answer.repair), (0, 0));
    }
    assert!(held > 500, "only {held} queues with frames");
}

#[test]
fn a_step_hands_out_all_that_is_due_on_its_way() {
    let mut rng = Prng::new(37);
    let mut handed = 0;
    for _ in 0..2_000 {
        let setup = generate::setup(&mut rng);
        let (v, step) = (rng.below(setup.modulus), rng.range(1, setup.epsilon));
        let last = (v - step).rem_euclid(setup.modulus);
        let shelf = memory::sound_frames(&mut rng, &setup, v, 1 - step);
        let due = dues(&setup, v, &packed(&shelf)).filter(|&due| due <= 0).count();
        let (answer, left) = listen(silent(setup, last, v, &shelf));
        assert_eq!(answer, Answer { delivered: due as u16, ..Answer::default() });
        let (shown, stay) = shelf.split_at(due);
        assert_eq!(left.delivery[..packed(shown).len()], packed(shown));
        assert_eq!(left.holdback, holdback(&setup, stay));
        handed += shown.len();
    }
    assert!(handed > 5_000, "only {handed} frames handed out");
}

#[test]
fn in_generated_groups_observers_keep_the_drift_limit() {
    let mut rng = Prng::new(38);
    let mut listened = 0;
    for _ in 0..100 {
        let setup = generate::setup(&mut rng);
        let habits = Habits { noise: false, dips: false, nudges: rng.one_in(2), deafness: 2 };
        let mut group = Group::fresh(&mut rng, setup, habits);
        for lags in [true, false] {
            group.add_observer(&mut rng, lags);
        }
        for _ in 0..60 {
            let (member, turn) = group.next_turn(&mut rng);
            match turn {
                Turn::Node(case) => {
                    let (answer, left) = run(case);
                    group.settle(member, left, &answer);
                }
                Turn::Observer(case) => {
                    let (answer, left) = listen(case);
                    group.settle_observer(member, left, &answer);
                    listened += 1;
                }
            }
            let clocks: Vec<_> = (0..setup.n as usize + 2).map(|k| group.clock(k)).collect();
            let (lowest, highest) = (clocks.iter().min().unwrap(), clocks.iter().max().unwrap());
            assert!(highest - lowest <= setup.epsilon && *highest == group.highest());
            assert_eq!(*lowest, clocks[setup.n as usize].min(clocks[setup.n as usize + 1]));
        }
    }
    assert!(listened > 1_000, "only {listened} calls of observers");
}

/// Plays groups with observers, without nudges and with them. The first observer is never ahead of a
/// node, so it hears messages that know of all nodes at its clock or later.
fn check_observers(seed: u64, runs: usize, calls: usize, dip: bool) {
    for nudges in [false, true] {
        let totals = play_all(seed, runs, calls, Kind { dip, nudges, observed: true });
        assert!(totals.compared > 100_000, "{totals:?}");
        assert_eq!(totals.early > 1_000, nudges, "{totals:?}");
        assert!(totals.observed.iter().all(|&shown| shown > 5_000), "{totals:?}");
        assert!(totals.beyond[0] > 2_000 && totals.beyond[1] > 1_000, "{totals:?}");
    }
}

#[test]
fn from_a_fresh_start_an_observer_shows_every_message_it_heard_in_the_nodes_order() {
    check_observers(30, 150, 250, false);
}

#[test]
fn from_any_memory_an_observer_shows_every_covered_message_it_heard_in_the_nodes_order() {
    check_observers(32, 300, 400, true);
}
