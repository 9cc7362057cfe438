//! 02's poll: when something shows next.

use crate::common::{frame, frame_a, fresh_case, holdback, run, SETUP};
use oracle::generate::{self, memory, Group, Habits, PollCase, Prng, TickCase};
use oracle::timestamp::fresh;
use oracle::{abi, poll, read, Outlook, Setup};

/// What nothing on the shelf answers.
const NOTHING: Outlook = Outlook { next: None, within: 0 };

fn outlook(next: i64, within: u16) -> Outlook {
    Outlook { next: Some(next), within }
}

/// A frame whose due clock is this many ticks after v; c is 0, so r is 3 before that.
fn due_after(v: i64, ticks: i64, node: i64) -> Vec<u8> {
    frame(node, (v + ticks - 3).rem_euclid(14), 0, &[1, 1, 1, 0], &[])
}

/// A poll with the samples' setup, at v, of these frames.
fn polled<T: AsRef<[u8]>>(v: i64, within: u16, frames: &[T]) -> Outlook {
    poll(&SETUP, v, within, &holdback(&SETUP, frames)).unwrap()
}

#[test]
fn an_empty_shelf_has_nothing_next() {
    for v in 0..14 {
        for within in [0, 1, 65_535] {
            assert_eq!(polled::<&[u8]>(v, within, &[]), NOTHING);
        }
    }
}

#[test]
fn the_sample_after_each_of_its_ticks() {
    let sent = frame(0, 1, 1, &[0, 1, 2, 1], &[0x42]);
    assert_eq!(polled(1, 3, &[frame_a()]), outlook(5, 0));
    assert_eq!(polled(1, 4, &[frame_a()]), outlook(5, 1));
    for v in 2..5 {
        let left = 5 - v as u16;
        assert_eq!(polled(v, left, &[frame_a(), sent.clone()]), outlook(5, 2));
        assert_eq!(polled(v, left - 1, &[frame_a(), sent.clone()]), outlook(5, 0));
    }
    assert_eq!(polled::<&[u8]>(5, 65_535, &[]), NOTHING);
}

#[test]
fn a_frame_due_at_v_itself_makes_an_unsound_shelf() {
    let later = due_after(5, 2, 0);
    assert_eq!(polled(4, 65_535, &[frame_a(), later.clone()]), outlook(5, 2));
    assert_eq!(polled(5, 65_535, &[frame_a(), later.clone()]), NOTHING);
    assert_eq!(polled(6, 65_535, &[frame_a(), later.clone()]), NOTHING, "due before v");
    assert_eq!(polled(5, 65_535, &[later]), outlook(7, 1));
}

#[test]
fn every_due_clock_at_every_v_also_around_the_wrap() {
    for v in 0..14 {
        for ticks in 1..=4 {
            let shelf = [due_after(v, ticks, 1)];
            let next = (v + ticks) % 14;
            for (within, count) in [(0, 0), (ticks - 1, 0), (ticks, 1), (ticks + 1, 1)] {
                assert_eq!(polled(v, within as u16, &shelf), outlook(next, count));
            }
            assert_eq!(polled(v, 65_535, &shelf), outlook(next, 1));
        }
        assert_eq!(polled(v, 65_535, &[due_after(v, 0, 1)]), NOTHING, "due at v");
        assert_eq!(polled(v, 65_535, &[due_after(v, 5, 1)]), NOTHING, "the sum 2 ahead");
    }
}

#[test]
fn the_bound_cuts_between_frames() {
    let shelf: Vec<_> =
        [(1, 1), (3, 0), (3, 1), (4, 0)].map(|(ticks, node)| due_after(12, ticks, node)).into();
    let counts = [0, 1, 1, 3, 4, 4];
    for (within, count) in (0..).zip(counts) {
        assert_eq!(polled(12, within, &shelf), outlook(13, count), "within {within}");
        assert_eq!(polled(12, within, &shelf[1..]).next, Some(1));
    }
}

#[test]
fn an_unsound_shelf_answers_as_an_empty_one() {
    let f = |node, r, c, kn: &[u8; 4]| frame(node, r, c, kn, &[]);
    let (two, three) = (f(0, 3, 0, &[1, 1, 1, 0]), f(0, 4, 0, &[1, 1, 1, 0]));
    let is_sound = |frames: &[Vec<u8>]| polled(5, 65_535, frames) != NOTHING;
    assert!(is_sound(&[two.clone(), three.clone()]));
    let unsound = [
        vec![three.clone(), two.clone()],
        vec![two.clone(), two.clone()],
        vec![two.clone(), f(0, 3, 1, &[1, 1, 1, 1])],
        vec![two.clone(), f(0, 6, 1, &[1, 1, 1, 1])],
        vec![two.clone(), f(2, 4, 0, &[1, 1, 1, 0])],
        vec![two.clone(), f(0, 4, 0, &[1, 1, 0, 0])],
        vec![two.clone(), three[1..].to_vec()],
        vec![f(0, 2, 0, &[1, 1, 1, 0]), three],
    ];
    unsound.iter().for_each(|frames| assert!(!is_sound(frames), "{frames:?}"));
    let mut bytes = holdback(&SETUP, &[two]);
    bytes[0] = 2;
    assert_eq!(poll(&SETUP, 5, 65_535, &bytes), Ok(NOTHING), "a count above its frames");
    assert_eq!(poll(&SETUP, 5, 65_535, &vec![0xFF; bytes.len()]), Ok(NOTHING), "junk");
}

#[test]
fn what_lies_behind_the_frames_is_ignored() {
    let mut bytes = holdback(&SETUP, &[frame_a()]);
    bytes[2 + frame_a().len()..].fill(0xFF);
    assert_eq!(poll(&SETUP, 2, 3, &bytes), Ok(outlook(5, 1)));
}

#[test]
fn the_questions_in_turn() {
    let good = holdback(&SETUP, &[frame_a()]);
    let longer = [&good[..], &[0]].concat();
    assert_eq!(poll(&Setup { own: 2, ..SETUP }, 14, 0, &longer), Err(1));
    assert_eq!(poll(&Setup { modulus: 13, ..SETUP }, 14, 0, &longer), Err(1));
    assert_eq!(poll(&SETUP, 14, 0, &longer), Err(2));
    assert_eq!(poll(&SETUP, 65_536 + 1, 0, &good), Err(2));
    for bytes in [&longer[..], &good[1..], &[]] {
        assert_eq!(poll(&SETUP, 13, 0, bytes), Err(3));
    }
    assert!(poll(&SETUP, 13, 0, &good).is_ok());
}

#[test]
fn the_answer_is_packed_and_a_refusal_is_the_number_alone() {
    assert_eq!(abi::pack_poll(Ok(NOTHING)), 0);
    assert_eq!(abi::pack_poll(Ok(outlook(0, 0))), 0x100);
    assert_eq!(abi::pack_poll(Ok(outlook(0x1234, 0x506))), 0x506_1234_0100);
    assert_eq!(abi::pack_poll(Err(3)), 3);
    for answer in [NOTHING, outlook(0, 0), outlook(65_534, 1_792)] {
        assert_eq!(abi::unpack_poll(abi::pack_poll(Ok(answer))), answer);
    }
}

#[test]
fn the_soonest_and_the_number_over_all_frames() {
    let mut rng = Prng::new(25);
    let mut several = 0;
    for _ in 0..2_000 {
        let setup = generate::setup(&mut rng);
        let v = rng.below(setup.modulus);
        let frames = memory::sound_frames(&mut rng, &setup, v, 1);
        let bytes = memory::assemble(&mut rng, &setup, &frames);
        // The ticks from v to a due clock, which none on this shelf is at or past.
        let ticks = |bytes: &Vec<u8>| {
            let stamp = read(&setup, bytes).unwrap().timestamp;
            (stamp.r + stamp.c + setup.delta + setup.epsilon - v).rem_euclid(setup.modulus)
        };
        let ticks: Vec<_> = frames.iter().map(ticks).collect();
        let next = ticks.iter().min().map(|soonest| (v + soonest) % setup.modulus);
        several += usize::from(ticks.iter().min() < ticks.iter().max());
        for within in (0..=setup.delta + 2 * setup.epsilon).chain([65_535]) {
            let count = ticks.iter().filter(|&&ticks| ticks <= within).count() as u16;
            let expected = Ok(Outlook { next, within: count });
            assert_eq!(poll(&setup, v, within as u16, &bytes), expected);
        }
    }
    assert!(several > 500, "only {several} shelves with several due clocks");
}

#[test]
fn swapped_or_doubled_frames_answer_as_an_empty_shelf() {
    let mut rng = Prng::new(26);
    let mut tried = 0;
    for _ in 0..1_000 {
        let setup = generate::setup(&mut rng);
        let v = rng.below(setup.modulus);
        let mut frames = memory::sound_frames(&mut rng, &setup, v, 1);
        if !(2..setup.capacity()).contains(&frames.len()) {
            continue;
        }
        let at = rng.place(frames.len() - 1);
        match rng.one_in(2) {
            true => frames.swap(at, at + 1),
            false => frames.insert(at, frames[at].clone()),
        }
        let bytes = memory::assemble(&mut rng, &setup, &frames);
        assert_eq!(poll(&setup, v, 65_535, &bytes), Ok(NOTHING));
        tried += 1;
    }
    assert!(tried > 400, "only {tried} shelves tried");
}

/// The same station's next call, a step later, that hears nothing.
fn silent_next(left: &TickCase, step: i64) -> TickCase {
    let clock = (left.clock + step) % left.setup.modulus;
    TickCase { clock, batch: vec![0], ..left.clone() }
}

/// Checks after an accepted call that a poll for each step counts what the call a step later, which
/// hears nothing, hands out, and names its first clock; how many such calls hand something out.
fn check_foretold(left: &TickCase) -> u64 {
    let TickCase { setup, clock, holdback, .. } = left;
    let held = u16::from_le_bytes([holdback[0], holdback[1]]);
    let all = poll(setup, *clock, 65_535, holdback).unwrap();
    assert_eq!((all.within, all.next.is_some()), (held, held > 0), "a tick's shelf is sound");
    let mut shown = 0;
    for step in 1..=setup.epsilon {
        let foretold = poll(setup, *clock, step as u16, holdback).unwrap();
        let (answer, _) = run(silent_next(left, step));
        assert_eq!((answer.repair, answer.delivered), (0, foretold.within));
        assert_eq!(foretold.next, all.next);
        let soon = foretold.next.map(|next| (next - clock).rem_euclid(setup.modulus));
        assert_eq!(answer.delivered > 0, soon.is_some_and(|ticks| ticks <= step));
        shown += u64::from(answer.delivered > 0);
    }
    shown
}

#[test]
fn a_poll_foretells_what_the_next_tick_shows() {
    let mut rng = Prng::new(27);
    let (mut shown, mut more) = (0, 0);
    for _ in 0..60 {
        let setup = generate::setup(&mut rng);
        let habits = Habits { noise: rng.one_in(2), dips: false, nudges: true, deafness: 2 };
        let mut group = Group::fresh(&mut rng, setup, habits);
        for _ in 0..100 {
            let (node, case) = group.next_case(&mut rng);
            let last = group.clock(node) % setup.modulus;
            let step = (case.clock - last).rem_euclid(setup.modulus) as u16;
            let foretold = poll(&setup, last, step, &case.holdback).unwrap().within;
            let (answer, left) = run(case);
            assert_eq!((answer.number, answer.repair), (0, 0));
            // What is taken may be due in this very tick.
            assert!(
                answer.delivered >= foretold
                    && answer.delivered <= foretold + u16::from(answer.taken)
            );
            more += u64::from(answer.delivered > foretold);
            shown += check_foretold(&left);
            group.settle(node, left, &answer);
        }
    }
    assert!(shown > 2_000 && more > 100, "only {shown} and {more}");
}

#[test]
fn what_a_tick_leaves_of_any_memory_is_sound_for_a_poll() {
    let mut rng = Prng::new(28);
    let mut shown = 0;
    for _ in 0..1_500 {
        let setup = generate::setup(&mut rng);
        let v = rng.below(setup.modulus);
        let heard: Vec<_> = (0..9).map(|_| generate::frames::near(&mut rng, &setup, v)).collect();
        let (_, left) = run(fresh_case(setup, v, &heard).stepped(&mut rng));
        shown += check_foretold(&left);
    }
    assert!(shown > 1_000, "only {shown} hand-outs");
}

#[test]
fn a_damaged_shelf_that_the_next_tick_mends_has_nothing_next() {
    let mut rng = Prng::new(29);
    let (mut mended, mut sound) = (0, 0);
    for _ in 0..4_000 {
        let setup = generate::setup(&mut rng);
        let empty = fresh_case::<&[u8]>(setup, rng.below(setup.modulus), &[]);
        let case = PollCase::random(&mut rng, &empty);
        if case.run().is_err() {
            continue;
        }
        let PollCase { clock, holdback, .. } = case;
        let step = rng.range(1, setup.epsilon);
        let foretold = poll(&setup, clock, step as u16, &holdback).unwrap();
        let state = fresh(&setup, clock);
        let left = TickCase { clock, state, holdback, ..empty };
        let (answer, _) = run(silent_next(&left, step));
        if foretold.next.is_some() {
            assert_eq!((answer.repair, answer.delivered), (0, foretold.within));
            sound += 1;
        }
        mended += u64::from(answer.repair == 2);
    }
    assert!(mended > 500 && sound > 500, "only {mended} and {sound}");
}
