//! Every check's number, and that refusals change nothing.

use crate::common::{frame, frame_a, fresh_case, holdback, run, state, verdict, FILL, SETUP};
use oracle::board::{judge, Owner};
use oracle::generate::{self, frames, memory, Prng, TickCase};
use oracle::holdback::Holdback;
use oracle::{read, start, write, Answer, ClockState, Setup, Timestamp};

/// A good call with everything in it.
fn good_call() -> TickCase {
    let mut case = fresh_case(SETUP, 1, &[frame_a()]);
    case.send = true;
    case.payload = vec![0x42];
    case
}

/// The number of a good call after a change. A refusal must leave all as it was.
fn number_after(change: impl Fn(&mut TickCase)) -> u8 {
    let mut case = good_call();
    change(&mut case);
    let before = case.clone();
    let (answer, after) = run(case);
    if answer.number != 0 {
        assert_eq!(answer, Answer { number: answer.number, ..Answer::default() });
        assert!(after == before, "a refused call changed something");
    }
    answer.number
}

#[test]
fn a_start_asks_1_and_2_and_gives_fresh_tables() {
    assert_eq!(start(&SETUP, 13), Ok(state(13, 0, &[0, 0, 1, 0])));
    assert_eq!(start(&SETUP, 14), Err(2));
    assert_eq!(start(&Setup { own: 2, ..SETUP }, 14), Err(1));
    assert_eq!(start(&Setup { modulus: 13, ..SETUP }, 0), Err(1));
    let widest = Setup { n: 16, epsilon: 16, delta: 64, modulus: 65_535, own: 15 };
    let tables = start(&widest, 65_534).unwrap();
    assert_eq!((&tables[..3], tables[3 + 16]), (&[0xFE, 0xFF, 0][..], 1));
    assert_eq!(tables[3..].iter().map(|&count| u32::from(count)).sum::<u32>(), 1);
}

fn shorten(buffer: &mut Vec<u8>) {
    buffer.pop();
}

#[test]
fn check_1_the_limits_of_the_setup() {
    let least = Setup { n: 1, epsilon: 1, delta: 0, modulus: 7, own: 0 };
    let most = Setup { n: 16, epsilon: 16, delta: 64, modulus: 65_535, own: 15 };
    for setup in [least, most, Setup { modulus: 161, ..most }] {
        assert!(setup.is_valid(), "{setup:?}");
    }
    let wrong = [
        Setup { n: 0, ..least },
        Setup { n: 17, ..most },
        Setup { epsilon: 0, ..least },
        Setup { epsilon: 17, ..most },
        Setup { delta: 65, ..most },
        Setup { modulus: 6, ..least },
        Setup { modulus: 160, ..most },
        Setup { modulus: 65_536, ..most },
        Setup { own: 1, ..least },
        Setup { own: 16, ..most },
    ];
    for setup in wrong {
        assert!(!setup.is_valid(), "{setup:?}");
        assert_eq!(number_after(|case| case.setup = setup), 1);
    }
}

#[test]
fn checks_2_to_6() {
    assert_eq!(number_after(|_| ()), 0);
    assert_eq!(number_after(|case| case.clock = 14), 2);
    assert_eq!(number_after(|case| case.clock = 65_536 + 1), 2);
    assert_eq!(number_after(|case| case.holdback.push(0)), 3);
    assert_eq!(number_after(|case| shorten(&mut case.holdback)), 3);
    assert_eq!(number_after(|case| case.payload = vec![0; 33]), 4);
    assert_eq!(number_after(|case| case.batch.clear()), 5);
    assert_eq!(number_after(|case| case.batch.push(0)), 5);
    assert_eq!(number_after(|case| shorten(&mut case.batch)), 5);
    assert_eq!(number_after(|case| case.batch[0] = 2), 5);
    assert_eq!(number_after(|case| shorten(&mut case.outgoing)), 6);
    assert_eq!(number_after(|case| shorten(&mut case.verdicts)), 6);
    assert_eq!(number_after(|case| shorten(&mut case.delivery)), 6);
}

#[test]
fn checks_of_the_call_are_asked_in_order() {
    let spoils: [fn(&mut TickCase); 6] = [
        |case| case.setup.n = 0,
        |case| case.clock = 14,
        |case| case.holdback.push(0),
        |case| case.payload = vec![0; 33],
        |case| case.batch.clear(),
        |case| case.outgoing.clear(),
    ];
    for first in 0..spoils.len() {
        let number = number_after(|case| spoils[first..].iter().for_each(|spoil| spoil(case)));
        assert_eq!(usize::from(number), first + 1);
    }
}

#[test]
fn check_10_the_three_counts() {
    let good = frame_a();
    assert_eq!(verdict(1, &good), 0);
    assert_eq!(verdict(1, &[]), 10);
    for length in 0..good.len() {
        assert_eq!(verdict(1, &good[..length]), 10, "cut to {length}");
    }
    assert_eq!(verdict(1, &[&good[..], &[0]].concat()), 10, "left over");
    for (at, wrong) in [(0, 2), (0, 4), (4, 4), (4, 6), (10, 0), (10, 2)] {
        let mut frame = good.clone();
        frame[at] = wrong;
        assert_eq!(verdict(1, &frame), 10, "byte {at} is {wrong}");
    }
    assert_eq!(verdict(1, &frame(1, 2, 0, &[1, 1, 1, 0], &[7; 32])), 0);
    assert_eq!(verdict(1, &frame(1, 2, 0, &[1, 1, 1, 0], &[7; 33])), 10);
    assert_eq!(verdict(1, &frame(1, 2, 0, &[1, 1, 1, 0, 0, 0], &[])), 10, "counts for ε 3");
}

#[test]
fn check_11_node_and_r() {
    assert_eq!(verdict(1, &frame(2, 2, 0, &[1, 1, 1, 0], &[])), 11);
    assert_eq!(verdict(0, &frame(1, 13, 0, &[1, 1, 1, 0], &[])), 0);
    assert_eq!(verdict(1, &frame(1, 14, 0, &[1, 1, 1, 0], &[])), 11);
    assert_eq!(verdict(1, &frame(1, 2 + 14, 0, &[1, 1, 1, 0], &[])), 11);
}

#[test]
fn check_12_a_sound_timestamp() {
    let wrong: [(i64, [u8; 4]); 5] = [
        (2, [1, 1, 1, 1]),
        (255, [1, 1, 1, 1]),
        (0, [3, 1, 1, 0]),
        (0, [1, 1, 0, 0]),
        (0, [1, 1, 1, 1]),
    ];
    for (c, kn) in wrong {
        assert_eq!(verdict(3, &frame(1, 2, c, &kn, &[])), 12, "c {c}, counts {kn:?}");
    }
    assert_eq!(verdict(3, &frame(1, 2, 1, &[2, 2, 2, 2], &[])), 15, "sound, though");
    assert_eq!(verdict(4, &frame(1, 2, 1, &[2, 2, 2, 2], &[])), 0);
}

#[test]
fn checks_13_to_15_at_their_limits() {
    let old = |v| verdict(v, &frame(1, 2, 0, &[1, 1, 1, 0], &[]));
    assert_eq!((old(5), old(6)), (0, 13));
    let far = |c, kn: &[u8]| verdict(2, &frame(1, 2, c, kn, &[]));
    assert_eq!(far(1, &[1, 1, 1, 1]), 0, "one past 2");
    assert_eq!(verdict(1, &frame(1, 2, 1, &[1, 1, 1, 1], &[])), 14, "two past 1");
    assert_eq!(far(1, &[2, 2, 1, 1]), 0, "n before 2");
    assert_eq!(far(1, &[2, 2, 2, 1]), 15, "n at 2");
    assert_eq!(far(1, &[2, 2, 1, 2]), 15, "n after 2");
}

#[test]
fn check_16_repeats_in_the_queue_and_in_the_batch() {
    let other = frame(1, 2, 0, &[0, 0, 1, 0], &[]);
    let third = frame(0, 2, 0, &[0, 0, 1, 0], &[]);
    let (answer, after) = run(fresh_case(SETUP, 1, &[&frame_a(), &frame_a(), &other, &third]));
    assert_eq!((&after.verdicts[..4], answer.taken), (&[0, 16, 16, 0][..], 2));
    let mut case = fresh_case(SETUP, 2, &[&other]);
    case.holdback = after.holdback;
    assert_eq!(run(case).1.verdicts[0], 16);
}

#[test]
fn a_frame_that_passes_10_to_16_finds_room() {
    let mut rng = Prng::new(11);
    let mut most_met = 0;
    for _ in 0..2_000 {
        let setup = generate::setup(&mut rng);
        let (v, step) = (rng.below(setup.modulus), rng.range(1, setup.epsilon));
        let held = memory::sound_frames(&mut rng, &setup, v, 1 - step);
        let held = memory::assemble(&mut rng, &setup, &held);
        let heard: Vec<_> = (0..setup.n)
            .flat_map(|node| (-setup.delta - setup.epsilon..setup.epsilon).map(move |r| (node, r)))
            .map(|(node, ahead)| frames::sound(&mut rng, &setup, v, node, ahead, 0))
            .collect();
        let most = setup.capacity() - setup.n as usize;
        for owner in [Owner::Node, Owner::Observer] {
            let mut queue = Holdback::decode(&setup, v, 1 - step, &held).expect("a sound queue");
            queue.take_early(&setup);
            for bytes in &heard {
                if let Ok(entry) = judge(&setup, v, owner, &queue, bytes) {
                    queue.place(&setup, entry);
                }
            }
            assert!(queue.len() <= most, "n(δ + 3ε − 1) at the most");
            most_met += u32::from(queue.len() == most);
        }
    }
    assert!(most_met > 100, "only {most_met} queues with as many as there can be");
}

#[test]
fn a_refused_frame_is_neither_queued_nor_counted_in() {
    let empty = run(fresh_case::<&[u8]>(SETUP, 1, &[])).1;
    let refused = [
        frame(1, 2, 1, &[1, 1, 1, 1], &[]),
        frame(1, 2, 0, &[1, 2, 1, 0], &[]),
        frame(1, 3, 0, &[1, 1, 1, 0], &[]),
    ];
    let (answer, after) = run(fresh_case(SETUP, 1, &refused));
    assert_eq!((&after.verdicts[..3], answer.taken), (&[14, 15, 13][..], 0));
    assert_eq!((after.state, after.holdback), (empty.state, empty.holdback));
}

#[test]
fn bytes_beyond_those_written_stay() {
    let (answer, after) = run(good_call());
    let sent = usize::from(answer.outgoing);
    assert_eq!(sent, 12);
    assert_eq!(after.outgoing[..sent], frame(0, 1, 1, &[0, 1, 2, 1], &[0x42]));
    assert!(after.outgoing[sent..].iter().all(|&byte| byte == FILL));
    assert_eq!(after.verdicts[..2], [0, FILL]);
    assert_eq!(after.delivery[..3], [0, 0, FILL], "an empty delivery is a count of 0");
    assert!(after.delivery[2..].iter().all(|&byte| byte == FILL));
    assert_eq!(after.holdback, holdback(&SETUP, &[frame_a()]));
    let silent = run(fresh_case(SETUP, 1, &[frame_a()])).1;
    assert!(silent.outgoing.iter().all(|&byte| byte == FILL));
}

#[test]
fn what_is_heard_when_due_is_delivered_in_that_tick() {
    let late = frame(1, 2, 0, &[1, 1, 1, 0], &[9]);
    let earlier = frame(0, 2, 0, &[0, 1, 1, 0], &[8]);
    let waiting = frame(0, 3, 0, &[0, 1, 1, 0], &[]);
    let mut case = fresh_case(SETUP, 5, &[&late, &earlier]);
    case.holdback = holdback(&SETUP, &[&waiting]);
    let (answer, after) = run(case);
    assert_eq!((answer.repair, answer.taken, answer.delivered), (0, 2, 2));
    let expected = [&[2, 0][..], &earlier, &late].concat();
    assert_eq!(after.delivery[..expected.len()], expected);
    assert!(after.delivery[expected.len()..].iter().all(|&byte| byte == FILL));
    assert_eq!(after.holdback, holdback(&SETUP, &[waiting]));
}

#[test]
fn the_reader_asks_1_10_11_12() {
    let good = frame_a();
    let read_good = read(&SETUP, &good).unwrap();
    assert_eq!(read_good.node, 1);
    assert_eq!(read_good.timestamp, Timestamp { r: 2, c: 0, kn: &[1, 1, 1, 0] });
    assert!(std::ptr::eq(read_good.payload, &good[11..]), "the very bytes of the frame");
    let number = |setup: &Setup, bytes: &[u8]| read(setup, bytes).err();
    let wrong_all = frame(2, 14, 2, &[1, 1, 1, 0], &[]);
    let cut = &wrong_all[..wrong_all.len() - 1];
    assert_eq!(number(&Setup { own: 2, ..SETUP }, cut), Some(1));
    assert_eq!(number(&SETUP, cut), Some(10));
    assert_eq!(number(&SETUP, &wrong_all), Some(11));
    assert_eq!(number(&SETUP, &frame(1, 13, 2, &[1, 1, 1, 0], &[])), Some(12));
    assert_eq!(number(&SETUP, &frame(1, 9, 1, &[2, 2, 2, 2], &[])), None, "13 to 15 are not asked");
}

#[test]
fn the_writer_asks_1_4_11_12_6() {
    let (good, wrong) = (state(2, 0, &[1, 1, 1, 0]), state(2, 2, &[1, 1, 1, 0]));
    let number = |setup: &Setup, node, state: &ClockState, payload: &[u8], length| {
        let mut out = vec![FILL; length];
        let number = write(setup, node, state, payload, &mut out).err();
        assert!(number.is_none() || out.iter().all(|&byte| byte == FILL));
        number
    };
    let bad_setup = Setup { delta: 65, ..SETUP };
    assert_eq!(number(&bad_setup, 2, &wrong, &[0; 33], 0), Some(1));
    assert_eq!(number(&SETUP, 2, &wrong, &[0; 33], 0), Some(4));
    assert_eq!(number(&SETUP, 2, &wrong, &[0; 32], 0), Some(11));
    assert_eq!(number(&SETUP, 1, &state(14, 0, &[1, 1, 1, 0]), &[], 0), Some(11));
    assert_eq!(number(&SETUP, 1, &wrong, &[], 0), Some(12));
    assert_eq!(number(&SETUP, 1, &good, &[5], 11), Some(6));
    assert_eq!(number(&SETUP, 1, &good, &[5], 12), None);
}
