//! What is written reads back.

use crate::common::SETUP;
use oracle::generate::{self, frames, memory, Prng};
use oracle::holdback::{self, Holdback};
use oracle::trace::Trace;
use oracle::{batch, read, write, Timestamp};

#[test]
fn the_writer_writes_what_the_reader_reads() {
    let mut rng = Prng::new(1);
    let mut accepted = 0;
    for _ in 0..5_000 {
        let setup = generate::setup(&mut rng);
        let v = rng.below(setup.modulus);
        let bytes = frames::any(&mut rng, &setup, v);
        let Ok(frame) = read(&setup, &bytes) else {
            continue;
        };
        let mut out = vec![0; bytes.len()];
        let state = frame.timestamp.to_state();
        let length = write(&setup, frame.node, &state, frame.payload, &mut out);
        assert_eq!((length, &out), (Ok(bytes.len()), &bytes));
        accepted += 1;
    }
    assert!(accepted > 2_000);
}

#[test]
fn the_reader_reads_what_the_writer_writes() {
    let mut rng = Prng::new(2);
    for _ in 0..2_000 {
        let setup = generate::setup(&mut rng);
        let v = rng.below(setup.modulus);
        let state = memory::sound_state(&mut rng, &setup, v, 1);
        let (node, payload) = (rng.below(setup.n), rng.payload());
        let mut out = vec![0; setup.longest_frame()];
        let length = write(&setup, node, &state, &payload, &mut out).unwrap();
        let frame = read(&setup, &out[..length]).unwrap();
        assert_eq!((frame.node, frame.payload), (node, &payload[..]));
        assert_eq!(frame.timestamp, Timestamp::of_state(&setup, &state));
    }
}

#[test]
fn a_batch_gives_back_its_entries() {
    let mut rng = Prng::new(3);
    for count in 0..=255 {
        let entries: Vec<_> = (0..count)
            .map(|_| {
                let length = rng.place(256);
                rng.bytes(length)
            })
            .collect();
        let bytes = batch::encode(&entries);
        assert_eq!(batch::entries(&bytes).expect("a good batch"), entries);
        assert_eq!(batch::entries(&bytes[..bytes.len() - 1]), None);
        assert_eq!(batch::entries(&[&bytes[..], &[0]].concat()), None);
    }
}

#[test]
fn a_queue_is_written_as_it_was_read() {
    let mut rng = Prng::new(4);
    for _ in 0..500 {
        let setup = generate::setup(&mut rng);
        let v = rng.below(setup.modulus);
        let least = rng.range(1 - setup.epsilon, 0);
        let frames = memory::sound_frames(&mut rng, &setup, v, least);
        let bytes = memory::assemble(&mut rng, &setup, &frames);
        let mut queue = Holdback::decode(&setup, v, least, &bytes).expect("a sound queue");
        let early = queue.take_early(&setup);
        assert!(early.iter().all(|entry| (least..0).contains(&entry.due(&setup))));
        let (due, rest) = queue.split_due(&setup);
        assert!(due.iter().all(|entry| entry.due(&setup) == 0));
        assert!(rest.iter().all(|entry| entry.due(&setup) > 0));
        let mut out = vec![0; setup.holdback_len()];
        let used = holdback::put(&[&early, due, rest].concat(), &mut out);
        assert_eq!(out[..used], bytes[..used]);
        assert_eq!(used, 2 + frames.iter().map(Vec::len).sum::<usize>());
    }
}

#[test]
fn the_text_form_gives_the_bytes_of_a_trace() {
    let text = "# a comment\nsetup 2 2 1 14 0\ntick 258\nsend -\nraw 0aFF # more\nraw -\n\
                tick 3\nkeep 42\nframe 1 513 0 1,1,1,0 4142\nticks 7\ntail 0102";
    let bytes = Trace::from_text(text).unwrap().to_bytes();
    let setup = [2, 2, 1, 14, 0, 0, 7, 0];
    let first = [2, 1, 1, 0, 2, 2, 10, 255, 0];
    let frame = [3, 1, 1, 2, 5, 0, 1, 1, 1, 0, 2, 0x41, 0x42];
    let second = [3, 0, 0, 1, 0x42, 1, 13];
    assert_eq!(bytes, [&setup[..], &first, &second, &frame, &[1, 2]].concat());
}

#[test]
fn a_bad_text_names_its_line() {
    let bad = [
        ("", "no setup"),
        ("tick 1", "line 1: the setup comes first"),
        ("setup 2 2 1 14 0\nsetup 2 2 1 14 0", "line 2: a second setup"),
        ("setup 2 2 1 14", "line 1: something is missing"),
        ("setup 2 2 1 14 0 5", "line 1: `5` is too much"),
        ("setup 2 2 1 14 0\nsend 41", "line 2: a tick comes first"),
        ("setup 2 2 1 14 0\ntick 1\n\nsend 4", "line 4: `4` is not hexadecimal"),
        ("setup 2 2 1 14 0\ntick 70000", "line 2: `70000` is not a number that fits"),
        ("setup 2 2 1 14 0\ntick 1\nsing 4", "line 3: `sing` is not known"),
    ];
    for (text, error) in bad {
        assert_eq!(Trace::from_text(text), Err(error.into()));
    }
}

#[test]
fn near_is_right_for_every_clock_within_reach() {
    for v in 0..SETUP.modulus {
        for ahead in -(SETUP.modulus - SETUP.epsilon)..SETUP.epsilon {
            let r = (v + ahead).rem_euclid(SETUP.modulus);
            assert_eq!(SETUP.near(r, v), ahead);
        }
    }
}
