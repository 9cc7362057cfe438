//! What a poll meets (02, 2.5), as numbers for the coverage.

use oracle::abi;
use oracle::generate::PollCase;
use oracle::holdback::{self, Holdback};

/// What a poll met: its number; of an accepted one the kind of its shelf, and where something is
/// next, whether its due clock is past the wrap (1) or not (0), how many frames are due within its
/// bound (0 none, 1 some, 2 all), and whether the bound is one before a due clock (0), at one (1) or
/// neither (2).
pub fn kinds_of(case: &PollCase, word: u64) -> Vec<(&'static str, u8)> {
    let PollCase { setup, clock, within, holdback } = case;
    let number = abi::number(word);
    if number > 0 {
        return vec![("poll", number)];
    }
    let mut kinds = vec![("poll", number), ("poll shelf", shelf_kind(case))];
    let answer = abi::unpack_poll(word);
    if let Some(next) = answer.next {
        let dues: Vec<i64> = holdback::dues(setup, *clock, holdback).collect();
        let count = match usize::from(answer.within) {
            0 => 0,
            count if count < dues.len() => 1,
            _ => 2,
        };
        let bound = i64::from(*within);
        let close = |past: i64| dues.contains(&(bound + past));
        let edge = if close(0) { 1 } else { 2 * u8::from(!close(1)) };
        let wrapped = u8::from(next <= *clock);
        kinds.extend([("poll next", wrapped), ("poll within", count), ("poll bound", edge)]);
    }
    kinds
}

/// The kind of a shelf: 0 empty, 1 sound with frames; otherwise what it is unsound by: 2 a due clock
/// at v and nothing else, 3 one before v and nothing else, 4 something else.
fn shelf_kind(case: &PollCase) -> u8 {
    let PollCase { setup, clock, holdback, .. } = case;
    let sound_from = |least: i64| Holdback::decode(setup, *clock, least, holdback);
    match sound_from(1) {
        Some(queue) => u8::from(!queue.is_empty()),
        None if sound_from(0).is_some() => 2,
        None if sound_from(-setup.epsilon).is_some() => 3,
        None => 4,
    }
}
