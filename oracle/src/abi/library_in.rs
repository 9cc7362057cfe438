//! The library's calls with both pairs (02, 2.10).

use super::library::narrow;
use crate::generate::{CompareCase, FreshCase, ListenCase, PollCase, ReadCase};
use crate::generate::{TickCase, WordsCase, WriteInCase};
use crate::{Both, ClockState, LastClock};

/// A setup as the calls take it: n, ε, δ, B, own, ε′, δ′, V, mark.
pub type Numbers = [u32; 9];

#[link(name = "yarngravel", kind = "static")]
extern "C" {
    fn yarngravel_fresh_in(setup: *const Numbers, clock: u32, state: *mut ClockState) -> u64;

    fn yarngravel_tick_in(
        setup: *const Numbers,
        clock: u32,
        state: *mut ClockState,
        holdback: *mut u8,
        holdback_len: usize,
        batch: *const u8,
        batch_len: usize,
        send: bool,
        payload: *const u8,
        payload_len: usize,
        outgoing: *mut u8,
        outgoing_len: usize,
        verdicts: *mut u8,
        verdicts_len: usize,
        delivery: *mut u8,
        delivery_len: usize,
    ) -> u64;

    fn yarngravel_listen_in(
        setup: *const Numbers,
        clock: u32,
        last: *mut LastClock,
        holdback: *mut u8,
        holdback_len: usize,
        batch: *const u8,
        batch_len: usize,
        verdicts: *mut u8,
        verdicts_len: usize,
        delivery: *mut u8,
        delivery_len: usize,
    ) -> u64;

    fn yarngravel_poll_in(
        setup: *const Numbers,
        clock: u32,
        within: u16,
        holdback: *const u8,
        holdback_len: usize,
    ) -> u64;

    fn yarngravel_compare_in(
        setup: *const Numbers,
        clock: u32,
        first: *const u8,
        first_len: usize,
        second: *const u8,
        second_len: usize,
    ) -> u64;

    fn yarngravel_words_in(
        setup: *const Numbers,
        batch: *const u8,
        batch_len: usize,
        verdicts: *const u8,
        verdicts_len: usize,
        text: *mut u8,
        text_len: usize,
    ) -> u64;

    fn yarngravel_read_in(
        setup: *const Numbers,
        frame: *const u8,
        frame_len: usize,
        state: *mut ClockState,
    ) -> u64;

    fn yarngravel_write_in(
        setup: *const Numbers,
        node: u32,
        wide: bool,
        state: *const ClockState,
        payload: *const u8,
        payload_len: usize,
        out: *mut u8,
        out_len: usize,
    ) -> u64;
}

/// A setup's numbers as the calls take them.
pub fn numbers(setup: &Both) -> Numbers {
    let [n, epsilon, delta, modulus, own] = super::library::numbers(&setup.old);
    let Both { wider_epsilon, wider_delta, change, marked, .. } = *setup;
    let [wider_epsilon, wider_delta, change, marked] =
        [wider_epsilon, wider_delta, change, marked].map(narrow);
    [n, epsilon, delta, modulus, own, wider_epsilon, wider_delta, change, marked]
}

/// The start.
pub fn fresh(case: &mut FreshCase<Both>) -> u64 {
    // SAFETY: as in `tick`.
    unsafe { yarngravel_fresh_in(&numbers(&case.setup), narrow(case.clock), &mut case.state) }
}

/// The tick.
pub fn tick(case: &mut TickCase<Both>) -> u64 {
    // SAFETY: every pointer comes with the length of the slice it was taken from, and no two
    // slices overlap.
    unsafe {
        yarngravel_tick_in(
            &numbers(&case.setup),
            narrow(case.clock),
            &mut case.state,
            case.holdback.as_mut_ptr(),
            case.holdback.len(),
            case.batch.as_ptr(),
            case.batch.len(),
            case.send,
            case.payload.as_ptr(),
            case.payload.len(),
            case.outgoing.as_mut_ptr(),
            case.outgoing.len(),
            case.verdicts.as_mut_ptr(),
            case.verdicts.len(),
            case.delivery.as_mut_ptr(),
            case.delivery.len(),
        )
    }
}

/// An observer's call.
pub fn listen(case: &mut ListenCase<Both>) -> u64 {
    // SAFETY: as in `tick`.
    unsafe {
        yarngravel_listen_in(
            &numbers(&case.setup),
            narrow(case.clock),
            &mut case.last,
            case.holdback.as_mut_ptr(),
            case.holdback.len(),
            case.batch.as_ptr(),
            case.batch.len(),
            case.verdicts.as_mut_ptr(),
            case.verdicts.len(),
            case.delivery.as_mut_ptr(),
            case.delivery.len(),
        )
    }
}

/// The poll.
pub fn poll(case: &mut PollCase<Both>) -> u64 {
    // SAFETY: as in `tick`.
    unsafe {
        yarngravel_poll_in(
            &numbers(&case.setup),
            narrow(case.clock),
            case.within,
            case.holdback.as_ptr(),
            case.holdback.len(),
        )
    }
}

/// The comparison.
pub fn compare(case: &mut CompareCase<Both>) -> u64 {
    // SAFETY: as in `tick`.
    unsafe {
        yarngravel_compare_in(
            &numbers(&case.setup),
            narrow(case.clock),
            case.first.as_ptr(),
            case.first.len(),
            case.second.as_ptr(),
            case.second.len(),
        )
    }
}

/// The words.
pub fn words(case: &mut WordsCase<Both>) -> u64 {
    // SAFETY: as in `tick`.
    unsafe {
        yarngravel_words_in(
            &numbers(&case.setup),
            case.batch.as_ptr(),
            case.batch.len(),
            case.verdicts.as_ptr(),
            case.verdicts.len(),
            case.text.as_mut_ptr(),
            case.text.len(),
        )
    }
}

/// The reader.
pub fn read(case: &mut ReadCase<Both>) -> u64 {
    // SAFETY: as in `tick`.
    unsafe {
        yarngravel_read_in(
            &numbers(&case.setup),
            case.frame.as_ptr(),
            case.frame.len(),
            &mut case.state,
        )
    }
}

/// The writer.
pub fn write(case: &mut WriteInCase) -> u64 {
    // SAFETY: as in `tick`.
    unsafe {
        yarngravel_write_in(
            &numbers(&case.setup),
            narrow(case.node),
            case.wide,
            &case.state,
            case.payload.as_ptr(),
            case.payload.len(),
            case.out.as_mut_ptr(),
            case.out.len(),
        )
    }
}
