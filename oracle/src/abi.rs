//! The proved static library behind safe functions, and how its answers are packed.

use crate::{Answer, Outlook, Reason};
use std::cmp::Ordering;

/// Where a number lies in an answer: its lowest bit and how many bits it has.
pub struct Field {
    low: u32,
    bits: u32,
}

impl Field {
    const fn new(low: u32, bits: u32) -> Self {
        Field { low, bits }
    }

    fn put(&self, value: u64) -> u64 {
        assert!(value >> self.bits == 0, "{value} has more than {} bits", self.bits);
        value << self.low
    }

    fn get(&self, word: u64) -> u64 {
        (word >> self.low) & ((1 << self.bits) - 1)
    }
}

/// The number, in every answer: 0 or that of the question that got a no.
pub const NUMBER: Field = Field::new(0, 8);

const TICK_REPAIR: Field = Field::new(8, 8);
const TICK_TAKEN: Field = Field::new(16, 8);
const TICK_OUTGOING: Field = Field::new(24, 8);
const TICK_DELIVERED: Field = Field::new(32, 16);

const READ_NODE: Field = Field::new(8, 8);
const READ_PAYLOAD_AT: Field = Field::new(16, 16);
const READ_PAYLOAD_LEN: Field = Field::new(32, 16);
const READ_WIDE: Field = Field::new(48, 1);

const WRITE_LEN: Field = Field::new(8, 16);

const WORDS_LEN: Field = Field::new(8, 56);

const COMPARE_ORDER: Field = Field::new(8, 8);
const COMPARE_REASON: Field = Field::new(16, 8);
const COMPARE_CLOCK: Field = Field::new(32, 16);

const POLL_HAS_NEXT: Field = Field::new(8, 1);
const POLL_NEXT: Field = Field::new(16, 16);
const POLL_WITHIN: Field = Field::new(32, 16);

const CHARGE_ENTERED: Field = Field::new(8, 1);
const CHARGE_CENTS: Field = Field::new(32, 32);

const TOTAL_CENTS: Field = Field::new(8, 56);

/// The number in any answer.
pub fn number(word: u64) -> u8 {
    NUMBER.get(word) as u8
}

/// The answer of the tick, and of an observer's call.
pub fn pack_tick(answer: &Answer) -> u64 {
    NUMBER.put(answer.number.into())
        | TICK_REPAIR.put(answer.repair.into())
        | TICK_TAKEN.put(answer.taken.into())
        | TICK_OUTGOING.put(answer.outgoing.into())
        | TICK_DELIVERED.put(answer.delivered.into())
}

/// That answer from its packed form.
pub fn unpack_tick(word: u64) -> Answer {
    Answer {
        number: number(word),
        repair: TICK_REPAIR.get(word) as u8,
        taken: TICK_TAKEN.get(word) as u8,
        outgoing: TICK_OUTGOING.get(word) as u8,
        delivered: TICK_DELIVERED.get(word) as u16,
    }
}

/// The reader's answer: the sender, and where the payload lies in the frame.
pub fn pack_read(node: u64, payload_at: u64, payload_len: u64) -> u64 {
    READ_NODE.put(node) | READ_PAYLOAD_AT.put(payload_at) | READ_PAYLOAD_LEN.put(payload_len)
}

/// What the reader's answer has besides for a setup with both pairs (02, 2.10): whether the frame has
/// more than 2ε counts.
pub fn pack_wide(is_wide: bool) -> u64 {
    READ_WIDE.put(is_wide.into())
}

/// Whether it has, from an accepted answer.
pub fn unpack_wide(word: u64) -> bool {
    READ_WIDE.get(word) == 1
}

/// The writer's answer: the frame's length.
pub fn pack_write(length: u64) -> u64 {
    WRITE_LEN.put(length)
}

/// The answer of the words: the text's length.
pub fn pack_words(length: u64) -> u64 {
    WORDS_LEN.put(length)
}

/// The answer of the comparison: 0 the first is first, 1 the second, 2 they are alike; the reason's
/// number, and the count's clock.
pub fn pack_compare(order: Ordering, reason: Reason) -> u64 {
    let first = match order {
        Ordering::Less => 0,
        Ordering::Greater => 1,
        Ordering::Equal => 2,
    };
    COMPARE_ORDER.put(first)
        | COMPARE_REASON.put(reason.number().into())
        | COMPARE_CLOCK.put(reason.clock() as u64)
}

/// Which is first and the reason's number, from a packed comparison.
pub fn unpack_compare(word: u64) -> [u8; 2] {
    [COMPARE_ORDER.get(word) as u8, COMPARE_REASON.get(word) as u8]
}

/// The answer of the poll: is something next, its due clock, and how many are due within; or the
/// number.
pub fn pack_poll(answer: Result<Outlook, u8>) -> u64 {
    match answer {
        Ok(Outlook { next, within }) => {
            POLL_HAS_NEXT.put(next.is_some().into())
                | POLL_NEXT.put(next.unwrap_or(0) as u64)
                | POLL_WITHIN.put(within.into())
        }
        Err(number) => pack_refusal(number),
    }
}

/// An accepted poll's answer from its packed form.
pub fn unpack_poll(word: u64) -> Outlook {
    let next = (POLL_HAS_NEXT.get(word) == 1).then_some(POLL_NEXT.get(word) as i64);
    Outlook { next, within: POLL_WITHIN.get(word) as u16 }
}

/// The answer of a charge: whether the ledger got the bale, and its cents; or the number.
pub fn pack_charge(answer: Result<Option<u32>, u8>) -> u64 {
    match answer {
        Ok(None) => 0,
        Ok(Some(cents)) => CHARGE_ENTERED.put(1) | CHARGE_CENTS.put(cents.into()),
        Err(number) => pack_refusal(number),
    }
}

/// An accepted charge's answer from its packed form.
pub fn unpack_charge(word: u64) -> Option<u32> {
    (CHARGE_ENTERED.get(word) == 1).then_some(CHARGE_CENTS.get(word) as u32)
}

/// The answer of a total: its cents, or the number.
pub fn pack_total(answer: Result<u64, u8>) -> u64 {
    match answer {
        Ok(cents) => TOTAL_CENTS.put(cents),
        Err(number) => pack_refusal(number),
    }
}

/// The answer of a refused call of any function but these two.
pub fn pack_refusal(number: u8) -> u64 {
    NUMBER.put(number.into())
}

#[cfg(feature = "abi")]
pub mod library_in;

#[cfg(feature = "abi")]
pub mod library {
    //! The calls themselves.

    use crate::generate::{ChargeCase, TickCase, TotalCase, WordsCase, WriteCase};
    use crate::generate::{CompareCase, FreshCase, FreshLastCase, ListenCase, PollCase, ReadCase};
    use crate::generate::{LongCase, LongFreshCase, LongReadCase, LongWriteCase};
    use crate::generate::FiguresCase;
    use crate::{ClockState, LastClock, LongState, Setup};

    #[link(name = "yarngravel", kind = "static")]
    extern "C" {
        fn yarngravel_fresh(
            n: u32,
            epsilon: u32,
            delta: u32,
            modulus: u32,
            own: u32,
            clock: u32,
            state: *mut ClockState,
        ) -> u64;

        fn yarngravel_fresh_last(
            n: u32,
            epsilon: u32,
            delta: u32,
            modulus: u32,
            clock: u32,
            last: *mut LastClock,
        ) -> u64;

        fn yarngravel_tick(
            n: u32,
            epsilon: u32,
            delta: u32,
            modulus: u32,
            own: u32,
            clock: u32,
            state: *mut ClockState,
            holdback: *mut u8,
            holdback_len: usize,
            batch: *const u8,
            batch_len: usize,
            send: bool,
            payload: *const u8,
            payload_len: usize,
            outgoing: *mut u8,
            outgoing_len: usize,
            verdicts: *mut u8,
            verdicts_len: usize,
            delivery: *mut u8,
            delivery_len: usize,
        ) -> u64;

        fn yarngravel_read(
            n: u32,
            epsilon: u32,
            delta: u32,
            modulus: u32,
            own: u32,
            frame: *const u8,
            frame_len: usize,
            state: *mut ClockState,
        ) -> u64;

        fn yarngravel_write(
            n: u32,
            epsilon: u32,
            delta: u32,
            modulus: u32,
            own: u32,
            node: u32,
            state: *const ClockState,
            payload: *const u8,
            payload_len: usize,
            out: *mut u8,
            out_len: usize,
        ) -> u64;

        fn yarngravel_words(
            n: u32,
            epsilon: u32,
            delta: u32,
            modulus: u32,
            own: u32,
            batch: *const u8,
            batch_len: usize,
            verdicts: *const u8,
            verdicts_len: usize,
            text: *mut u8,
            text_len: usize,
        ) -> u64;

        fn yarngravel_compare(
            n: u32,
            epsilon: u32,
            delta: u32,
            modulus: u32,
            own: u32,
            clock: u32,
            first: *const u8,
            first_len: usize,
            second: *const u8,
            second_len: usize,
        ) -> u64;

        fn yarngravel_poll(
            n: u32,
            epsilon: u32,
            delta: u32,
            modulus: u32,
            own: u32,
            clock: u32,
            within: u16,
            holdback: *const u8,
            holdback_len: usize,
        ) -> u64;

        fn yarngravel_listen(
            n: u32,
            epsilon: u32,
            delta: u32,
            modulus: u32,
            clock: u32,
            last: *mut LastClock,
            holdback: *mut u8,
            holdback_len: usize,
            batch: *const u8,
            batch_len: usize,
            verdicts: *mut u8,
            verdicts_len: usize,
            delivery: *mut u8,
            delivery_len: usize,
        ) -> u64;

        fn yarngravel_charge(
            rate: u32,
            payload: *const u8,
            payload_len: usize,
            ledger: *mut u8,
            ledger_len: usize,
        ) -> u64;

        fn yarngravel_total(grower: u16, ledger: *const u8, ledger_len: usize) -> u64;

        fn yarngravel_figures(
            n: u32,
            batch: *const u8,
            batch_len: usize,
            verdicts: *const u8,
            verdicts_len: usize,
            figures: *mut u8,
            figures_len: usize,
        ) -> u64;

        fn yarngravel_long_fresh(
            n: u32,
            epsilon: u32,
            delta: u32,
            own: u32,
            clock: u64,
            state: *mut LongState,
        ) -> u64;

        fn yarngravel_long_tick(
            n: u32,
            epsilon: u32,
            delta: u32,
            own: u32,
            clock: u64,
            state: *mut LongState,
            holdback: *mut u8,
            holdback_len: usize,
            batch: *const u8,
            batch_len: usize,
            send: bool,
            payload: *const u8,
            payload_len: usize,
            outgoing: *mut u8,
            outgoing_len: usize,
            verdicts: *mut u8,
            verdicts_len: usize,
            delivery: *mut u8,
            delivery_len: usize,
        ) -> u64;

        fn yarngravel_long_read(
            n: u32,
            epsilon: u32,
            delta: u32,
            own: u32,
            frame: *const u8,
            frame_len: usize,
            state: *mut LongState,
        ) -> u64;

        fn yarngravel_long_write(
            n: u32,
            epsilon: u32,
            delta: u32,
            own: u32,
            node: u32,
            state: *const LongState,
            payload: *const u8,
            payload_len: usize,
            out: *mut u8,
            out_len: usize,
        ) -> u64;
    }

    /// A setup's numbers as the calls take them: n, ε, δ, B, own.
    pub fn numbers(setup: &Setup) -> [u32; 5] {
        let Setup { n, epsilon, delta, modulus, own } = *setup;
        [n, epsilon, delta, modulus, own].map(narrow)
    }

    /// A number as the calls take it.
    pub fn narrow(number: i64) -> u32 {
        u32::try_from(number).expect("a number that a call can take")
    }

    /// The start.
    pub fn fresh(case: &mut FreshCase) -> u64 {
        let [n, epsilon, delta, modulus, own] = numbers(&case.setup);
        let clock = narrow(case.clock);
        // SAFETY: as in `tick`.
        unsafe { yarngravel_fresh(n, epsilon, delta, modulus, own, clock, &mut case.state) }
    }

    /// An observer's start.
    pub fn fresh_last(case: &mut FreshLastCase) -> u64 {
        let [n, epsilon, delta, modulus, _] = numbers(&case.setup);
        let clock = narrow(case.clock);
        // SAFETY: as in `tick`.
        unsafe { yarngravel_fresh_last(n, epsilon, delta, modulus, clock, &mut case.last) }
    }

    /// The tick.
    pub fn tick(case: &mut TickCase) -> u64 {
        let [n, epsilon, delta, modulus, own] = numbers(&case.setup);
        // SAFETY: every pointer comes with the length of the slice it was taken from, and no
        // two slices overlap.
        unsafe {
            yarngravel_tick(
                n,
                epsilon,
                delta,
                modulus,
                own,
                narrow(case.clock),
                &mut case.state,
                case.holdback.as_mut_ptr(),
                case.holdback.len(),
                case.batch.as_ptr(),
                case.batch.len(),
                case.send,
                case.payload.as_ptr(),
                case.payload.len(),
                case.outgoing.as_mut_ptr(),
                case.outgoing.len(),
                case.verdicts.as_mut_ptr(),
                case.verdicts.len(),
                case.delivery.as_mut_ptr(),
                case.delivery.len(),
            )
        }
    }

    /// The reader.
    pub fn read(case: &mut ReadCase) -> u64 {
        let [n, epsilon, delta, modulus, own] = numbers(&case.setup);
        let (frame, length) = (case.frame.as_ptr(), case.frame.len());
        // SAFETY: as in `tick`.
        unsafe { yarngravel_read(n, epsilon, delta, modulus, own, frame, length, &mut case.state) }
    }

    /// The writer.
    pub fn write(case: &mut WriteCase) -> u64 {
        let [n, epsilon, delta, modulus, own] = numbers(&case.setup);
        // SAFETY: as in `tick`.
        unsafe {
            yarngravel_write(
                n,
                epsilon,
                delta,
                modulus,
                own,
                narrow(case.node),
                &case.state,
                case.payload.as_ptr(),
                case.payload.len(),
                case.out.as_mut_ptr(),
                case.out.len(),
            )
        }
    }

    /// The words.
    pub fn words(case: &mut WordsCase) -> u64 {
        let [n, epsilon, delta, modulus, own] = numbers(&case.setup);
        // SAFETY: as in `tick`.
        unsafe {
            yarngravel_words(
                n,
                epsilon,
                delta,
                modulus,
                own,
                case.batch.as_ptr(),
                case.batch.len(),
                case.verdicts.as_ptr(),
                case.verdicts.len(),
                case.text.as_mut_ptr(),
                case.text.len(),
            )
        }
    }

    /// The comparison.
    pub fn compare(case: &mut CompareCase) -> u64 {
        let [n, epsilon, delta, modulus, own] = numbers(&case.setup);
        // SAFETY: as in `tick`.
        unsafe {
            yarngravel_compare(
                n,
                epsilon,
                delta,
                modulus,
                own,
                narrow(case.clock),
                case.first.as_ptr(),
                case.first.len(),
                case.second.as_ptr(),
                case.second.len(),
            )
        }
    }

    /// The poll.
    pub fn poll(case: &mut PollCase) -> u64 {
        let [n, epsilon, delta, modulus, own] = numbers(&case.setup);
        let (clock, within) = (narrow(case.clock), case.within);
        let (holdback, length) = (case.holdback.as_ptr(), case.holdback.len());
        // SAFETY: as in `tick`.
        unsafe { yarngravel_poll(n, epsilon, delta, modulus, own, clock, within, holdback, length) }
    }

    /// An observer's call.
    pub fn listen(case: &mut ListenCase) -> u64 {
        let [n, epsilon, delta, modulus, _] = numbers(&case.setup);
        // SAFETY: as in `tick`.
        unsafe {
            yarngravel_listen(
                n,
                epsilon,
                delta,
                modulus,
                narrow(case.clock),
                &mut case.last,
                case.holdback.as_mut_ptr(),
                case.holdback.len(),
                case.batch.as_ptr(),
                case.batch.len(),
                case.verdicts.as_mut_ptr(),
                case.verdicts.len(),
                case.delivery.as_mut_ptr(),
                case.delivery.len(),
            )
        }
    }

    /// A charge.
    pub fn charge(case: &mut ChargeCase) -> u64 {
        let (payload, payload_len) = (case.payload.as_ptr(), case.payload.len());
        let (ledger, ledger_len) = (case.ledger.as_mut_ptr(), case.ledger.len());
        // SAFETY: as in `tick`.
        unsafe { yarngravel_charge(case.rate, payload, payload_len, ledger, ledger_len) }
    }

    /// A total.
    pub fn total(case: &mut TotalCase) -> u64 {
        // SAFETY: as in `tick`.
        unsafe { yarngravel_total(case.grower, case.ledger.as_ptr(), case.ledger.len()) }
    }

    /// The figures.
    pub fn figures(case: &mut FiguresCase) -> u64 {
        let n = narrow(case.n);
        // SAFETY: as in `tick`.
        unsafe {
            yarngravel_figures(
                n,
                case.batch.as_ptr(),
                case.batch.len(),
                case.verdicts.as_ptr(),
                case.verdicts.len(),
                case.figures.as_mut_ptr(),
                case.figures.len(),
            )
        }
    }

    /// An engine's start.
    pub fn long_fresh(case: &mut LongFreshCase) -> u64 {
        let [n, epsilon, delta, _, own] = numbers(&case.setup);
        // SAFETY: as in `tick`.
        unsafe { yarngravel_long_fresh(n, epsilon, delta, own, case.clock, &mut case.state) }
    }

    /// An engine's tick.
    pub fn long_tick(case: &mut LongCase) -> u64 {
        let [n, epsilon, delta, _, own] = numbers(&case.setup);
        // SAFETY: as in `tick`.
        unsafe {
            yarngravel_long_tick(
                n,
                epsilon,
                delta,
                own,
                case.clock,
                &mut case.state,
                case.holdback.as_mut_ptr(),
                case.holdback.len(),
                case.batch.as_ptr(),
                case.batch.len(),
                case.send,
                case.payload.as_ptr(),
                case.payload.len(),
                case.outgoing.as_mut_ptr(),
                case.outgoing.len(),
                case.verdicts.as_mut_ptr(),
                case.verdicts.len(),
                case.delivery.as_mut_ptr(),
                case.delivery.len(),
            )
        }
    }

    /// An engine's reader.
    pub fn long_read(case: &mut LongReadCase) -> u64 {
        let [n, epsilon, delta, _, own] = numbers(&case.setup);
        let (frame, length) = (case.frame.as_ptr(), case.frame.len());
        // SAFETY: as in `tick`.
        unsafe { yarngravel_long_read(n, epsilon, delta, own, frame, length, &mut case.state) }
    }

    /// An engine's writer.
    pub fn long_write(case: &mut LongWriteCase) -> u64 {
        let [n, epsilon, delta, _, own] = numbers(&case.setup);
        // SAFETY: as in `tick`.
        unsafe {
            yarngravel_long_write(
                n,
                epsilon,
                delta,
                own,
                narrow(case.node),
                &case.state,
                case.payload.as_ptr(),
                case.payload.len(),
                case.out.as_mut_ptr(),
                case.out.len(),
            )
        }
    }
}
