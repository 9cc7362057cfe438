//! The programs, called alike: each gets the same case, and its answer is packed as the library's.

use crate::twin;
use oracle::abi::{self, library, library_in};
use oracle::generate::{
    ChargeCase, FiguresCase, ListenCase, LongCase, PollCase, TickCase, TotalCase,
};
use oracle::Both;

/// Makes a call and answers its packed answer.
pub type Program<C> = fn(&mut C) -> u64;

/// A number for each program.
pub type Each = Vec<f64>;

/// A call that is timed.
pub trait Case: Clone + PartialEq + 'static {
    /// The proved library, the oracle, the twin. A tick with both pairs, an engine, a charge, a total and the figures have no twin.
    const PROGRAMS: &'static [Program<Self>];

    /// What is kept between calls: the shelf, or the figures.
    fn shelf(&self) -> &[u8];

    /// The frames on the shelf.
    fn frames(&self) -> u16 {
        u16::from_le_bytes([self.shelf()[0], self.shelf()[1]])
    }

    /// Puts back what a call changes and a call reads.
    fn put_back(&mut self, given: &Self);
}

impl Case for TickCase {
    const PROGRAMS: &'static [Program<Self>] =
        &[library::tick, |case| abi::pack_tick(&case.run()), tick];

    fn shelf(&self) -> &[u8] {
        &self.holdback
    }

    fn put_back(&mut self, given: &Self) {
        self.state = given.state;
        self.holdback.copy_from_slice(&given.holdback);
    }
}

impl Case for TickCase<Both> {
    const PROGRAMS: &'static [Program<Self>] =
        &[library_in::tick, |case| abi::pack_tick(&case.run())];

    fn shelf(&self) -> &[u8] {
        &self.holdback
    }

    fn put_back(&mut self, given: &Self) {
        self.state = given.state;
        self.holdback.copy_from_slice(&given.holdback);
    }
}

impl Case for PollCase {
    const PROGRAMS: &'static [Program<Self>] =
        &[library::poll, |case| abi::pack_poll(case.run()), poll];

    fn shelf(&self) -> &[u8] {
        &self.holdback
    }

    /// A poll changes nothing. The shelf is written anew all the same: each program then finds it where the one before did, and the first
    /// does not fetch it for the others.
    fn put_back(&mut self, given: &Self) {
        self.holdback.copy_from_slice(&given.holdback);
    }
}

impl Case for ListenCase {
    const PROGRAMS: &'static [Program<Self>] =
        &[library::listen, |case| abi::pack_tick(&case.run()), listen];

    fn shelf(&self) -> &[u8] {
        &self.holdback
    }

    fn put_back(&mut self, given: &Self) {
        self.last = given.last;
        self.holdback.copy_from_slice(&given.holdback);
    }
}

impl Case for LongCase {
    const PROGRAMS: &'static [Program<Self>] =
        &[library::long_tick, |case| abi::pack_tick(&case.run())];

    fn shelf(&self) -> &[u8] {
        &self.holdback
    }

    fn put_back(&mut self, given: &Self) {
        self.state = given.state;
        self.holdback.copy_from_slice(&given.holdback);
    }
}

/// The ledger stands for the shelf, its bales for frames.
impl Case for ChargeCase {
    const PROGRAMS: &'static [Program<Self>] =
        &[library::charge, |case| abi::pack_charge(case.run())];

    fn shelf(&self) -> &[u8] {
        &self.ledger
    }

    fn put_back(&mut self, given: &Self) {
        self.ledger.copy_from_slice(&given.ledger);
    }
}

impl Case for TotalCase {
    const PROGRAMS: &'static [Program<Self>] =
        &[library::total, |case| abi::pack_total(case.run())];

    fn shelf(&self) -> &[u8] {
        &self.ledger
    }

    fn put_back(&mut self, given: &Self) {
        self.ledger.copy_from_slice(&given.ledger);
    }
}

impl Case for FiguresCase {
    const PROGRAMS: &'static [Program<Self>] = &[library::figures, figures];

    fn shelf(&self) -> &[u8] {
        &self.figures
    }

    /// The frames of the batch.
    fn frames(&self) -> u16 {
        self.batch[0].into()
    }

    fn put_back(&mut self, given: &Self) {
        self.figures.copy_from_slice(&given.figures);
    }
}

/// The oracle's figures.
fn figures(case: &mut FiguresCase) -> u64 {
    match oracle::figures(case.n, &case.batch, &case.verdicts, &mut case.figures) {
        Ok(()) => 0,
        Err(number) => abi::pack_refusal(number),
    }
}

/// The twin's tick.
fn tick(case: &mut TickCase) -> u64 {
    twin::tick(&mut twin::Call {
        setup: library::numbers(&case.setup),
        clock: library::narrow(case.clock),
        tables: &mut case.state,
        board: twin::Board {
            holdback: &mut case.holdback,
            batch: &case.batch,
            verdicts: &mut case.verdicts,
            delivery: &mut case.delivery,
        },
        send: case.send,
        payload: &case.payload,
        outgoing: &mut case.outgoing,
    })
}

/// The twin's poll.
fn poll(case: &mut PollCase) -> u64 {
    twin::poll(&twin::Poll {
        setup: library::numbers(&case.setup),
        clock: library::narrow(case.clock),
        within: case.within,
        holdback: &case.holdback,
    })
}

/// The twin's observer.
fn listen(case: &mut ListenCase) -> u64 {
    let [n, epsilon, delta, modulus, _] = library::numbers(&case.setup);
    twin::listen(&mut twin::Listening {
        setup: [n, epsilon, delta, modulus],
        clock: library::narrow(case.clock),
        last: &mut case.last,
        board: twin::Board {
            holdback: &mut case.holdback,
            batch: &case.batch,
            verdicts: &mut case.verdicts,
            delivery: &mut case.delivery,
        },
    })
}
