//! Random calls and traces, good and bad, for comparing programs and for tests.

pub mod cases;
pub mod engines;
pub mod figures;
pub mod frames;
pub mod group;
pub mod ledgers;
pub mod long;
pub mod memory;
pub mod observers;
pub mod pairs;
pub mod polls;
pub mod prng;
pub mod season;
pub mod spoil;
pub mod traces;
pub mod wider;
pub mod yards;

pub use cases::{FreshCase, ReadCase, TickCase, WordsCase, WriteCase, WriteInCase};
pub use engines::{Beside, Pair};
pub use figures::FiguresCase;
pub use group::{Group, Habits, Turn};
pub use ledgers::{ChargeCase, TotalCase};
pub use long::{LongCase, LongFreshCase, LongReadCase, LongWriteCase};
pub use observers::{FreshLastCase, ListenCase};
pub use pairs::CompareCase;
pub use polls::PollCase;
pub use prng::Prng;
pub use season::{Act, Bounds, Season};

use crate::Setup;

/// A valid setup: often small, sometimes the smallest or the largest, B often at its least.
pub fn setup(rng: &mut Prng) -> Setup {
    let (n, epsilon, delta) = match rng.below(40) {
        0 => (16, 16, 64),
        1 => (rng.range(1, 16), rng.range(1, 16), rng.range(0, 64)),
        2..=5 => (1, 1, 0),
        6..=10 => (rng.range(1, 16), rng.range(1, 3), rng.range(0, 4)),
        _ => (rng.range(1, 4), rng.range(1, 4), rng.range(0, 6)),
    };
    let mut setup = Setup { n, epsilon, delta, modulus: 0, own: rng.below(n) };
    let least = setup.least_modulus();
    setup.modulus = match rng.below(8) {
        0..=3 => least,
        4..=5 => least + rng.range(1, 8),
        6 => rng.range(least, 65_535),
        _ => 65_535,
    };
    setup
}
