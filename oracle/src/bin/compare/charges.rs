//! What charges and totals meet (02, 2.11), as numbers for the coverage, and their calls.

use crate::run::{Case, Comparison};
use crate::subject::Subject;
use oracle::abi;
use oracle::generate::{ledgers, ChargeCase, Prng, TotalCase};
use oracle::ledger::{count, CAPACITY, LENGTH};

impl Case for ChargeCase {
    const NAME: &str = "charge";

    fn call(&mut self, subject: &mut dyn Subject) -> u64 {
        subject.charge(self)
    }

    fn numbers(&self) -> String {
        format!("charge: rate {}", self.rate)
    }

    fn buffers(&self) -> Vec<(&'static str, &[u8])> {
        vec![("ticket", &self.payload), ("ledger", &self.ledger)]
    }
}

impl Case for TotalCase {
    const NAME: &str = "total";

    fn call(&mut self, subject: &mut dyn Subject) -> u64 {
        subject.total(self)
    }

    fn numbers(&self) -> String {
        format!("total: grower {}", self.grower)
    }

    fn buffers(&self) -> Vec<(&'static str, &[u8])> {
        vec![("ledger", &self.ledger)]
    }
}

impl Comparison<'_> {
    /// Charges days of tickets on ledgers until at least this many calls more are made.
    pub fn run_charges(&mut self, rng: &mut Prng, calls: u64) -> Result<(), String> {
        let before = self.calls;
        while self.calls - before < calls {
            let (mut ledger, rate) = (ledgers::ledger(rng), ledgers::rate(rng));
            for _ in 0..rng.range(1, 40) {
                let given = ChargeCase::next(rng, rate, &ledger);
                let (left, word) = self.case(given.clone())?;
                for (what, kind) in kinds_of(&given, word) {
                    self.coverage.meet(what, kind);
                }
                if left.ledger.len() == LENGTH {
                    ledger = left.ledger;
                }
                if rng.one_in(4) {
                    let (_, word) = self.case(TotalCase::random(rng, &ledger))?;
                    self.coverage.meet("total", abi::number(word));
                    self.coverage.meet("total above 0", u8::from(word >> 8 > 0));
                }
            }
            self.charge_calls = self.calls - before;
        }
        Ok(())
    }
}

/// What a charge met: its number; of an accepted one 0 where a ticket of fewer than two bytes passes, 1
/// another kind, 2 a charge of 0, 3 any other, 4 one of half a cent more; and of a ledger of the right
/// length how many it held: 0 none, 1 some, 2 one less than there may be, 3 as many, 4 more by its count.
fn kinds_of(given: &ChargeCase, word: u64) -> Vec<(&'static str, u8)> {
    let number = abi::number(word);
    let mut kinds = vec![("charge", number)];
    if number == 0 {
        kinds.push(("charge made", made_of(given, word)));
    }
    if given.ledger.len() == LENGTH {
        kinds.push(("charge held", held_of(&given.ledger)));
    }
    kinds
}

fn made_of(given: &ChargeCase, word: u64) -> u8 {
    match abi::unpack_charge(word) {
        None => u8::from(given.payload.len() >= 2),
        Some(0) => 2,
        Some(_) => {
            let pounds = u32::from(given.payload[6]) + 256 * u32::from(given.payload[7]);
            3 + u8::from(pounds * given.rate % 100 == 50)
        }
    }
}

fn held_of(ledger: &[u8]) -> u8 {
    let above = usize::from(ledger[0]) + 256 * usize::from(ledger[1]) > CAPACITY;
    match count(ledger) {
        0 => 0,
        CAPACITY => 3 + u8::from(above),
        held => 1 + u8::from(held + 1 == CAPACITY),
    }
}
