//! Charges and totals (02, 2.11): days of tickets on one ledger, from empty ones and from any bytes.

use super::Prng;
use crate::ledger::{bales, CAPACITY, LENGTH, MOST_RATE, PRESS};

/// One ticket charged.
#[derive(Clone, Debug, PartialEq, Eq)]
pub struct ChargeCase {
    pub rate: u32,
    pub payload: Vec<u8>,
    pub ledger: Vec<u8>,
}

/// A grower's total.
#[derive(Clone, Debug, PartialEq, Eq)]
pub struct TotalCase {
    pub grower: u16,
    pub ledger: Vec<u8>,
}

/// A ledger to start a day with: empty, with zeros or any bytes behind the count; with some bales, nearly
/// full or full; a count above 512; or any bytes.
pub fn ledger(rng: &mut Prng) -> Vec<u8> {
    let mut ledger = match rng.one_in(3) {
        true => rng.bytes(LENGTH),
        false => vec![0; LENGTH],
    };
    let full = CAPACITY as i64;
    let (some, high) = (rng.below(full), rng.range(full + 1, 65_535));
    let count = rng.pick(&[0, 0, some, full - 1, full - 2, full, full + 1, high]);
    if !rng.one_in(8) {
        ledger[..2].copy_from_slice(&(count as u16).to_le_bytes());
    }
    if rng.one_in(2) {
        // Bales and growers of which tickets tell too.
        for entry in ledger[2..].chunks_mut(10) {
            let (bale, grower) = (bale(rng), grower(rng));
            entry[..4].copy_from_slice(&bale.to_le_bytes());
            entry[4..6].copy_from_slice(&grower.to_le_bytes());
        }
    }
    ledger
}

/// A ledger that holds so many bales, no two alike, of several growers.
pub fn holding(rng: &mut Prng, count: u16) -> Vec<u8> {
    let mut ledger = rng.bytes(LENGTH);
    ledger[..2].copy_from_slice(&count.to_le_bytes());
    for (bale, entry) in ledger[2..].chunks_mut(10).enumerate() {
        entry[..4].copy_from_slice(&(bale as u32).to_le_bytes());
        entry[4..6].copy_from_slice(&grower(rng).to_le_bytes());
    }
    ledger
}

/// A press ticket.
pub fn press(bale: u32, pounds: u16, grower: u16) -> Vec<u8> {
    let mut payload = vec![9, PRESS];
    payload.extend(bale.to_le_bytes());
    payload.extend(pounds.to_le_bytes());
    payload.extend(grower.to_le_bytes());
    payload
}

/// A rate: often one at which half cents come, and the limits.
pub fn rate(rng: &mut Prng) -> u32 {
    let any = rng.below(i64::from(MOST_RATE) + 1) as u32;
    rng.pick(&[0, 1, 50, 150, 1_250, MOST_RATE, any, any])
}

fn bale(rng: &mut Prng) -> u32 {
    let (few, any) = (rng.below(2_000) as u32, rng.bits() as u32);
    rng.pick(&[few, few.swap_bytes(), few, any])
}

fn grower(rng: &mut Prng) -> u16 {
    rng.pick(&[1, 2, 3, 257, 258, 65_535])
}

impl ChargeCase {
    /// The next ticket of a day: mostly a press ticket, and often of a bale that is held.
    pub fn next(rng: &mut Prng, rate: u32, ledger: &[u8]) -> Self {
        let held = bales(ledger);
        let bale = match rng.one_in(4) && !held.is_empty() {
            true => held[rng.place(held.len())].bale,
            false => bale(rng),
        };
        let any = rng.range(1, 1_000);
        let pounds = rng.pick(&[1, 487, 999, 1_000, any, any, any, any]) as u16;
        let payload = press(bale, pounds, grower(rng));
        let mut case = ChargeCase { rate, payload, ledger: ledger.to_vec() };
        if rng.one_in(3) {
            case.spoil(rng);
        }
        case
    }

    /// A ticket that is no press ticket or has not its form, or an argument that is wrong.
    fn spoil(&mut self, rng: &mut Prng) {
        match rng.below(10) {
            0 => self.payload = rng.payload(),
            1 => self.payload.truncate(rng.place(10)),
            2 => self.payload[1] = rng.pick(&[0, 1, 3, 9, 255]),
            3 => self.payload[0] = rng.pick(&[0, 8, 10, 255]),
            4 => {
                let more = 1 + rng.place(22);
                self.payload.extend(rng.bytes(more));
            }
            5 => {
                let pounds: u16 = rng.pick(&[0, 1_001, 1_002, 65_535, 256]);
                self.payload[6..8].copy_from_slice(&pounds.to_le_bytes());
            }
            6 => {
                let length = rng.pick(&[33, 34, 64, 255, 300]);
                self.payload = rng.bytes(length);
                if rng.one_in(2) {
                    self.payload[1] = PRESS;
                }
            }
            7 => self.rate = rng.pick(&[MOST_RATE + 1, 60_002, 65_536, u32::MAX]),
            8 => self.spoil_length(rng),
            _ => {
                self.rate = MOST_RATE + 1;
                self.spoil_length(rng);
            }
        }
    }

    fn spoil_length(&mut self, rng: &mut Prng) {
        let length = rng.pick(&[0, 1, 2, LENGTH - 1, LENGTH + 1, LENGTH + 10]);
        self.ledger.resize(length, 7);
    }

    /// Calls the oracle.
    pub fn run(&mut self) -> Result<Option<u32>, u8> {
        crate::ledger::charge(self.rate, &self.payload, &mut self.ledger)
    }
}

impl TotalCase {
    /// A grower's total, often of one that the ledger has; its length is now and then wrong.
    pub fn random(rng: &mut Prng, ledger: &[u8]) -> Self {
        let mut ledger = ledger.to_vec();
        if rng.one_in(8) {
            let length = rng.pick(&[0, 1, 2, LENGTH - 1, LENGTH + 1, LENGTH + 10]);
            ledger.resize(length, 7);
        }
        let any = rng.bits() as u16;
        let grower = rng.pick(&[1, 2, 3, 257, 258, 65_535, any]);
        TotalCase { grower, ledger }
    }

    /// Calls the oracle.
    pub fn run(&self) -> Result<u64, u8> {
        crate::ledger::total(self.grower, &self.ledger)
    }
}
