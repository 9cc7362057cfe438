//! 02's 2.13: how well the nodes hear each other.

use crate::fault::planted;
use crate::{ask, batch};

/// How many bytes the figures have: a position, the totals and the rows.
pub const FIGURES: usize = 1 + 2 * COLUMNS + COLUMNS * TICKS;
/// Seven figures for each of 16 nodes, and a line of its own.
pub const COLUMNS: usize = 7 * 16 + 1;
/// Of how many calls they tell.
pub const TICKS: usize = 256;

/// What one call adds in each column.
pub type Row = [u8; COLUMNS];

/// The figures as they stand in their bytes.
struct Figures {
    position: usize,
    totals: Vec<u16>,
    rows: Vec<Row>,
}

impl Figures {
    fn decode(bytes: &[u8]) -> Self {
        let (totals, rows) = bytes[1..FIGURES].split_at(2 * COLUMNS);
        let total = |two: &[u8]| u16::from_le_bytes([two[0], two[1]]);
        let row = |bytes: &[u8]| bytes.try_into().expect("a row's length");
        Figures {
            position: bytes[0].into(),
            totals: totals.chunks(2).map(total).collect(),
            rows: rows.chunks(COLUMNS).map(row).collect(),
        }
    }

    fn encode(&self) -> Vec<u8> {
        let total = |&total: &u16| match planted(161) {
            true => total.to_be_bytes(),
            false => total.to_le_bytes(),
        };
        let mut bytes = vec![self.position as u8];
        bytes.extend(self.totals.iter().flat_map(total));
        bytes.extend(self.rows.iter().flatten());
        bytes
    }

    /// The row at the position goes and another comes; the totals follow, and are counted afresh where the
    /// position is 0 again.
    fn take(&mut self, row: Row) {
        let gone = std::mem::replace(&mut self.rows[self.position], row);
        for (column, total) in self.totals.iter_mut().enumerate() {
            let off = if planted(153) { 0 } else { gone[column].into() };
            *total = total.wrapping_add(row[column].into()).wrapping_sub(off);
        }
        let ticks = if planted(150) { TICKS - 1 } else { TICKS };
        self.position = (self.position + 1) % ticks;
        if (self.position == 0 && !planted(157)) || planted(158) {
            self.totals = (0..COLUMNS).map(|column| self.rows.iter().map(|row| u16::from(row[column])).sum()).collect();
        }
        for (column, total) in self.totals.iter_mut().enumerate() {
            // a tick too few, or one too many, in what is told
            if planted(151) {
                *total = total.wrapping_sub(self.rows[self.position][column].into());
            }
            if planted(152) {
                *total = total.wrapping_add(gone[column].into());
            }
        }
    }
}

/// Where a judged frame is counted; none for a number that no judgement gives.
fn column(n: i64, entry: &[u8], number: u8) -> Option<usize> {
    let node = usize::from(entry.get(1).copied().unwrap_or(0));
    let figure = match number {
        0 if planted(160) => 1,
        0 => 0,
        10..=16 => usize::from(number) - 10,
        17 if planted(167) => 6,
        _ => return None,
    };
    let strange = match () {
        () if planted(155) && number == 11 => node > 15,
        () if planted(159) => node as i64 > n,
        () => node as i64 >= n,
    };
    let no_node = (number == 10 && !planted(154)) || strange;
    Some(if no_node { COLUMNS - 1 } else { (7 * node + figure).min(COLUMNS - 1) })
}

/// What a batch adds in each column, by its verdicts; none if one of these is no verdict.
fn row(n: i64, entries: &[&[u8]], verdicts: &[u8]) -> Option<Row> {
    let mut row = [0; COLUMNS];
    for (entry, &number) in entries.iter().zip(verdicts) {
        row[column(n, entry, number)?] += 1;
    }
    Some(row)
}

/// The call after an accepted tick or observer's call, with its batch and verdicts; the number of the
/// question that got a no, with nothing changed.
pub fn figures(n: i64, batch: &[u8], verdicts: &[u8], figures: &mut [u8]) -> Result<(), u8> {
    let length = match planted(163) {
        true => figures.len() >= FIGURES,
        false => figures.len() == FIGURES,
    };
    if planted(164) {
        ask(length, 3)?;
    }
    ask((1..=if planted(162) { 17 } else { 16 }).contains(&n), 1)?;
    if planted(165) {
        batch::entries(batch).ok_or(5)?;
    }
    ask(length, 3)?;
    let entries = batch::entries(batch).ok_or(5)?;
    ask(verdicts.len() >= entries.len(), 6)?;
    let row = match row(n, &entries, verdicts) {
        None if planted(156) => [0; COLUMNS],
        row => row.ok_or(6)?,
    };
    if planted(166) && entries.is_empty() {
        return Ok(());
    }
    let mut kept = Figures::decode(figures);
    kept.take(row);
    figures[..FIGURES].copy_from_slice(&kept.encode());
    ask(!planted(156) || verdicts[..entries.len()].iter().all(|number| matches!(number, 0 | 10..=16)), 6)
}
