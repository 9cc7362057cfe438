//! Calls of the figures (02, 2.13): after accepted calls, and with wrong arguments.

use super::{spoil, ListenCase, Prng, TickCase};
use crate::figures::FIGURES;

/// A call of the figures.
#[derive(Clone, Debug, PartialEq, Eq)]
pub struct FiguresCase {
    pub n: i64,
    pub batch: Vec<u8>,
    pub verdicts: Vec<u8>,
    pub figures: Vec<u8>,
}

impl FiguresCase {
    /// After an accepted tick, which left this.
    pub fn after_tick(left: &TickCase, figures: Vec<u8>) -> Self {
        let (batch, verdicts) = (left.batch.clone(), left.verdicts.clone());
        FiguresCase { n: left.setup.n, batch, verdicts, figures }
    }

    /// After an accepted call of an observer.
    pub fn after_listen(left: &ListenCase, figures: Vec<u8>) -> Self {
        let (batch, verdicts) = (left.batch.clone(), left.verdicts.clone());
        FiguresCase { n: left.setup.n, batch, verdicts, figures }
    }

    /// Figures to begin with: empty, or any bytes.
    pub fn start(rng: &mut Prng, empty: bool) -> Vec<u8> {
        if empty {
            vec![0; FIGURES]
        } else {
            rng.bytes(FIGURES)
        }
    }

    /// The same with an argument changed: another n, figures or a batch that mostly are wrong, verdicts that
    /// are too few, not these frames', or none.
    pub fn spoil(mut self, rng: &mut Prng) -> Self {
        let count = usize::from(self.batch[0]);
        let any = rng.range(0, 17);
        match rng.below(8) {
            0 => self.n = rng.pick(&[0, 1, 16, 17, any, 65_536 + 4, u32::MAX.into()]),
            1 => self.figures.resize(FIGURES - 1 + 2 * rng.place(2), 0),
            2 => {
                self.n = rng.pick(&[0, self.n]);
                self.figures.truncate(rng.place(FIGURES));
                self.batch.push(0);
            }
            3 => spoil::spoil_batch(rng, &mut self.batch),
            4 => spoil::shorten(rng, &mut self.verdicts, count),
            5 => {
                let at = rng.place(count.min(self.verdicts.len() - 1) + 1);
                self.verdicts[at] = rng.pick(&[1, 6, 9, 17, 18, 255]);
            }
            _ => {
                let numbers = [0, 10, 11, 12, 13, 14, 15, 16];
                self.verdicts.iter_mut().for_each(|number| *number = rng.pick(&numbers));
            }
        }
        self
    }
}
