//! Runs of the figures (02, 2.13): a member of a group makes 1,000 calls, and after each both programs keep its figures. Besides that
//! they must agree, what they tell must be a fresh count over the last 256 calls: from empty figures on always, from any bytes after 256.

use crate::run::{Case, Comparison};
use crate::subject::Subject;
use oracle::abi;
use oracle::figures::{COLUMNS, TICKS};
use oracle::generate::{self, FiguresCase, Group, Habits, Prng, Turn};
use std::collections::VecDeque;

/// How many calls a run has.
const RUN: usize = 1_000;

impl Case for FiguresCase {
    const NAME: &str = "figures";

    fn call(&mut self, subject: &mut dyn Subject) -> u64 {
        subject.figures(self)
    }

    fn numbers(&self) -> String {
        format!("figures: n {}", self.n)
    }

    fn buffers(&self) -> Vec<(&'static str, &[u8])> {
        vec![("bundle", &self.batch), ("verdicts", &self.verdicts), ("figures", &self.figures)]
    }
}

/// The columns at which the frames of a judged batch count, worked out here once more.
fn columns(case: &FiguresCase) -> Vec<usize> {
    let mut at = 1;
    let mut columns = Vec::new();
    for &number in &case.verdicts[..case.batch[0].into()] {
        let (length, node) = (usize::from(case.batch[at]), case.batch.get(at + 2));
        let node = if length > 1 { i64::from(*node.expect("a byte")) } else { 0 };
        let mine = number != 10 && node < case.n;
        columns.push(if mine { 7 * node as usize + usize::from(number.max(10)) - 10 } else { 112 });
        at += 1 + length;
    }
    columns
}

/// A member's figures, and the columns of its last calls.
struct Kept {
    bytes: Vec<u8>,
    empty: bool,
    calls: usize,
    last: VecDeque<Vec<usize>>,
}

impl Kept {
    fn begin(rng: &mut Prng) -> Self {
        let empty = rng.one_in(2);
        let bytes = FiguresCase::start(rng, empty);
        Kept { bytes, empty, calls: 0, last: VecDeque::new() }
    }

    /// A call was accepted, and left this.
    fn keep(&mut self, left: FiguresCase) {
        self.last.push_back(columns(&left));
        if self.last.len() > TICKS {
            self.last.pop_front();
        }
        self.bytes = left.figures;
        self.calls += 1;
    }

    /// Do the totals tell of the last calls?
    fn check(&self) -> Result<(), String> {
        let mut counts = [0u16; COLUMNS];
        self.last.iter().flatten().for_each(|&column| counts[column] += 1);
        let wrong = (0..COLUMNS).find(|&column| {
            let two = &self.bytes[1 + 2 * column..];
            u16::from_le_bytes([two[0], two[1]]) != counts[column]
        });
        match wrong {
            Some(column) if self.empty || self.calls >= TICKS => {
                Err(format!("after {} calls the total at column {column} is not a fresh count", self.calls))
            }
            _ => Ok(()),
        }
    }
}

impl Comparison<'_> {
    /// Plays groups, and keeps the figures of one member of each, until at least this many calls of the figures are made.
    pub fn run_figures(&mut self, rng: &mut Prng, count: u64) -> Result<(), String> {
        let before = self.calls;
        while self.calls - before < count {
            let setup = generate::setup(rng);
            let habits = Habits { noise: !rng.one_in(4), dips: rng.one_in(2), nudges: rng.one_in(2), deafness: rng.range(1, 4) };
            let mut group = Group::fresh(rng, setup, habits);
            group.add_observer(rng, true);
            let member = if rng.one_in(3) { setup.n as usize } else { rng.below(setup.n) as usize };
            let mut kept = Kept::begin(rng);
            while kept.calls < RUN {
                self.figures_step(rng, &mut group, member, &mut kept)?;
            }
            self.coverage.meet("figures run", kept.empty.into());
            self.figures_calls = self.calls - before;
        }
        Ok(())
    }

    /// One call of the group; after the member's own its figures are kept.
    fn figures_step(&mut self, rng: &mut Prng, group: &mut Group, member: usize, kept: &mut Kept) -> Result<(), String> {
        let (who, judged) = match group.next_turn(rng) {
            (node, Turn::Node(mut case)) => {
                let answer = case.run();
                let judged = FiguresCase::after_tick(&case, Vec::new());
                group.settle(node, case, &answer);
                (node, (answer.number == 0).then_some(judged))
            }
            (observer, Turn::Observer(mut case)) => {
                let answer = case.run();
                let judged = FiguresCase::after_listen(&case, Vec::new());
                group.settle_observer(observer, case, &answer);
                (observer, (answer.number == 0).then_some(judged))
            }
        };
        match judged {
            Some(judged) if who == member => self.keep_figures(rng, judged, kept),
            _ => Ok(()),
        }
    }

    /// The call after an accepted one, and now and then one with wrong arguments before it, which is not kept.
    fn keep_figures(&mut self, rng: &mut Prng, judged: FiguresCase, kept: &mut Kept) -> Result<(), String> {
        let judged = FiguresCase { figures: kept.bytes.clone(), ..judged };
        if rng.one_in(8) {
            let (_, word) = self.case(judged.clone().spoil(rng))?;
            self.coverage.meet("figures", abi::number(word));
        }
        let (left, word) = self.case(judged)?;
        self.coverage.meet("figures", abi::number(word));
        for &number in &left.verdicts[..left.batch[0].into()] {
            self.coverage.meet("figures of", number);
        }
        kept.keep(left);
        kept.check()
    }
}
