//! Nanoseconds a call, the best of many rounds.

use crate::programs::{Case, Each, Program};
use crate::workloads::Workload;
use std::hint::black_box;
use std::time::Instant;

/// Rounds of a workload whose calls are timed together, and of one whose calls are timed each.
const ROUNDS: [usize; 2] = [600, 16];
/// Shelves up to this length are small: their calls are too short to be timed each.
const SMALL: usize = 8_192;

/// The best times so far of some calls that are timed together, for each program.
struct Part<'w, C> {
    cases: &'w [C],
    work: Vec<C>,
    best: Each,
}

impl<'w, C: Case> Part<'w, C> {
    fn new(cases: &'w [C]) -> Self {
        Part { cases, work: cases.to_vec(), best: vec![f64::MAX; C::PROGRAMS.len()] }
    }

    /// Times each program once. The first one is another in each round: it fetches what is not put back, the batch above all, and the
    /// others find it.
    fn round(&mut self, number: usize) {
        let programs = C::PROGRAMS.len();
        for i in (number..number + programs).map(|i| i % programs) {
            let taken = time(C::PROGRAMS[i], self.cases, &mut self.work);
            self.best[i] = self.best[i].min(taken);
        }
    }
}

/// For each workload and program the time of a call: the mean of the calls' best rounds. The
/// programs take turns, in who is first too, and so do the workloads.
pub fn measure<C: Case, const W: usize>(workloads: [&Workload<C>; W]) -> [Each; W] {
    let small = workloads[0].cases[0].shelf().len() <= SMALL;
    let size = if small { workloads[0].cases.len() } else { 1 };
    let mut parts = workloads
        .map(|workload| -> Vec<_> { workload.cases.chunks(size).map(Part::new).collect() });
    for number in 0..ROUNDS[usize::from(!small)] {
        parts.iter_mut().flatten().for_each(|part| part.round(number));
    }
    let timer = (0..1_000).map(|_| time::<C>(|_| 0, &[], &mut [])).fold(f64::MAX, f64::min);
    parts.map(|parts| {
        let calls = (parts.len() * size) as f64;
        let mean = |i| parts.iter().map(|part: &Part<C>| part.best[i] - timer).sum::<f64>() / calls;
        (0..C::PROGRAMS.len()).map(mean).collect()
    })
}

/// The time of one program for some calls. Before it their tables and shelves are put back; that
/// is not timed.
fn time<C: Case>(program: Program<C>, cases: &[C], work: &mut [C]) -> f64 {
    for (case, work) in cases.iter().zip(work.iter_mut()) {
        work.put_back(case);
    }
    let start = Instant::now();
    for work in work {
        black_box(program(black_box(work)));
    }
    start.elapsed().as_nanos() as f64
}
