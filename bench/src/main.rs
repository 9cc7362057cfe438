//! Times the tick, an observer's call and the poll: the proved library, the oracle and a twin tuned by
//! hand, on the same calls in one run; the tick with both pairs of limits beside the plain one; the tick of an engine with long clocks
//! beside its station's; charges and totals; and the figures. First all must agree on every call, byte for byte, and on random ones.

mod agreement;
mod programs;
mod timing;
mod twin;
mod workloads;
mod yard;

use oracle::generate::{FiguresCase, LongCase};
use programs::{Case, Each};
use workloads::{Beside, Workload};

/// How many random calls the programs must agree on.
const RANDOM: usize = 20_000;

fn main() {
    let table = workloads::all();
    let shelves = [workloads::on_shelf(false), workloads::on_shelf(true)];
    for case in table.iter().chain(shelves.iter().flatten()).flat_map(|workload| &workload.cases) {
        let (answer, _) = agreement::agree(case);
        assert!(answer & 0xffff == 0, "a workload's call is refused or mends");
    }
    // The empty tick's shelves, as the ticks before left them.
    let polls = [workloads::polls(&shelves[0][0]), workloads::polls(&shelves[1][0])];
    for case in polls.iter().flatten().flat_map(|workload| &workload.cases) {
        let (answer, _) = agreement::agree(case);
        assert!(answer & 0xffff == 0x100, "a workload's poll is refused or finds nothing");
    }
    // An observer in place of the station of the empty tick and of the largest yard's.
    let observers = [("quiet observer", 0), ("observer", 1)]
        .map(|(name, tick)| workloads::observers(name, &shelves[1][tick]));
    for case in observers.iter().flat_map(|workload| &workload.cases) {
        let (answer, _) = agreement::agree(case);
        assert!(answer & 0xffff == 0, "an observer's call is refused or mends");
    }
    // Both pairs before V, across it and after it, and the plain ticks beside them.
    let beside = workloads::beside();
    let across = [workloads::across(false), workloads::across(true)];
    let with_both = beside.iter().map(|row| &row.both).chain(across.iter().flatten());
    for case in with_both.flat_map(|workload| &workload.cases) {
        let (answer, _) = agreement::agree(case);
        assert!(answer & 0xffff == 0, "a call with both pairs is refused or mends");
    }
    // An engine beside each station where no more than 64 messages are held.
    let engines = workloads::engines();
    for case in engines.iter().flat_map(|workload| &workload.cases) {
        let (answer, _) = agreement::agree(case);
        assert!(answer & 0xffff == 0, "an engine's call is refused or mends");
    }
    // Charges and totals on a ledger with room for one bale more, and on one half as full.
    let half = workloads::charges(["charge", "total"], 256);
    let full = workloads::charges(["charge", "total"], 511);
    for case in half.0.cases.iter().chain(&full.0.cases) {
        let (answer, _) = agreement::agree(case);
        assert!(answer & 0xffff == 0x100, "a workload's ticket is not charged");
    }
    half.1.cases.iter().chain(&full.1.cases).for_each(|case| drop(agreement::agree(case)));
    // The figures after the largest yard's ticks.
    let figures = workloads::figures(&shelves[1][1]);
    for case in figures.iter().flat_map(|workload| &workload.cases) {
        let (answer, _) = agreement::agree(case);
        assert!(answer == 0, "a call of the figures is refused");
    }
    agreement::agree_on_random(RANDOM);
    println!("all agree on the workloads' calls and on {RANDOM} random ones\n");
    let mut rows: Vec<Row> = table.iter().map(Row::of).collect();
    rows.extend(polls[1].iter().map(Row::of));
    rows.extend(observers.iter().map(Row::of));
    print_table(&rows);
    print_observers(&rows);
    print_beside(&beside);
    print_engines(&rows, &engines);
    println!("\nledger          bales    proved    oracle   proved/oracle    to half the bales");
    print_ledger(&half.0, &full.0);
    print_ledger(&half.1, &full.1);
    print_figures(&figures);
    println!("\ngrowth              frames    proved    oracle      twin");
    shelves[0].iter().zip(&shelves[1]).for_each(|(half, full)| print_growth(half, full));
    polls[0].iter().zip(&polls[1]).for_each(|(half, full)| print_growth(half, full));
    across[0].iter().zip(&across[1]).for_each(|(half, full)| print_growth(half, full));
}

/// A workload's times.
struct Row {
    name: &'static str,
    frames: f64,
    times: Each,
}

impl Row {
    fn of<C: Case>(workload: &Workload<C>) -> Self {
        let [times] = timing::measure([workload]);
        Row { name: workload.name, frames: workload.frames(), times }
    }
}

fn print_table(rows: &[Row]) {
    println!("ns a call      frames    proved    oracle      twin   proved/twin   proved/oracle");
    for Row { name, frames, times } in rows {
        let [proved, oracle, twin] = [0, 1, 2].map(|i: usize| times[i]);
        print!("{name:<14}{frames:>7.0}{proved:>10.0}{oracle:>10.0}{twin:>10.0}");
        println!("{:>14.2}{:>16.2}", proved / twin, proved / oracle);
    }
}

/// An observer's call as a ratio to the tick on the same shelf with the same bundle.
fn print_observers(rows: &[Row]) {
    println!("\nto the tick              proved    oracle      twin");
    for (observer, tick) in [("quiet observer", "empty tick"), ("observer", "largest yard")] {
        let (observers, ticks) = (times_of(rows, observer), times_of(rows, tick));
        let [proved, oracle, twin] = [0, 1, 2].map(|i: usize| observers[i] / ticks[i]);
        println!("{observer:<21}{proved:>10.2}{oracle:>10.2}{twin:>10.2}");
    }
}

/// The times of a workload.
fn times_of<'r>(rows: &'r [Row], name: &str) -> &'r Each {
    &rows.iter().find(|row| row.name == name).expect("a workload").times
}

/// A tick with both pairs as a ratio to the plain one of the same yard.
fn print_beside(beside: &[Beside]) {
    println!("\nboth pairs       frames    proved    oracle   proved/oracle   proved/plain");
    for Beside { name, both, plain } in beside {
        let ([times], [plain]) = (timing::measure([both]), timing::measure([plain]));
        let (proved, oracle) = (times[0], times[1]);
        print!("{name:<16}{:>7.0}{proved:>10.0}{oracle:>10.0}", both.frames());
        println!("{:>16.2}{:>15.2}", proved / oracle, proved / plain[0]);
    }
}

/// An engine's tick beside its station's in the same yard.
fn print_engines(rows: &[Row], engines: &[Workload<LongCase>]) {
    println!("\nengine         frames    proved    oracle   proved/oracle   proved/station's");
    for Row { name, frames, times } in engines.iter().map(Row::of) {
        let (proved, oracle, station) = (times[0], times[1], times_of(rows, name)[0]);
        print!("{name:<14}{frames:>7.0}{proved:>10.0}{oracle:>10.0}");
        println!("{:>16.2}{:>19.2}", proved / oracle, proved / station);
    }
}

/// A call on a ledger, and how much longer it takes where that holds twice the bales.
fn print_ledger<C: Case>(half: &Workload<C>, full: &Workload<C>) {
    let [before, after] = timing::measure([half, full]);
    let (proved, oracle) = (after[0], after[1]);
    print!("{:<14}{:>7.0}{proved:>10.0}{oracle:>10.0}", full.name, full.frames());
    println!("{:>16.2}{:>21.2}", proved / oracle, proved / before[0]);
}

/// The figures after a tick, and where they are counted afresh.
fn print_figures(figures: &[Workload<FiguresCase>]) {
    println!("\nfigures         heard    proved    oracle   proved/oracle");
    for Row { name, frames, times } in figures.iter().map(Row::of) {
        let (proved, oracle) = (times[0], times[1]);
        println!("{name:<14}{frames:>7.0}{proved:>10.0}{oracle:>10.0}{:>16.2}", proved / oracle);
    }
}

/// How much longer a call takes where the shelf has twice the frames or a little more.
fn print_growth<C: Case>(half: &Workload<C>, full: &Workload<C>) {
    let [before, after] = timing::measure([half, full]);
    let frames = full.frames() / half.frames();
    print!("{:<15}{frames:>11.2}", full.name);
    after.iter().zip(before).for_each(|(after, before)| print!("{:>10.2}", after / before));
    println!();
}
