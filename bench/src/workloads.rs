//! The calls that are timed. Each workload has 256 of them: of a few the processor would learn which way their branches go.

use crate::programs::Case;
use crate::yard::{Change, Engines, Plan, Yard};
use oracle::board::{judge, Owner};
use oracle::generate::{
    frames, ledgers, ChargeCase, FiguresCase, ListenCase, LongCase, PollCase, Prng, TickCase, TotalCase,
};
use oracle::holdback::Holdback;
use oracle::{batch, Both, Setup, Timestamp};

/// Calls of each workload.
const CALLS: i64 = 256;
const LARGEST: Setup = Setup { n: 16, epsilon: 16, delta: 64, modulus: 65_535, own: 0 };
const TYPICAL: Setup = Setup { n: 4, epsilon: 2, delta: 8, modulus: 65_535, own: 0 };
/// Narrower limits than these, for a yard that goes to them.
const BELOW_LARGEST: Setup = Setup { epsilon: 15, delta: 60, ..LARGEST };
const BELOW_TYPICAL: Setup = Setup { epsilon: 1, ..TYPICAL };
const NUDGED: Setup = Setup { n: 6, epsilon: 4, delta: 12, modulus: 65_535, own: 0 };

pub struct Workload<C> {
    pub name: &'static str,
    pub cases: Vec<C>,
}

impl<C: Case> Workload<C> {
    /// The mean of the frames on the shelf, of the figures of those heard.
    pub fn frames(&self) -> f64 {
        self.cases.iter().map(|case| f64::from(case.frames())).sum::<f64>() / self.cases.len() as f64
    }
}

/// The six workloads of ticks.
pub fn all() -> Vec<Workload<TickCase>> {
    let [empty, largest, flood] = on_shelf(true);
    let idle = Workload { name: "idle tick", cases: idle() };
    let typical = Workload { name: "typical yard", cases: steady(TYPICAL, 16, TYPICAL.n).1 };
    let nudged = Workload { name: "nudged yard", cases: nudged().1 };
    vec![idle, typical, empty, largest, flood, nudged]
}

/// The same calls of engines, in those of these workloads in which no more than 64 messages are held.
pub fn engines() -> Vec<Workload<LongCase>> {
    let beside = |(before, cases): (Vec<TickCase>, Vec<TickCase>)| {
        let mut engines = Engines::fresh(before.first().unwrap_or(&cases[0]).setup);
        before.iter().for_each(|case| drop(engines.tick(case)));
        cases.iter().map(|case| engines.tick(case)).collect()
    };
    let idle = Workload { name: "idle tick", cases: beside((vec![], idle())) };
    let typical = Workload { name: "typical yard", cases: beside(steady(TYPICAL, 16, TYPICAL.n)) };
    vec![idle, typical, Workload { name: "nudged yard", cases: nudged_engines() }]
}

/// Ticks with both pairs, and the plain ones of the same yard beside them.
pub struct Beside {
    pub name: &'static str,
    pub both: Workload<TickCase<Both>>,
    pub plain: Workload<TickCase>,
}

/// A yard with both pairs, in its steady state long before V, where V lies amid the calls, and after V, and a setup whose pairs are
/// equal: typical, the largest, and on its shelf ticks that hear and send nothing. The plain ticks are those of the pair that holds,
/// across V the wider one.
pub fn beside() -> Vec<Beside> {
    const NAMES: [[&str; 4]; 3] = [
        ["typical, before", "typical, across", "typical, after", "typical, equal"],
        ["empty, before", "empty, across", "empty, after", "empty, equal"],
        ["largest, before", "largest, across", "largest, after", "largest, equal"],
    ];
    let typical = sides(BELOW_TYPICAL, TYPICAL, 16, TYPICAL.n);
    let largest = sides(BELOW_LARGEST, LARGEST, 32, LARGEST.n);
    let empty = largest.clone().map(|(both, plain)| (quiet(both), quiet(plain)));
    let yards = NAMES.into_iter().zip([typical, empty, largest]);
    let rows = yards.flat_map(|(names, sides)| names.into_iter().zip(sides));
    rows.map(|(name, (both, plain))| Beside {
        name,
        both: Workload { name, cases: both },
        plain: Workload { name, cases: plain },
    })
    .collect()
}

/// On the largest yard's shelf, where all of it or only half has been sending: ticks with both pairs across V that hear nothing, and that
/// hear everybody.
pub fn across(full: bool) -> [Workload<TickCase<Both>>; 2] {
    let senders = if full { LARGEST.n } else { LARGEST.n / 2 };
    let [_, (heard, _), ..] = sides(BELOW_LARGEST, LARGEST, 32, senders);
    [
        Workload { name: "both, empty", cases: quiet(heard.clone()) },
        Workload { name: "both, largest", cases: heard },
    ]
}

/// Calls with both pairs, and plain ones beside them.
type Sides = (Vec<TickCase<Both>>, Vec<TickCase>);

/// A yard's calls before V, across it and after it, and with equal pairs.
fn sides(old: Setup, wider: Setup, payload: usize, senders: i64) -> [Sides; 4] {
    let change = |clock| Change { old, wider, clock };
    let middle = before_steady(&old) + CALLS / old.n / 2;
    let both = |plan: Change| steady(plan, payload, senders).1;
    let [plain_old, plain] = [old, wider].map(|setup| steady(setup, payload, senders).1);
    let equal = steady(Change { old: wider, wider, clock: middle }, payload, senders).1;
    [
        (both(change(60_000)), plain_old),
        (both(change(middle)), plain.clone()),
        (both(change(0)), plain.clone()),
        (equal, plain),
    ]
}

/// The same calls where nothing is heard or sent.
fn quiet<S>(mut cases: Vec<TickCase<S>>) -> Vec<TickCase<S>> {
    for case in &mut cases {
        (case.batch, case.send) = (vec![0], false);
    }
    cases
}

/// Charges of new bales on ledgers that hold so many already, and totals of one of their growers.
pub fn charges(name: [&'static str; 2], held: u16) -> (Workload<ChargeCase>, Workload<TotalCase>) {
    let mut rng = Prng::new(7);
    let (mut charges, mut totals) = (Vec::new(), Vec::new());
    for _ in 0..CALLS {
        let ledger = ledgers::holding(&mut rng, held);
        let payload = ledgers::press(u32::MAX, rng.range(1, 1_000) as u16, 1);
        charges.push(ChargeCase { rate: 1_250, payload, ledger: ledger.clone() });
        totals.push(TotalCase { grower: 1, ledger });
    }
    (Workload { name: name[0], cases: charges }, Workload { name: name[1], cases: totals })
}

/// Calls of a yard in which nobody sends.
fn idle() -> Vec<TickCase> {
    Yard::fresh(TYPICAL, 16).run(CALLS / TYPICAL.n, 0)
}

/// Calls of a yard whose clocks are nudged: each steps by 2 to ε and has frames to hand out that were due before its clock. The calls
/// of all stations before the first of them and between them come with them.
fn nudged() -> (Vec<TickCase>, Vec<TickCase>) {
    let mut yard = Yard::nudged(NUDGED, 16);
    let mut all = yard.run(2 * (NUDGED.delta + 4 * NUDGED.epsilon), NUDGED.n);
    let later = yard.run(CALLS, NUDGED.n);
    let cases = later.iter().filter(|case| has_early(case)).take(CALLS as usize).cloned().collect();
    all.extend(later);
    (all, cases)
}

/// The same of engines.
fn nudged_engines() -> Vec<LongCase> {
    let (all, cases) = nudged();
    let mut engines = Engines::fresh(NUDGED);
    let made = all.into_iter().map(|case| (engines.tick(&case), case));
    made.filter(|(_, case)| cases.contains(case)).map(|(engine, _)| engine).collect()
}

/// Has a call's shelf frames that are due before its clock?
fn has_early(case: &TickCase) -> bool {
    let tables = Timestamp::of_state(&case.setup, &case.state);
    let step = tables.sound_step(&case.setup, case.clock).expect("sound tables");
    let shelf = Holdback::decode(&case.setup, case.clock, 1 - step, &case.holdback);
    !shelf.expect("a sound shelf").take_early(&case.setup).is_empty()
}

/// The largest yard, where all of it or only half has been sending: an empty tick, one that hears everybody, and a flood.
pub fn on_shelf(full: bool) -> [Workload<TickCase>; 3] {
    let (_, heard) = steady(LARGEST, 32, if full { LARGEST.n } else { LARGEST.n / 2 });
    let mut flood = heard.clone();
    let mut rng = Prng::new(2);
    for case in &mut flood {
        case.batch = batch::encode(&junk(&mut rng, case));
    }
    [
        Workload { name: "empty tick", cases: quiet(heard.clone()) },
        Workload { name: "largest yard", cases: heard },
        Workload { name: "flood", cases: flood },
    ]
}

/// Polls after the ticks before these, of the shelves that they left: for ε + δ ticks, and for the most that a poll can ask for, by
/// which every frame is due.
pub fn polls(ticks: &Workload<TickCase>) -> [Workload<PollCase>; 2] {
    let polls_for = |name, within: fn(&Setup) -> u16| {
        let poll = |case: &TickCase| PollCase {
            setup: case.setup,
            clock: Timestamp::of_state(&case.setup, &case.state).r,
            within: within(&case.setup),
            holdback: case.holdback.clone(),
        };
        Workload { name, cases: ticks.cases.iter().map(poll).collect() }
    };
    [
        polls_for("poll, ε + δ", |setup| (setup.epsilon + setup.delta) as u16),
        polls_for("poll, all", |_| u16::MAX),
    ]
}

/// An observer's calls on the shelves of these ticks, with what they hear.
pub fn observers(name: &'static str, ticks: &Workload<TickCase>) -> Workload<ListenCase> {
    Workload { name, cases: ticks.cases.iter().cloned().map(ListenCase::of).collect() }
}

/// The figures after these ticks, of any bytes: a call that only follows, and the one in 256 that counts afresh.
pub fn figures(ticks: &Workload<TickCase>) -> [Workload<FiguresCase>; 2] {
    let after = |name, position: fn(&mut Prng) -> u8| {
        let mut rng = Prng::new(4);
        let figures = |case: &TickCase| {
            let mut left = case.clone();
            left.run();
            let mut bytes = FiguresCase::start(&mut rng, false);
            bytes[0] = position(&mut rng);
            FiguresCase::after_tick(&left, bytes)
        };
        Workload { name, cases: ticks.cases.iter().map(figures).collect() }
    };
    [after("figures", |rng| rng.below(255) as u8), after("afresh", |_| 255)]
}

/// Calls of a yard's stations.
type Ticks<P> = Vec<TickCase<<P as Plan>::Setup>>;

/// Calls of a yard in its steady state, where only some send until shortly before the end and then all do; before them those by
/// which it came there.
fn steady<P: Plan>(plan: P, payload: usize, senders: i64) -> (Ticks<P>, Ticks<P>) {
    let (mut yard, setup) = (Yard::fresh(plan, payload), plan.first());
    let mut before = yard.run(before_steady(&setup) - 3, senders);
    before.extend(yard.run(3, setup.n));
    (before, yard.run(CALLS / setup.n, setup.n))
}

/// How many ticks a yard makes until it is in its steady state.
fn before_steady(setup: &Setup) -> i64 {
    2 * (setup.delta + 4 * setup.epsilon) + 3
}

/// 255 frames that are all refused: random bytes, damaged frames, late, early and forged ones, repeats.
fn junk(rng: &mut Prng, case: &TickCase) -> Vec<Vec<u8>> {
    let shelf =
        Holdback::decode(&case.setup, case.clock, 0, &case.holdback).expect("a sound shelf");
    let any = std::iter::repeat_with(|| frames::any(rng, &case.setup, case.clock));
    let is_refused =
        |frame: &[u8]| judge(&case.setup, case.clock, Owner::Node, &shelf, frame).is_err();
    any.filter(|frame| is_refused(frame)).take(255).collect()
}
