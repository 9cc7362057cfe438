//! A yard in its steady state: its stations tick in turn, at clocks spread over the drift limit; every sender sends at each tick,
//! and everybody hears each frame one to three ticks later. Its ticks step by one, or all clocks are nudged: then those of a round
//! step by 2 to ε. Its limits stay, or get wider at a clock (02, 2.10).

use oracle::generate::{LongCase, Prng, TickCase};
use oracle::long::{fresh_tables, holdback_len};
use oracle::timestamp::fresh;
use oracle::{batch, Both, ClockState, LongState, Pairs, Settings, Setup};

/// Which setup the calls of a yard have.
pub trait Plan: Copy {
    type Setup: Settings;

    /// The setup of a station's call for a clock.
    fn setup(&self, own: i64, clock: i64) -> Self::Setup;

    /// The limits that hold from the start.
    fn first(&self) -> Setup;
}

/// A plain setup, always.
impl Plan for Setup {
    type Setup = Setup;

    fn setup(&self, own: i64, _clock: i64) -> Setup {
        Setup { own, ..*self }
    }

    fn first(&self) -> Setup {
        *self
    }
}

/// Both pairs, marked from a clock on, which is below B.
#[derive(Clone, Copy)]
pub struct Change {
    pub old: Setup,
    pub wider: Setup,
    pub clock: i64,
}

impl Plan for Change {
    type Setup = Both;

    fn setup(&self, own: i64, clock: i64) -> Both {
        let Setup { epsilon: wider_epsilon, delta: wider_delta, .. } = self.wider;
        let (old, marked) = (Setup { own, ..self.old }, i64::from(clock >= self.clock));
        Both { old, wider_epsilon, wider_delta, change: self.clock, marked }
    }

    fn first(&self) -> Setup {
        self.old
    }
}

pub struct Yard<P: Plan = Setup> {
    plan: P,
    payload: usize,
    rng: Prng,
    nudged: bool,
    /// The clock of the slowest station.
    slowest: i64,
    stations: Vec<Station>,
}

struct Station {
    tables: ClockState,
    shelf: Vec<u8>,
    /// The frames to be heard in the next three ticks, the next ones first.
    coming: [Vec<Vec<u8>>; 3],
}

impl<P: Plan> Yard<P> {
    /// A yard of fresh stations that send tickets of this length.
    pub fn fresh(plan: P, payload: usize) -> Self {
        let first = plan.first();
        let station = |k| {
            let clock = lead(&first, k);
            let setup = plan.setup(k, clock);
            Station {
                tables: fresh(&setup.side(), clock),
                shelf: vec![0; setup.widest().holdback_len()],
                coming: Default::default(),
            }
        };
        let stations = (0..first.n).map(station).collect();
        Yard { plan, payload, rng: Prng::new(1), nudged: false, slowest: 0, stations }
    }

    /// The same, with nudged clocks. ε is at least 2, δ at least 3ε.
    pub fn nudged(plan: P, payload: usize) -> Self {
        Yard { nudged: true, ..Self::fresh(plan, payload) }
    }

    /// Lets all stations tick this often, the first `senders` of them sending; all their calls, as given.
    pub fn run(&mut self, rounds: i64, senders: i64) -> Vec<TickCase<P::Setup>> {
        let (mut cases, Setup { n, epsilon, .. }) = (Vec::new(), self.plan.first());
        for _ in 0..rounds {
            self.slowest += if self.nudged { self.rng.range(2, epsilon) } else { 1 };
            for k in 0..n {
                cases.push(self.tick(k, k < senders));
            }
        }
        cases
    }

    /// One tick of a station; the call as it was given.
    fn tick(&mut self, k: i64, send: bool) -> TickCase<P::Setup> {
        let clock = self.slowest + lead(&self.plan.first(), k);
        let setup = self.plan.setup(k, clock);
        let station = &mut self.stations[k as usize];
        station.coming.rotate_left(1);
        let heard = std::mem::take(&mut station.coming[2]);
        let shelf = station.shelf.clone();
        let mut case = TickCase::idle(&mut self.rng, setup, clock, station.tables, shelf);
        case.batch = batch::encode(&heard);
        case.send = send;
        case.payload = self.rng.bytes(self.payload);
        let given = case.clone();
        let answer = case.run();
        assert!(
            answer.number == 0 && answer.repair == 0 && usize::from(answer.taken) == heard.len()
        );
        (station.tables, station.shelf) = (case.state, case.holdback);
        if send {
            self.spread(&case.outgoing[..answer.outgoing.into()]);
        }
        given
    }

    /// Everybody will hear the frame.
    fn spread(&mut self, frame: &[u8]) {
        for station in &mut self.stations {
            let delay = self.rng.place(station.coming.len());
            station.coming[delay].push(frame.to_vec());
        }
    }
}

/// How far a station's clock is ahead of the slowest.
fn lead(setup: &Setup, k: i64) -> i64 {
    k * setup.epsilon / setup.n
}

/// An engine beside each station of a yard, whose clocks stay below B.
pub struct Engines {
    rng: Prng,
    memories: Vec<(LongState, Vec<u8>)>,
}

impl Engines {
    /// All fresh, beside a yard of fresh stations.
    pub fn fresh(setup: Setup) -> Self {
        let shelf = vec![0; holdback_len(&setup)];
        let memory = |k| (fresh_tables(&setup, lead(&setup, k) as u64), shelf.clone());
        Engines { rng: Prng::new(5), memories: (0..setup.n).map(memory).collect() }
    }

    /// The tick of an engine where its station makes this call; the call as it was given.
    pub fn tick(&mut self, station: &TickCase) -> LongCase {
        let (tables, shelf) = &mut self.memories[station.setup.own as usize];
        let clock = station.clock as u64;
        let mut case = LongCase::idle(&mut self.rng, station.setup, clock, *tables, shelf.clone());
        let heard = batch::entries(&station.batch).expect("an exact bundle");
        case.batch = batch::encode(&heard.into_iter().map(lengthened).collect::<Vec<_>>());
        (case.send, case.payload) = (station.send, station.payload.clone());
        let given = case.clone();
        let answer = case.run();
        assert!(answer.number == 0 && answer.repair == 0 && answer.taken == station.batch[0]);
        (*tables, *shelf) = (case.state, case.holdback);
        given
    }
}

/// A station's frame as an engine's.
fn lengthened(frame: &[u8]) -> Vec<u8> {
    [&[9, frame[1], frame[2], frame[3], 0, 0, 0, 0, 0, 0], &frame[4..]].concat()
}
