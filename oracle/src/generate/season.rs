//! Lists of calls of a group that goes through V (02, 2.10), nodes and observers, from damaged
//! memory or from a fresh start. Each list keeps the premises of the recovery statement, or those
//! with one bound moved. All clocks here are true clocks.

use super::{frames, memory, ListenCase, Prng, TickCase};
use crate::timestamp::fresh;
use crate::{batch, holdback, Answer, Both, ClockState, Frame, Limits, Schedule, Settings, Setup};

/// What setups a member's calls have.
#[derive(Clone, Copy, Debug, PartialEq, Eq, PartialOrd, Ord)]
pub enum Phase {
    /// The plain old one.
    Older,
    /// Both pairs.
    Both,
    /// The plain new one.
    Newer,
}

use Phase::{Newer, Older};

/// By how much each bound of the premises and of the statement is moved, always so that more lists
/// are allowed or more is promised. All 0: as they are.
#[derive(Clone, Copy, Debug, Default, PartialEq, Eq)]
pub struct Bounds {
    /// The take-up so many ticks later.
    pub take_up: i64,
    /// The plain new setup so many ticks sooner.
    pub plain_new: i64,
    /// And so many times ε′ − ε sooner.
    pub plain_new_gaps: i64,
    /// The freeze ends so many ticks sooner: for the take-up.
    pub freeze_take_up: i64,
    /// The same for the plain new setup.
    pub freeze: i64,
    /// Stale frames are heard so many ticks longer.
    pub stale: i64,
    /// Messages are covered from a clock so many ticks sooner.
    pub covered: i64,
    /// Calls with both pairs start so many ticks sooner than B before V.
    pub reach_before: i64,
    /// Calls with both pairs go on so many ticks longer than B − 1 past V.
    pub reach_past: i64,
    /// An observer's clock below V does not hold the drift down.
    pub unobserved_drift: bool,
    /// The new drift holds once one clock has passed V.
    pub early_drift: bool,
    /// A message sent before V may take the new delay.
    pub early_delay: bool,
    /// The delay is counted with the clocks before the call.
    pub delay_before: bool,
    /// 2.14: so many ticks less apart.
    pub apart: i64,
    /// 2.14: so many ticks sooner.
    pub soon: i64,
}

/// How one bound is moved by so many ticks; those without a number are let go.
pub type Move = (&'static str, fn(i64) -> Bounds);

/// The bounds that have a number.
pub const MOVES: [Move; 11] = [
    ("take-up later", |k| Bounds { take_up: k, ..Bounds::default() }),
    ("plain new sooner", |k| Bounds { plain_new: k, ..Bounds::default() }),
    ("plain new sooner by ε′ − ε and more", |k| Bounds {
        plain_new: k,
        plain_new_gaps: 1,
        ..Bounds::default()
    }),
    ("freeze of both to new sooner", |k| Bounds { freeze: k, ..Bounds::default() }),
    ("freeze of old to both sooner", |k| Bounds { freeze_take_up: k, ..Bounds::default() }),
    ("stale limit later", |k| Bounds { stale: k, ..Bounds::default() }),
    ("T sooner", |k| Bounds { covered: k, ..Bounds::default() }),
    ("v ≥ V − B sooner", |k| Bounds { reach_before: k, ..Bounds::default() }),
    ("v ≤ V + B − 1 later", |k| Bounds { reach_past: k, ..Bounds::default() }),
    ("2.14 less apart", |k| Bounds { apart: k, ..Bounds::default() }),
    ("2.14 sooner", |k| Bounds { soon: k, ..Bounds::default() }),
];

/// The premises that have none.
pub const LEFT_OUT: [Move; 4] = [
    ("drift without observers", |_| Bounds { unobserved_drift: true, ..Bounds::default() }),
    ("new drift once one passed V", |_| Bounds { early_drift: true, ..Bounds::default() }),
    ("new delay for old messages", |_| Bounds { early_delay: true, ..Bounds::default() }),
    ("delay before the call", |_| Bounds { delay_before: true, ..Bounds::default() }),
];

/// What the members are like.
#[derive(Clone, Copy, Debug)]
struct Habits {
    /// A member steps by more than one tick once in so many calls.
    nudges: i64,
    /// A member hears a message once in so many calls.
    deafness: i64,
    /// A member takes the next setup that it may once in so many calls, and when it must.
    delay: i64,
    /// A node sends once in so many calls.
    silence: i64,
    /// Which member moves: 0 any, 1 mostly the first, 2 mostly the last.
    pace: i64,
}

/// A node or an observer.
#[derive(Clone, Debug)]
pub struct Member {
    pub clock: i64,
    pub phase: Phase,
    /// Of an observer only r, its last clock.
    state: ClockState,
    holdback: Vec<u8>,
}

/// A frame that a node sent.
struct Sent {
    sender: usize,
    clock: i64,
    bytes: Vec<u8>,
}

/// A group on its way through V.
pub struct Season {
    /// The limits by true clocks.
    pub schedule: Schedule,
    /// The largest clock at the start.
    pub largest: i64,
    /// Is it from a fresh start? Otherwise all memory is damaged at the start.
    pub is_fresh: bool,
    pub bounds: Bounds,
    /// The nodes, then the observers.
    pub members: Vec<Member>,
    habits: Habits,
    sent: Vec<Sent>,
}

/// A call of a season that is not yet made, or was made.
#[derive(Clone)]
pub struct Act {
    pub member: usize,
    /// The clock before and after.
    pub last: i64,
    pub v: i64,
    pub phase: Phase,
    /// For each bundle entry the number of the message, none for a stale frame.
    pub sources: Vec<Option<usize>>,
    /// The call with both pairs; in another phase with the pair of that phase.
    pub case: TickCase<Both>,
    /// Is it a node's call, not an observer's?
    pub is_node: bool,
}

impl Act {
    /// The plain setup of the call; none where it has both pairs.
    pub fn plain(&self) -> Option<Setup> {
        match self.phase {
            Older => Some(self.case.setup.old),
            Phase::Both => None,
            Newer => Some(self.case.setup.wider()),
        }
    }

    /// Calls the oracle.
    pub fn run(&mut self) -> Answer {
        match self.plain() {
            Some(setup) => self.run_with(setup),
            None => self.run_with(self.case.setup),
        }
    }

    /// Makes the call with this setup.
    fn run_with<S: Settings>(&mut self, setup: S) -> Answer {
        let mut case = self.case.clone().with(setup);
        let answer = match self.is_node {
            true => case.run(),
            false => {
                let mut listening = ListenCase::of(case.clone());
                let answer = listening.run();
                case.state[..2].copy_from_slice(&listening.last);
                let ListenCase { holdback, verdicts, delivery, .. } = listening;
                case = TickCase { holdback, verdicts, delivery, ..case };
                answer
            }
        };
        self.case = case.with(self.case.setup);
        answer
    }

    /// The frames that the call handed out, each with its r, read near v, as a true clock.
    pub fn handed_out(&self) -> Vec<(Frame<'_>, i64)> {
        let own = self.plain().unwrap_or(self.case.setup.side());
        let mut rest = &self.case.delivery[2..];
        let mut frames = Vec::new();
        for _ in 0..holdback::count(&self.case.delivery) {
            let (frame, after) = Frame::split(&self.case.setup, rest).expect("a delivered frame");
            frames.push((frame, self.v + own.near(frame.timestamp.r, self.case.clock)));
            rest = after;
        }
        frames
    }
}

impl Season {
    /// A group somewhere before or after V, small, with up to two observers.
    pub fn start(rng: &mut Prng, bounds: Bounds, is_fresh: bool) -> Self {
        let both = small(rng);
        let schedule = Schedule { old: both.old, new: both.wider(), change: both.change };
        let habits = Habits {
            nudges: rng.range(1, 3),
            deafness: rng.range(1, 3),
            delay: rng.pick(&[1, 3, 1_000]),
            silence: rng.range(1, 2),
            pace: rng.below(3),
        };
        let mut season = Season {
            schedule,
            largest: 0,
            is_fresh,
            bounds,
            members: Vec::new(),
            habits,
            sent: Vec::new(),
        };
        let count = both.old.n + rng.below(3);
        let lowest = season.first_clock(rng);
        let passed = lowest >= schedule.change;
        let drift = if passed { schedule.new.epsilon } else { schedule.old.epsilon };
        let clocks: Vec<i64> = (0..count).map(|_| lowest + rng.range(0, drift)).collect();
        season.largest = clocks.iter().copied().max().expect("a member");
        season.members = clocks.iter().map(|&clock| season.member(rng, clock)).collect();
        for member in 0..season.members.len() {
            season.fill(rng, member);
        }
        season
    }

    /// A clock from which a list is of use: B before V, so long before V that the old setup is left
    /// after the freeze, shortly before the last take-up or before V, around the end of both pairs, or
    /// B past V.
    fn first_clock(&self, rng: &mut Prng) -> i64 {
        let Schedule { old, new, change } = self.schedule;
        let wide = new.delta + 3 * new.epsilon;
        let some = rng.range(0, 2 * wide);
        let close = rng.range(-6, 6);
        let little = rng.range(0, 2 * old.epsilon);
        rng.pick(&[
            change - old.modulus + close,
            change - old.delta - 2 * old.epsilon - 2 * new.delta - 4 * new.epsilon - 3 + close,
            change - old.delta - 2 * old.epsilon - some,
            change - old.delta - 2 * old.epsilon - little,
            change - some,
            change + close,
            change + new.delta - some,
            change + old.modulus - wide + close,
        ])
    }

    /// A member at this clock in a phase in which it may call.
    fn member(&self, rng: &mut Prng, clock: i64) -> Member {
        let Schedule { old, new, change } = self.schedule;
        let frozen = self.frozen(self.bounds.freeze_take_up);
        let is_old = frozen.max(clock) + old.delta + 2 * old.epsilon <= change;
        let is_new = clock >= change + new.delta + 2 * new.epsilon;
        let out = clock + 1 + old.modulus < change || clock + 1 >= change + old.modulus;
        let phase = match () {
            () if is_old && (out || rng.one_in(2)) => Older,
            () if is_new && (out || rng.one_in(2)) => Newer,
            () => Phase::Both,
        };
        Member { clock, phase, state: [0; 35], holdback: Vec::new() }
    }

    /// Fills a member's memory: fresh, or any.
    fn fill(&mut self, rng: &mut Prng, member: usize) {
        let Member { clock, phase, .. } = self.members[member];
        let modulus = self.schedule.old.modulus;
        let (state, holdback) = match phase {
            _ if self.is_fresh => {
                let own = self.schedule.of(clock);
                (fresh(own, clock % modulus), vec![0; self.sizes(phase).holdback_len()])
            }
            Older => damaged(rng, &self.schedule.old, (clock + 1) % modulus),
            Newer => damaged(rng, &self.schedule.new, (clock + 1) % modulus),
            Phase::Both => {
                let v = (clock + 1) % modulus;
                damaged(rng, &self.setup(member, clock + 1).at(v), v)
            }
        };
        (self.members[member].state, self.members[member].holdback) = (state, holdback);
    }

    /// The setup with both pairs for a call of a member.
    fn setup(&self, member: usize, v: i64) -> Both {
        let Schedule { old, new, change } = self.schedule;
        Both {
            old: Setup { own: member as i64, ..old },
            wider_epsilon: new.epsilon,
            wider_delta: new.delta,
            change: change % old.modulus,
            marked: i64::from(v >= change),
        }
    }

    /// The limits that sizes go by in a phase.
    fn sizes(&self, phase: Phase) -> &Setup {
        if phase == Older {
            &self.schedule.old
        } else {
            &self.schedule.new
        }
    }

    /// The last clock from which a member may go between a plain setup and both pairs: past
    /// X + 2δ′ + 3ε′; from a fresh start any.
    fn frozen(&self, sooner: i64) -> i64 {
        let Setup { epsilon, delta, .. } = self.schedule.new;
        match self.is_fresh {
            true => 0,
            false => self.largest + 2 * delta + 3 * epsilon + 1 - sooner,
        }
    }

    /// The clock from which on messages are covered: T = X + δ′ + 3ε′, from a fresh start all.
    pub fn covered_from(&self) -> i64 {
        let Setup { epsilon, delta, .. } = self.schedule.new;
        match self.is_fresh {
            true => 0,
            false => self.largest + delta + 3 * epsilon - self.bounds.covered,
        }
    }

    /// May a stale frame be heard in a call for this clock: v ≤ X + δ′ + ε′?
    fn may_hear_stale(&self, v: i64) -> bool {
        let Setup { epsilon, delta, .. } = self.schedule.new;
        !self.is_fresh && v <= self.largest + delta + epsilon + self.bounds.stale
    }

    /// May a call for v of a member with this last clock go from one phase to another?
    fn is_phase_allowed(&self, last: i64, v: i64, from: Phase, to: Phase) -> bool {
        let Schedule { old, new, change } = self.schedule;
        let Bounds { take_up, reach_before, reach_past, .. } = self.bounds;
        let gap = new.epsilon - old.epsilon;
        let sooner = self.bounds.plain_new + self.bounds.plain_new_gaps * gap;
        let b = old.modulus;
        let thawed = |sooner: i64| self.frozen(sooner) <= last;
        match (from, to) {
            (Older, Older) => v + old.delta + 2 * old.epsilon <= change + take_up,
            (Older, Phase::Both) => {
                thawed(self.bounds.freeze_take_up)
                    && last + old.delta + 2 * old.epsilon <= change + take_up
                    && change <= v + b + reach_before
            }
            (Phase::Both, Phase::Both) => {
                change <= v + b + reach_before && v < change + b + reach_past
            }
            (Phase::Both, Newer) => {
                thawed(self.bounds.freeze)
                    && change + new.delta + 2 * new.epsilon - sooner <= last
                    && last < change + b + reach_past
            }
            (Newer, Newer) => true,
            _ => false,
        }
    }

    /// Are all clocks within the drift limit once a member's is v? The old one holds while any clock,
    /// an observer's too, is below V.
    fn is_together(&self, member: usize, v: i64) -> bool {
        let Schedule { old, new, change } = self.schedule;
        let clocks: Vec<i64> = (self.members.iter().enumerate())
            .map(|(other, m)| if other == member { v } else { m.clock })
            .collect();
        let counted = if self.bounds.unobserved_drift { old.n as usize } else { clocks.len() };
        let is_old = match self.bounds.early_drift {
            true => clocks[..counted].iter().all(|&clock| clock < change),
            false => clocks[..counted].iter().any(|&clock| clock < change),
        };
        let drift = if is_old { old.epsilon } else { new.epsilon };
        let (lowest, highest) = (clocks.iter().min(), clocks.iter().max());
        highest.expect("a member") - lowest.expect("a member") <= drift
    }

    /// May a member hear a message in a call for v? The sender's clock after the call is at most the
    /// delay of the sending clock past the sending.
    fn is_audible(&self, member: usize, v: i64, message: &Sent) -> bool {
        let after = match message.sender == member && !self.bounds.delay_before {
            true => v,
            false => self.members[message.sender].clock,
        };
        let limits = match self.bounds.early_delay {
            true => &self.schedule.new,
            false => self.schedule.of(message.clock),
        };
        after <= message.clock + limits.delta
    }

    /// The clocks and phases that a member's next call may have.
    fn moves(&self, member: usize) -> Vec<(i64, Phase)> {
        let Member { clock, phase, .. } = self.members[member];
        let mut moves = Vec::new();
        for v in clock + 1..=clock + self.schedule.new.epsilon {
            if v - clock > self.schedule.of(v).epsilon || !self.is_together(member, v) {
                continue;
            }
            let next = [Older, Phase::Both, Newer].into_iter();
            let next = next.filter(|&to| self.is_phase_allowed(clock, v, phase, to));
            moves.extend(next.map(|to| (v, to)));
        }
        moves
    }

    /// A member that may call, and its clock and phase there; none if no one may.
    fn next_move(&self, rng: &mut Prng) -> Option<(usize, i64, Phase)> {
        let count = self.members.len();
        let by_clock = |&member: &usize| self.members[member].clock;
        let first = match self.habits.pace {
            1 if !rng.one_in(4) => (0..count).min_by_key(by_clock),
            2 if !rng.one_in(4) => (0..count).max_by_key(by_clock),
            _ => None,
        };
        let first = first.unwrap_or_else(|| rng.place(count));
        for member in (first..count).chain(0..first) {
            let moves = self.moves(member);
            if moves.is_empty() {
                continue;
            }
            let phase = self.members[member].phase;
            let hold = !rng.one_in(self.habits.delay);
            let nudged = rng.one_in(self.habits.nudges);
            let wished = moves.iter().copied().filter(|&(_, to)| (to == phase) == hold);
            let wished: Vec<_> = wished.collect();
            let wished = if wished.is_empty() { moves } else { wished };
            let any = rng.pick(&wished);
            let (v, to) = match nudged {
                true => rng.pick(&[any, wished[wished.len() - 1]]),
                false => wished[0],
            };
            return Some((member, v, to));
        }
        None
    }

    /// The next call of some member, not yet made; none if no one may call.
    pub fn next_act(&mut self, rng: &mut Prng, payload: &[u8]) -> Option<Act> {
        let (member, v, phase) = self.next_move(rng)?;
        let Member { clock: last, phase: before, state, ref holdback } = self.members[member];
        let setup = self.setup(member, v);
        let mut holdback = holdback.clone();
        if (before, phase) == (Older, Phase::Both) {
            // The bytes by which the queue grows are any.
            holdback.extend(rng.bytes(self.schedule.new.holdback_len() - holdback.len()));
        }
        let is_node = member < setup.old.n as usize;
        let (heard, sources) = self.heard(rng, member, v, phase).into_iter().unzip();
        let heard: Vec<Vec<u8>> = heard;
        let sizes = self.sizes(phase);
        let case = TickCase {
            setup,
            clock: v % setup.old.modulus,
            state,
            holdback,
            batch: batch::encode(&heard),
            send: is_node && rng.one_in(self.habits.silence),
            payload: payload.to_vec(),
            outgoing: vec![0; sizes.longest_frame()],
            verdicts: vec![0; crate::setup::VERDICTS],
            delivery: vec![0; sizes.holdback_len()],
        };
        Some(Act { member, last, v, phase, sources, case, is_node })
    }

    /// What a member hears in a call for v, each with its number if it is a message.
    fn heard(
        &self,
        rng: &mut Prng,
        member: usize,
        v: i64,
        phase: Phase,
    ) -> Vec<(Vec<u8>, Option<usize>)> {
        let mut heard = Vec::new();
        let recent = self.sent.len().saturating_sub(60);
        for (number, message) in self.sent.iter().enumerate().skip(recent) {
            if !self.is_audible(member, v, message) {
                continue;
            }
            while rng.one_in(self.habits.deafness) && heard.len() < 200 {
                heard.push((message.bytes.clone(), Some(number)));
                if !rng.one_in(4) {
                    break;
                }
            }
        }
        if self.may_hear_stale(v) {
            for _ in 0..rng.range(0, 3) {
                let at = rng.place(heard.len() + 1);
                heard.insert(at, (self.stale(rng, member, v, phase), None));
            }
        }
        heard
    }

    /// A stale frame: any bytes, mostly a frame that could be taken.
    fn stale(&self, rng: &mut Prng, member: usize, v: i64, phase: Phase) -> Vec<u8> {
        let clock = v % self.schedule.old.modulus;
        match phase {
            Older => frames::any(rng, &self.schedule.old, clock),
            Newer => frames::any(rng, &self.schedule.new, clock),
            Phase::Both => frames::any(rng, &self.setup(member, v).at(clock), clock),
        }
    }

    /// Takes over what an accepted call left.
    pub fn settle(&mut self, act: &Act, answer: &Answer) {
        let Act { member, v, phase, case, .. } = act;
        let (state, holdback) = (case.state, case.holdback.clone());
        self.members[*member] = Member { clock: *v, phase: *phase, state, holdback };
        if answer.outgoing > 0 {
            let bytes = case.outgoing[..answer.outgoing.into()].to_vec();
            self.sent.push(Sent { sender: *member, clock: *v, bytes });
        }
    }
}

/// A small setup with both pairs; V is a true clock here, far enough from 0.
fn small(rng: &mut Prng) -> Both {
    let (n, epsilon, delta) = (rng.range(1, 3), rng.range(1, 3), rng.range(0, 3));
    let old = Setup { n, epsilon, delta, modulus: 0, own: 0 };
    let wider_epsilon = epsilon + rng.pick(&[0, 1, 1, 2, 3]);
    let wider_delta = delta + rng.pick(&[0, 0, 1, 2, 4]);
    let mut both = Both { old, wider_epsilon, wider_delta, change: 0, marked: 0 };
    both.old.modulus = both.wider().least_modulus() + rng.pick(&[0, 0, 1, 5]);
    both.change = 4 * both.old.modulus + rng.below(both.old.modulus);
    both
}

/// Any tables and any queue for a call at v.
fn damaged(rng: &mut Prng, limits: &impl Limits, v: i64) -> (ClockState, Vec<u8>) {
    let state = memory::state(rng, limits, v);
    let step = crate::node::tables(limits, v, &state).sound_step(limits.own(), v);
    let least = memory::least_due(rng, limits.own(), step);
    (state, memory::holdback(rng, limits, v, least))
}
