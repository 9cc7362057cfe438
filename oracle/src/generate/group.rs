//! A group of nodes (01's yard) with the air between them, and observers (02) beside them.

use super::{frames, memory, ListenCase, Prng, TickCase};
use crate::timestamp::fresh;
use crate::{batch, Answer, ClockState, Setup, Timestamp};

/// What a group's air and memory are like.
#[derive(Clone, Copy, Debug)]
pub struct Habits {
    /// Frames that nobody sent, damaged ones and floods.
    pub noise: bool,
    /// Memory that is overwritten between ticks.
    pub dips: bool,
    /// Nodes step by more than one tick now and then (02: their clocks are nudged).
    pub nudges: bool,
    /// A node hears a message once in so many ticks.
    pub deafness: i64,
}

/// A group that keeps both limits. All clocks here are true clocks.
pub struct Group {
    pub setup: Setup,
    /// From this clock on there is no noise.
    pub quiet_from: i64,
    habits: Habits,
    /// The nodes, then the observers.
    members: Vec<Member>,
    air: Vec<Message>,
}

struct Member {
    clock: i64,
    /// Of an observer only r, its last clock.
    state: ClockState,
    holdback: Vec<u8>,
    /// An observer whose clock never goes past a node's.
    lags: bool,
}

struct Message {
    sender: usize,
    sent: i64,
    bytes: Vec<u8>,
}

/// A member's next call.
pub enum Turn {
    Node(TickCase),
    Observer(ListenCase),
}

impl Group {
    /// All nodes fresh, at clocks within the drift limit, often just before a wrap.
    pub fn fresh(rng: &mut Prng, setup: Setup, habits: Habits) -> Self {
        let start = match rng.below(3) {
            0 => 0,
            1 => setup.modulus - 1 - rng.below(6),
            _ => rng.below(setup.modulus),
        };
        let member = |_| {
            let clock = start + rng.range(0, setup.epsilon);
            let state = fresh(&setup, clock % setup.modulus);
            Member { clock, state, holdback: vec![0; setup.holdback_len()], lags: false }
        };
        let members = (0..setup.n).map(member).collect();
        Group { setup, quiet_from: i64::MAX, habits, members, air: Vec::new() }
    }

    /// Adds a fresh observer, within the drift limit of all others. One that lags starts at no
    /// later clock than a node, and never goes past one.
    pub fn add_observer(&mut self, rng: &mut Prng, lags: bool) {
        let (lowest, highest) = (self.lowest(self.members.len()), self.highest());
        let ahead = if lags { 0 } else { self.setup.epsilon };
        let clock = rng.range((highest - self.setup.epsilon).max(0), lowest + ahead);
        let state = fresh(&self.setup, clock % self.setup.modulus);
        let holdback = vec![0; self.setup.holdback_len()];
        self.members.push(Member { clock, state, holdback, lags });
    }

    /// The clock of a member: a node, by its own number, or behind them an observer.
    pub fn clock(&self, member: usize) -> i64 {
        self.members[member].clock
    }

    /// The largest clock.
    pub fn highest(&self) -> i64 {
        self.members.iter().map(|member| member.clock).max().expect("a member")
    }

    /// The smallest clock of the first so many members.
    fn lowest(&self, count: usize) -> i64 {
        self.members[..count].iter().map(|member| member.clock).min().expect("a member")
    }

    fn is_node(&self, member: usize) -> bool {
        member < self.setup.n as usize
    }

    /// Overwrites memory of every member.
    pub fn dip_all(&mut self, rng: &mut Prng) {
        for member in 0..self.members.len() {
            let clock = (self.clock(member) + 1) % self.setup.modulus;
            self.dip(rng, member, clock);
        }
    }

    /// The next call of some node, and the node, in a group without observers. The call is not yet
    /// made.
    pub fn next_case(&mut self, rng: &mut Prng) -> (usize, TickCase) {
        match self.next_turn(rng) {
            (node, Turn::Node(case)) => (node, case),
            (_, Turn::Observer(_)) => panic!("the group has an observer"),
        }
    }

    /// The next call of some member, and the member. The call is not yet made.
    pub fn next_turn(&mut self, rng: &mut Prng) -> (usize, Turn) {
        let (member, room) = self.next_member(rng);
        let any = rng.range(1, room);
        let nudged = self.habits.nudges && rng.one_in(2);
        let next = self.clock(member) + if nudged { rng.pick(&[any, room]) } else { 1 };
        let clock = next % self.setup.modulus;
        if self.habits.dips && rng.one_in(6) {
            self.dip(rng, member, clock);
        }
        let setup = Setup { own: member as i64, ..self.setup };
        let Member { state, holdback, .. } = &self.members[member];
        let mut case = TickCase::idle(rng, setup, clock, *state, holdback.clone());
        case.batch = batch::encode(&self.heard(rng, member, next));
        if !self.is_node(member) {
            return (member, Turn::Observer(ListenCase::of(case)));
        }
        case.send = !rng.one_in(3);
        case.payload = rng.payload();
        (member, Turn::Node(case))
    }

    /// Takes over what a node's accepted call left; a refused one changes nothing.
    pub fn settle(&mut self, node: usize, case: TickCase, answer: &Answer) {
        if answer.number != 0 {
            return;
        }
        self.keep(node, case.clock, case.state, case.holdback);
        if answer.outgoing > 0 {
            let bytes = case.outgoing[..answer.outgoing.into()].to_vec();
            self.air.push(Message { sender: node, sent: self.clock(node), bytes });
        }
        let (members, delta) = (&self.members, self.setup.delta);
        self.air.retain(|message| members[message.sender].clock <= message.sent + delta);
    }

    /// The same of an observer's call.
    pub fn settle_observer(&mut self, observer: usize, case: ListenCase, answer: &Answer) {
        if answer.number == 0 {
            let state = Timestamp { r: case.last_clock(), c: 0, kn: &[] }.to_state();
            self.keep(observer, case.clock, state, case.holdback);
        }
    }

    /// A member has made its call for a clock, which left this.
    fn keep(&mut self, member: usize, clock: i64, state: ClockState, holdback: Vec<u8>) {
        let member = &mut self.members[member];
        member.clock += self.setup.step(member.clock, clock);
        (member.state, member.holdback) = (state, holdback);
    }

    /// A member that may move, and how far: at most ε, and not out of the drift limit.
    fn next_member(&self, rng: &mut Prng) -> (usize, i64) {
        let lowest = self.lowest(self.members.len());
        let slowest_node = self.lowest(self.setup.n as usize);
        loop {
            let member = rng.place(self.members.len());
            let limit = lowest + self.setup.epsilon;
            let limit = if self.members[member].lags { limit.min(slowest_node) } else { limit };
            let room = limit - self.clock(member);
            if room > 0 {
                return (member, room);
            }
        }
    }

    /// Overwrites a member's memory.
    fn dip(&mut self, rng: &mut Prng, member: usize, clock: i64) {
        let (which, setup, is_node) = (rng.range(1, 3), &self.setup, self.is_node(member));
        let member = &mut self.members[member];
        if which & 1 != 0 {
            member.state = memory::state(rng, setup, clock);
        }
        if which & 2 != 0 {
            let tables = Timestamp::of_state(setup, &member.state);
            let step = match is_node {
                true => tables.sound_step(setup, clock),
                false => setup.sound_step(tables.r, clock),
            };
            let least = memory::least_due(rng, setup, step);
            member.holdback = memory::holdback(rng, setup, clock, least);
        }
    }

    /// What a member hears in a call for its next clock: messages still in the air, some twice, and
    /// noise.
    fn heard(&self, rng: &mut Prng, member: usize, next: i64) -> Vec<Vec<u8>> {
        let mut heard = Vec::new();
        for message in &self.air {
            let late = message.sender == member && next > message.sent + self.setup.delta;
            while !late && rng.one_in(self.habits.deafness) {
                heard.push(message.bytes.clone());
                if !rng.one_in(4) {
                    break;
                }
            }
        }
        if self.habits.noise && next < self.quiet_from {
            let clock = next % self.setup.modulus;
            let flood = if rng.one_in(64) { 255 } else { 4 };
            for _ in 0..rng.range(0, flood) {
                let at = rng.place(heard.len() + 1);
                heard.insert(at, frames::any(rng, &self.setup, clock));
            }
        }
        heard.truncate(255);
        heard
    }
}
