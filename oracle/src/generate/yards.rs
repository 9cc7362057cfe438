//! Random traces of a whole group for `yard` (02, 2.8), good and bad.

use super::{traces, Prng};
use crate::yard::MAX_STEPS;
use crate::yard_trace::{TraceStep, YardTrace};
use crate::Setup;

/// A setup whose sixteen queues have 65,522 bytes each, more than those of any other group together.
pub const LARGEST_GROUP: Setup = Setup { n: 16, epsilon: 13, delta: 24, modulus: 103, own: 0 };

/// What is wrong with a trace.
#[derive(Clone, Copy, Debug, PartialEq, Eq)]
pub enum Flaw {
    /// The setup is out of its limits.
    Limits = 1,
    /// The hold-back queue is too long.
    Queue,
    /// It ends in the setup.
    CutSetup,
    /// It ends before the end of the count.
    CutCount,
    /// Its count is more than the most steps that there may be.
    Count,
    /// It ends before the end of its last step.
    CutStep,
    /// It goes on after its last step.
    Tail,
    /// A step's node is not below n.
    Node,
    /// A send byte is above 1.
    Send,
    /// A step hears the frame of step 0.
    Zero,
    /// It hears its own.
    Own,
    /// It hears that of a later step, or of none.
    Later,
    /// It hears that of an earlier step that sent nothing.
    Silent,
    /// A clock is not below B.
    Clock,
    /// A payload is longer than 32 bytes.
    Payload,
}

impl Flaw {
    pub const ALL: [Flaw; 15] = [
        Flaw::Limits,
        Flaw::Queue,
        Flaw::CutSetup,
        Flaw::CutCount,
        Flaw::Count,
        Flaw::CutStep,
        Flaw::Tail,
        Flaw::Node,
        Flaw::Send,
        Flaw::Zero,
        Flaw::Own,
        Flaw::Later,
        Flaw::Silent,
        Flaw::Clock,
        Flaw::Payload,
    ];

    /// The number that a trace gets for it.
    pub fn number(self) -> u8 {
        match self {
            Flaw::Limits | Flaw::Queue => 1,
            Flaw::Clock => 2,
            Flaw::Payload => 4,
            _ => 5,
        }
    }
}

/// The bytes of a trace, about half of them good, and the flaw of a bad one. One in eight has a byte
/// overwritten, and no flaw is named.
pub fn random(rng: &mut Prng) -> (Vec<u8>, Option<Flaw>) {
    let habits = Habits::random(rng);
    let trace = good(rng, habits);
    if rng.one_in(8) {
        let mut bytes = trace.to_bytes();
        let at = rng.place(bytes.len());
        bytes[at] = rng.bits() as u8;
        return (bytes, None);
    }
    if rng.one_in(2) {
        let flaw = rng.pick(&Flaw::ALL);
        if let Some(bytes) = spoilt(rng, trace.clone(), flaw) {
            return (bytes, Some(flaw));
        }
    }
    (trace.to_bytes(), None)
}

/// What a rehearsed group is like.
#[derive(Clone, Copy, Debug)]
pub struct Habits {
    /// It keeps the limits of drift and delay, and clocks step by 1 to ε.
    pub steady: bool,
    /// Clocks step by more than one tick now and then.
    pub nudges: bool,
    /// A node hears a frame once in so many ticks.
    pub deafness: i64,
}

impl Habits {
    pub fn random(rng: &mut Prng) -> Self {
        Habits { steady: rng.one_in(2), nudges: rng.one_in(2), deafness: rng.range(1, 4) }
    }
}

/// A trace that is not refused.
pub fn good(rng: &mut Prng, habits: Habits) -> YardTrace {
    let setup = any_setup(rng);
    let mut group = Group::fresh(rng, setup, habits);
    let steps = match rng.below(40) {
        0 => 0,
        1 => MAX_STEPS.into(),
        ..20 if setup == LARGEST_GROUP => MAX_STEPS.into(),
        _ => rng.range(1, 20 * setup.n),
    };
    (0..steps).for_each(|_| group.step(rng));
    group.trace
}

/// A setup that the program takes: now and then of many nodes, rarely of the longest queues.
fn any_setup(rng: &mut Prng) -> Setup {
    if rng.one_in(40) {
        return rng.pick(&[traces::LONGEST_QUEUE, LARGEST_GROUP]);
    }
    loop {
        let mut setup = Setup { own: 0, ..super::setup(rng) };
        if rng.one_in(6) {
            setup.n = rng.range(5, 16);
        }
        if setup.holdback_len() <= traces::LONGEST_QUEUE.holdback_len() {
            return setup;
        }
    }
}

/// A group whose trace is made. Its clocks are true ones.
struct Group {
    habits: Habits,
    members: Vec<Member>,
    /// The steps that have sent.
    messages: Vec<Message>,
    trace: YardTrace,
}

struct Member {
    clock: i64,
    started: bool,
}

#[derive(Clone, Copy)]
struct Message {
    /// The step's number, from 1.
    step: u16,
    sender: usize,
    sent: i64,
}

impl Group {
    /// All nodes before their first step, at clocks within the drift limit, often just before a wrap.
    fn fresh(rng: &mut Prng, setup: Setup, habits: Habits) -> Self {
        let (wrap, any) = (setup.modulus - 1 - rng.below(6), rng.below(setup.modulus));
        let start = rng.pick(&[0, wrap, any]);
        let member = |_| Member { clock: start + rng.range(0, setup.epsilon), started: false };
        let members = (0..setup.n).map(member).collect();
        Group { habits, members, messages: Vec::new(), trace: YardTrace::new(setup) }
    }

    /// Adds a step.
    fn step(&mut self, rng: &mut Prng) {
        let setup = self.trace.setup;
        let (node, moved) = self.next_move(rng);
        let member = &mut self.members[node];
        (member.clock, member.started) = (member.clock + moved, true);
        let clock = member.clock;
        let heard = self.heard(rng);
        let send = !rng.one_in(3);
        let step = self.trace.steps.len() as u16 + 1;
        if send {
            self.messages.push(Message { step, sender: node, sent: clock });
        }
        self.trace.steps.push(TraceStep {
            node: node as u8,
            clock: clock.rem_euclid(setup.modulus) as u16,
            send: send.into(),
            payload: rng.payload(),
            heard,
        });
    }

    /// A node and how far its clock moves, in its first step by one: it starts one before that.
    fn next_move(&self, rng: &mut Prng) -> (usize, i64) {
        let epsilon = self.trace.setup.epsilon;
        let lowest = self.members.iter().map(|member| member.clock).min().expect("a node");
        loop {
            let node = rng.place(self.members.len());
            let Member { clock, started } = self.members[node];
            let room = lowest + epsilon - clock;
            let (any, odd) = (rng.range(1, room.max(1)), rng.range(-1, epsilon + 1));
            let nudged = started && self.habits.nudges && rng.one_in(2);
            match self.habits.steady {
                true if room > 0 && nudged => return (node, rng.pick(&[any, room])),
                true if room > 0 => return (node, 1),
                true => {}
                false if nudged => return (node, rng.pick(&[odd, epsilon, any])),
                // beyond the drift limit now and then
                false if room > 0 || rng.one_in(4) => return (node, 1),
                false => {}
            }
        }
    }

    /// What a node hears: frames in the air, some twice; where the limits are not kept also later ones,
    /// now and then far too late.
    fn heard(&self, rng: &mut Prng) -> Vec<u16> {
        let (setup, count) = (&self.trace.setup, self.messages.len());
        let mut heard = Vec::new();
        let recent = (setup.n * (setup.delta + 2)) as usize;
        for message in &self.messages[count.saturating_sub(recent)..] {
            while self.is_heard(message) && rng.one_in(self.habits.deafness) {
                heard.push(message.step);
                if !rng.one_in(4) {
                    break;
                }
            }
        }
        if !self.habits.steady && count > 0 && rng.one_in(4) {
            heard.push(self.messages[rng.place(count)].step);
        }
        if !heard.is_empty() && rng.one_in(64) {
            heard = (0..255).map(|_| rng.pick(&heard)).collect();
        }
        heard.truncate(255);
        heard
    }

    /// Is a message in the air? Its sender's clock is at most δ past the sending.
    fn is_heard(&self, message: &Message) -> bool {
        let late = self.members[message.sender].clock > message.sent + self.trace.setup.delta;
        !(self.habits.steady && late)
    }
}

/// The bytes of a good trace with a flaw; none where it has no place for it.
pub fn spoilt(rng: &mut Prng, mut trace: YardTrace, flaw: Flaw) -> Option<Vec<u8>> {
    let head = 7;
    match flaw {
        Flaw::Limits => spoil_limits(rng, &mut trace.setup),
        Flaw::Queue => trace.setup = traces::TOO_LONG_QUEUE,
        Flaw::Count => trace.count = Some(rng.pick(&[1_001, 1_001, 1_002, 65_535])),
        Flaw::Tail => {
            let length = rng.pick(&[1, 2, 7]);
            trace.tail = rng.bytes(length);
        }
        Flaw::CutSetup | Flaw::CutCount | Flaw::CutStep => {}
        _ if trace.steps.is_empty() => return None,
        _ => spoil_step(rng, &mut trace, flaw)?,
    }
    let mut bytes = trace.to_bytes();
    match flaw {
        Flaw::CutSetup => bytes.truncate(rng.place(5)),
        Flaw::CutCount => bytes.truncate(5 + rng.place(2)),
        Flaw::CutStep if bytes.len() == head => return None,
        Flaw::CutStep => bytes.truncate(head + rng.place(bytes.len() - head)),
        _ => {}
    }
    Some(bytes)
}

/// Puts one of the limits outside its own.
fn spoil_limits(rng: &mut Prng, setup: &mut Setup) {
    match rng.below(4) {
        0 => setup.n = rng.pick(&[0, 17]),
        1 => setup.epsilon = rng.pick(&[0, 17]),
        2 => setup.delta = 65,
        _ => setup.modulus = rng.pick(&[0, setup.least_modulus() - 1]),
    }
}

/// Spoils one step.
fn spoil_step(rng: &mut Prng, trace: &mut YardTrace, flaw: Flaw) -> Option<()> {
    let (count, setup) = (trace.steps.len(), trace.setup);
    let at = rng.place(count);
    let silent = (0..at).rev().find(|&step| trace.steps[step].send == 0);
    let later = rng.range(at as i64 + 2, count as i64 + 1) as u16;
    let step = &mut trace.steps[at];
    match flaw {
        Flaw::Node => step.node = rng.pick(&[setup.n as u8, setup.n as u8 + 1, 255]),
        Flaw::Send => step.send = rng.range(2, 255) as u8,
        Flaw::Clock => step.clock = (setup.modulus as u16).saturating_add(rng.below(3) as u16),
        Flaw::Payload => {
            let length = rng.pick(&[33, 34, 255]);
            step.payload = rng.bytes(length);
        }
        Flaw::Zero => hear(rng, step, 0),
        Flaw::Own => {
            step.send = 1;
            hear(rng, step, at as u16 + 1);
        }
        Flaw::Later => hear(rng, step, later),
        Flaw::Silent => hear(rng, step, silent? as u16 + 1),
        _ => unreachable!("not a flaw of a step"),
    }
    Some(())
}

/// Puts a number among those that a step hears.
fn hear(rng: &mut Prng, step: &mut TraceStep, number: u16) {
    step.heard.truncate(254);
    let at = rng.place(step.heard.len() + 1);
    step.heard.insert(at, number);
}
