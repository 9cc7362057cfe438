//! Groups that keep the limits, with and without nudged clocks: what is heard is taken and
//! delivered in time, and all agree on a causal order; from fresh nodes at once, from any memory
//! after recovery.

use oracle::board::has_possible_counts;
use oracle::generate::{self, Group, Habits, ListenCase, Prng, TickCase, Turn};
use oracle::holdback::Entry;
use oracle::{batch, Answer, Frame, Setup};
use std::collections::{BTreeSet, HashMap};

/// How a run starts and goes.
#[derive(Clone, Copy, Default)]
pub struct Kind {
    /// From overwritten memories, and with noise as long as 01 allows it.
    pub dip: bool,
    pub nudges: bool,
    /// With two observers, one of which is never ahead of a node.
    pub observed: bool,
}

/// A message as the test sees it.
struct Message {
    /// The true clock of its sending.
    r: i64,
    /// Its true due clock.
    due: i64,
    /// What its sender could have known of.
    known: BTreeSet<u32>,
}

/// A node or an observer as the test sees it.
#[derive(Clone, Default)]
struct Member {
    heard: BTreeSet<u32>,
    /// Every message whose sending leads to this node's next one.
    known: BTreeSet<u32>,
    /// The covered ones, in order.
    delivered: Vec<u32>,
    /// How many of these were delivered past their due clock.
    early: usize,
    /// How often a covered one was heard that a node would refuse by 15.
    beyond: usize,
}

/// A run with all that was seen. Messages are known by their number.
struct Run {
    setup: Setup,
    /// Messages from this clock on are covered.
    from: i64,
    /// The nodes, then the observers.
    members: Vec<Member>,
    messages: Vec<Message>,
    numbers: HashMap<Vec<u8>, u32>,
}

/// A setup with a short queue.
fn short_setup(rng: &mut Prng) -> Setup {
    loop {
        let setup = generate::setup(rng);
        if setup.holdback_len() < 20_000 {
            return setup;
        }
    }
}

impl Run {
    /// Plays a group for so many calls.
    fn play(rng: &mut Prng, calls: usize, kind: Kind) -> Self {
        let setup = short_setup(rng);
        let deafness = rng.range(1, 3);
        let habits = Habits { noise: kind.dip, dips: false, nudges: kind.nudges, deafness };
        let mut group = Group::fresh(rng, setup, habits);
        let observers: &[bool] = if kind.observed { &[true, false] } else { &[] };
        observers.iter().for_each(|&lags| group.add_observer(rng, lags));
        let members = vec![Member::default(); setup.n as usize + observers.len()];
        let from = i64::MIN;
        let mut run = Run { setup, from, members, messages: Vec::new(), numbers: HashMap::new() };
        if kind.dip {
            let largest = group.highest();
            run.from = largest + setup.delta + 3 * setup.epsilon;
            group.quiet_from = largest + setup.delta + setup.epsilon + 1;
            group.dip_all(rng);
        }
        for _ in 0..calls {
            run.step(rng, &mut group, kind);
        }
        run
    }

    /// One call of the group.
    fn step(&mut self, rng: &mut Prng, group: &mut Group, kind: Kind) {
        let (member, turn) = group.next_turn(rng);
        let answer = match turn {
            Turn::Node(case) => self.tick(group, member, case),
            Turn::Observer(case) => self.listen(group, member, case),
        };
        assert_eq!(answer.number, 0);
        assert!(kind.dip || answer.repair == 0);
    }

    /// A node's call.
    fn tick(&mut self, group: &mut Group, node: usize, mut case: TickCase) -> Answer {
        case.payload = (self.messages.len() as u32).to_le_bytes().to_vec();
        let answer = case.run();
        let last = group.clock(node);
        let v = last + self.setup.step(last, case.clock);
        self.see_hearing(node, &case.batch, &case.verdicts);
        if answer.outgoing > 0 {
            self.see_sending(node, v, &case.outgoing[..answer.outgoing.into()]);
        }
        self.see_delivery(node, last, v, &case.delivery);
        group.settle(node, case, &answer);
        answer
    }

    /// An observer's call. The first observer is never ahead of a node.
    fn listen(&mut self, group: &mut Group, observer: usize, mut case: ListenCase) -> Answer {
        self.members[observer].beyond += self.count_beyond(&case);
        let answer = case.run();
        let last = group.clock(observer);
        let v = last + self.setup.step(last, case.clock);
        let n = self.setup.n as usize;
        assert!(observer > n || (0..n).all(|node| group.clock(node) >= v));
        self.see_hearing(observer, &case.batch, &case.verdicts);
        self.see_delivery(observer, last, v, &case.delivery);
        group.settle_observer(observer, case, &answer);
        answer
    }

    /// How many covered messages an observer hears that a node would refuse by 15.
    fn count_beyond(&self, case: &ListenCase) -> usize {
        let fails_15 = |bytes: &&[u8]| {
            let entry =
                Entry::near(&self.setup, case.clock, Frame::parse(&self.setup, bytes).unwrap());
            !has_possible_counts(&self.setup, &entry)
        };
        let entries = batch::entries(&case.batch).unwrap().into_iter();
        let is_covered =
            |bytes: &&[u8]| self.numbers.get(*bytes).is_some_and(|&m| self.is_covered(m));
        entries.filter(is_covered).filter(fails_15).count()
    }

    fn is_covered(&self, message: u32) -> bool {
        self.messages[message as usize].r >= self.from
    }

    /// The first hearing of a covered message is taken, each later one gets 16.
    fn see_hearing(&mut self, member: usize, batch: &[u8], verdicts: &[u8]) {
        for (entry, &verdict) in batch::entries(batch).unwrap().into_iter().zip(verdicts) {
            let Some(&message) = self.numbers.get(entry) else { continue };
            let member = &mut self.members[member];
            let first = member.heard.insert(message);
            if verdict == 0 {
                member.known.extend(&self.messages[message as usize].known);
                member.known.insert(message);
            }
            assert!(!self.is_covered(message) || verdict == if first { 0 } else { 16 });
        }
    }

    fn see_sending(&mut self, node: usize, r: i64, bytes: &[u8]) {
        let c = Frame::parse(&self.setup, bytes).unwrap().timestamp.c;
        let due = r + c + self.setup.delta + self.setup.epsilon;
        let (number, known) = (self.messages.len() as u32, self.members[node].known.clone());
        self.messages.push(Message { r, due, known });
        self.numbers.insert(bytes.to_vec(), number);
        self.members[node].known.insert(number);
    }

    /// Delivered are, of the covered messages, those heard that are due after the member's last
    /// clock and not past v.
    fn see_delivery(&mut self, member: usize, last: i64, v: i64, delivery: &[u8]) {
        let mut rest = &delivery[2..];
        let mut delivered = Vec::new();
        for _ in 0..u16::from_le_bytes([delivery[0], delivery[1]]) {
            let (frame, after) = Frame::split(&self.setup, rest).unwrap();
            let r = v + self.setup.near(frame.timestamp.r, v % self.setup.modulus);
            let message = self.numbers.get(frame.bytes);
            assert!(message.is_some() || r < self.from, "delivered and never sent");
            delivered.extend(message);
            rest = after;
        }
        delivered.retain(|&message| self.is_covered(message));
        let due = |message: u32| self.messages[message as usize].due;
        let heard = self.members[member].heard.iter().filter(|&&message| self.is_covered(message));
        let expected = heard.copied().filter(|&message| last < due(message) && due(message) <= v);
        assert_eq!(expected.collect::<BTreeSet<_>>(), delivered.iter().copied().collect());
        assert!(delivered.is_sorted_by_key(|&message| due(message)));
        let early = delivered.iter().filter(|&&message| due(message) < v).count();
        let member = &mut self.members[member];
        member.early += early;
        member.delivered.extend(delivered);
    }

    /// No message twice, causes first, one order; how many places were compared.
    fn check_order(&self) -> usize {
        let mut compared = 0;
        let places = |member: &Member| member.delivered.iter().copied().zip(0..).collect();
        let order: Vec<HashMap<u32, usize>> = self.members.iter().map(places).collect();
        for (member, places) in self.members.iter().zip(&order) {
            assert_eq!(places.len(), member.delivered.len(), "a message delivered twice");
            for (&message, &at) in places {
                let earlier = &self.messages[message as usize].known;
                assert!(earlier.iter().filter_map(|m| places.get(m)).all(|&place| place < at));
            }
            for other in &order {
                let common = member.delivered.iter().filter_map(|message| other.get(message));
                assert!(common.clone().is_sorted_by(|a, b| a < b), "two orders");
                compared += common.count();
            }
        }
        compared
    }
}

/// What some runs had.
#[derive(Debug, Default)]
pub struct Totals {
    /// Places that were compared.
    pub compared: usize,
    /// Messages that were delivered past their due clock.
    pub early: usize,
    /// Messages that an observer delivered, and how often it heard one that a node would refuse by
    /// 15: the first, which is never ahead of a node, and the second.
    pub observed: [usize; 2],
    pub beyond: [usize; 2],
}

/// Plays so many groups.
pub fn play_all(seed: u64, runs: usize, calls: usize, kind: Kind) -> Totals {
    let mut rng = Prng::new(seed);
    let mut totals = Totals::default();
    for _ in 0..runs {
        let run = Run::play(&mut rng, calls, kind);
        totals.compared += run.check_order();
        totals.early += run.members.iter().map(|member| member.early).sum::<usize>();
        for (k, observer) in run.members[run.setup.n as usize..].iter().enumerate() {
            totals.observed[k] += observer.delivered.len();
            totals.beyond[k] += observer.beyond;
        }
    }
    totals
}

#[test]
fn fresh_nodes_deliver_in_one_causal_order() {
    let Totals { compared, early, .. } = play_all(5, 150, 250, Kind::default());
    assert!(compared > 50_000, "only {compared} places compared");
    assert_eq!(early, 0);
}

#[test]
fn fresh_nodes_with_nudged_clocks_deliver_in_one_causal_order() {
    let kind = Kind { nudges: true, ..Kind::default() };
    let Totals { compared, early, .. } = play_all(6, 150, 250, kind);
    assert!(compared > 50_000 && early > 5_000, "only {compared} and {early} early");
}

#[test]
fn nodes_recover_from_any_memory() {
    let kind = Kind { dip: true, ..Kind::default() };
    let Totals { compared, early, .. } = play_all(7, 300, 400, kind);
    assert!(compared > 50_000, "only {compared} places compared");
    assert_eq!(early, 0);
}

#[test]
fn nodes_recover_from_any_memory_under_nudges_from_the_same_clock_on() {
    let kind = Kind { dip: true, nudges: true, ..Kind::default() };
    let Totals { compared, early, .. } = play_all(8, 300, 400, kind);
    assert!(compared > 50_000 && early > 5_000, "only {compared} and {early} early");
}
