//! Makes the same random calls to two programs and compares all they leave.

use crate::coverage::Coverage;
use crate::subject::Subject;
use crate::{engines, nudges, observers, polls, reasons, yards};
use oracle::abi;
use oracle::generate::{self, spoil, Beside, Group, Habits, Pair, Prng, Turn};
use oracle::generate::{CompareCase, FreshCase, FreshLastCase, ListenCase, PollCase, ReadCase};
use oracle::generate::{LongCase, LongFreshCase, LongReadCase, LongWriteCase};
use oracle::generate::{TickCase, WordsCase, WriteCase};
use oracle::playing::hex;
use oracle::{Answer, Timestamp};
use std::collections::BTreeMap;

/// How many bytes of a buffer a report shows; zeros at its end are never shown.
const SHOWN: usize = 1_000;

/// A call that any subject can make.
pub trait Case: Clone {
    /// The library's name of it.
    const NAME: &str;

    fn call(&mut self, subject: &mut dyn Subject) -> u64;
    /// The arguments that are not buffers.
    fn numbers(&self) -> String;
    /// Every buffer, also those that are only read.
    fn buffers(&self) -> Vec<(&'static str, &[u8])>;
}

impl Case for TickCase {
    const NAME: &str = "tick";

    fn call(&mut self, subject: &mut dyn Subject) -> u64 {
        subject.tick(self)
    }

    fn numbers(&self) -> String {
        format!("tick: {:?} clock {} send {}", self.setup, self.clock, self.send)
    }

    fn buffers(&self) -> Vec<(&'static str, &[u8])> {
        vec![
            ("tables", &self.state),
            ("shelf", &self.holdback),
            ("bundle", &self.batch),
            ("ticket", &self.payload),
            ("outgoing", &self.outgoing),
            ("verdicts", &self.verdicts),
            ("hand-out", &self.delivery),
        ]
    }
}

impl Case for FreshCase {
    const NAME: &str = "fresh";

    fn call(&mut self, subject: &mut dyn Subject) -> u64 {
        subject.fresh(self)
    }

    fn numbers(&self) -> String {
        format!("start: {:?} clock {}", self.setup, self.clock)
    }

    fn buffers(&self) -> Vec<(&'static str, &[u8])> {
        vec![("tables", &self.state)]
    }
}

impl Case for FreshLastCase {
    const NAME: &str = "fresh_last";

    fn call(&mut self, subject: &mut dyn Subject) -> u64 {
        subject.fresh_last(self)
    }

    fn numbers(&self) -> String {
        format!("observer's start: {:?} clock {}", self.setup, self.clock)
    }

    fn buffers(&self) -> Vec<(&'static str, &[u8])> {
        vec![("last", &self.last)]
    }
}

impl Case for ReadCase {
    const NAME: &str = "read";

    fn call(&mut self, subject: &mut dyn Subject) -> u64 {
        subject.read(self)
    }

    fn numbers(&self) -> String {
        format!("reader: {:?}", self.setup)
    }

    fn buffers(&self) -> Vec<(&'static str, &[u8])> {
        vec![("frame", &self.frame), ("tables", &self.state)]
    }
}

impl Case for WriteCase {
    const NAME: &str = "write";

    fn call(&mut self, subject: &mut dyn Subject) -> u64 {
        subject.write(self)
    }

    fn numbers(&self) -> String {
        format!("writer: {:?} station {}", self.setup, self.node)
    }

    fn buffers(&self) -> Vec<(&'static str, &[u8])> {
        vec![("tables", &self.state), ("ticket", &self.payload), ("out", &self.out)]
    }
}

impl Case for WordsCase {
    const NAME: &str = "words";

    fn call(&mut self, subject: &mut dyn Subject) -> u64 {
        subject.words(self)
    }

    fn numbers(&self) -> String {
        format!("words: {:?}", self.setup)
    }

    fn buffers(&self) -> Vec<(&'static str, &[u8])> {
        vec![("bundle", &self.batch), ("verdicts", &self.verdicts), ("text", &self.text)]
    }
}

impl Case for CompareCase {
    const NAME: &str = "compare";

    fn call(&mut self, subject: &mut dyn Subject) -> u64 {
        subject.compare(self)
    }

    fn numbers(&self) -> String {
        format!("compare: {:?} clock {}", self.setup, self.clock)
    }

    fn buffers(&self) -> Vec<(&'static str, &[u8])> {
        vec![("first", &self.first), ("second", &self.second)]
    }
}

impl Case for PollCase {
    const NAME: &str = "poll";

    fn call(&mut self, subject: &mut dyn Subject) -> u64 {
        subject.poll(self)
    }

    fn numbers(&self) -> String {
        format!("poll: {:?} clock {} within {}", self.setup, self.clock, self.within)
    }

    fn buffers(&self) -> Vec<(&'static str, &[u8])> {
        vec![("shelf", &self.holdback)]
    }
}

impl Case for ListenCase {
    const NAME: &str = "listen";

    fn call(&mut self, subject: &mut dyn Subject) -> u64 {
        subject.listen(self)
    }

    fn numbers(&self) -> String {
        format!("observer: {:?} clock {}", self.setup, self.clock)
    }

    fn buffers(&self) -> Vec<(&'static str, &[u8])> {
        vec![
            ("last", &self.last),
            ("shelf", &self.holdback),
            ("bundle", &self.batch),
            ("verdicts", &self.verdicts),
            ("hand-out", &self.delivery),
        ]
    }
}

impl Case for LongFreshCase {
    const NAME: &str = "long_fresh";

    fn call(&mut self, subject: &mut dyn Subject) -> u64 {
        subject.long_fresh(self)
    }

    fn numbers(&self) -> String {
        format!("engine's start: {:?} clock {}", self.setup, self.clock)
    }

    fn buffers(&self) -> Vec<(&'static str, &[u8])> {
        vec![("tables", &self.state)]
    }
}

impl Case for LongCase {
    const NAME: &str = "long_tick";

    fn call(&mut self, subject: &mut dyn Subject) -> u64 {
        subject.long_tick(self)
    }

    fn numbers(&self) -> String {
        format!("engine: {:?} clock {} send {}", self.setup, self.clock, self.send)
    }

    fn buffers(&self) -> Vec<(&'static str, &[u8])> {
        vec![
            ("tables", &self.state),
            ("shelf", &self.holdback),
            ("bundle", &self.batch),
            ("ticket", &self.payload),
            ("outgoing", &self.outgoing),
            ("verdicts", &self.verdicts),
            ("hand-out", &self.delivery),
        ]
    }
}

impl Case for LongReadCase {
    const NAME: &str = "long_read";

    fn call(&mut self, subject: &mut dyn Subject) -> u64 {
        subject.long_read(self)
    }

    fn numbers(&self) -> String {
        format!("engine's reader: {:?}", self.setup)
    }

    fn buffers(&self) -> Vec<(&'static str, &[u8])> {
        vec![("frame", &self.frame), ("tables", &self.state)]
    }
}

impl Case for LongWriteCase {
    const NAME: &str = "long_write";

    fn call(&mut self, subject: &mut dyn Subject) -> u64 {
        subject.long_write(self)
    }

    fn numbers(&self) -> String {
        format!("engine's writer: {:?} station {}", self.setup, self.node)
    }

    fn buffers(&self) -> Vec<(&'static str, &[u8])> {
        vec![("tables", &self.state), ("ticket", &self.payload), ("out", &self.out)]
    }
}

/// Two programs, and what was met so far. An error describes a difference.
pub struct Comparison<'s> {
    pub left: &'s mut dyn Subject,
    pub right: &'s mut dyn Subject,
    pub coverage: Coverage,
    /// All calls.
    pub calls: u64,
    /// How many of these each function got.
    pub made: BTreeMap<&'static str, u64>,
    /// Those that were made for engines, the nodes beside them included.
    pub engine_calls: u64,
    /// Those with both pairs (02, 2.10), and the plain ones beside them: of groups before and after, and
    /// where the pairs are equal.
    pub wider_calls: u64,
    pub plain_beside: u64,
    /// Those of charges and totals (02, 2.11).
    pub charge_calls: u64,
    /// Those of the figures (02, 2.13).
    pub figures_calls: u64,
    /// Calls that a node and its engine made side by side.
    pub pairs: u64,
    pub traces: u64,
    pub rehearsals: u64,
}

impl<'s> Comparison<'s> {
    pub fn new(left: &'s mut dyn Subject, right: &'s mut dyn Subject) -> Self {
        let coverage = Coverage::default();
        let [calls, engine_calls, wider_calls, charge_calls, figures_calls] = [0; 5];
        let [plain_beside, pairs, traces, rehearsals] = [0; 4];
        Comparison {
            left,
            right,
            coverage,
            calls,
            made: BTreeMap::new(),
            engine_calls,
            wider_calls,
            plain_beside,
            charge_calls,
            figures_calls,
            pairs,
            traces,
            rehearsals,
        }
    }

    /// Plays groups until at least this many calls are made.
    pub fn run_calls(&mut self, rng: &mut Prng, count: u64) -> Result<(), String> {
        while self.calls < count {
            let setup = generate::setup(rng);
            let (noise, dips, nudges) = (!rng.one_in(4), rng.one_in(2), rng.one_in(2));
            let habits = Habits { noise, dips, nudges, deafness: rng.range(1, 4) };
            let mut group = Group::fresh(rng, setup, habits);
            for _ in 0..rng.below(3) {
                let lags = rng.one_in(2);
                group.add_observer(rng, lags);
            }
            let rounds = setup.delta + 4 * setup.epsilon;
            for _ in 0..rng.range(1, (setup.n * rounds).min(300)) {
                self.step(rng, &mut group)?;
            }
        }
        Ok(())
    }

    /// One call of a group, with other calls around a node's that leave the group as it is.
    fn step(&mut self, rng: &mut Prng, group: &mut Group) -> Result<(), String> {
        match group.next_turn(rng) {
            (node, Turn::Node(case)) => {
                self.before(rng, &case)?;
                let (case, answer) = self.tick(case)?;
                self.after(rng, &case)?;
                group.settle(node, case, &answer);
            }
            (observer, Turn::Observer(case)) => {
                let (case, answer) = self.listen(case)?;
                group.settle_observer(observer, case, &answer);
            }
        }
        Ok(())
    }

    /// Other calls before a tick: ticks and observers' calls with wrong arguments, with another
    /// memory and for other clocks; starts; frames read, written and compared.
    fn before(&mut self, rng: &mut Prng, case: &TickCase) -> Result<(), String> {
        if rng.one_in(4) {
            let mut wrong = case.clone();
            spoil::spoil(rng, &mut wrong);
            self.listen(ListenCase::of(wrong.clone()))?;
            self.tick(wrong)?;
        }
        if rng.one_in(3) {
            self.tick(case.stepped(rng))?;
        }
        if rng.one_in(2) {
            self.listen(ListenCase::stepped(rng, case))?;
        }
        if rng.one_in(16) {
            let clock = rng.below(case.setup.modulus);
            let other = TickCase { clock, ..case.clone() };
            self.listen(ListenCase::of(other.clone()))?;
            self.tick(other)?;
        }
        if rng.one_in(16) {
            let case = FreshCase::random(rng, case.setup);
            let (_, word) = self.case(FreshLastCase::of(case.clone()))?;
            self.coverage.meet("fresh last", abi::number(word));
            let (_, word) = self.case(case)?;
            self.coverage.meet("fresh", abi::number(word));
        }
        if rng.one_in(3) {
            let (_, word) = self.case(ReadCase::random(rng, case.setup, case.clock))?;
            self.coverage.meet("reader", abi::number(word));
            let (_, word) = self.case(WriteCase::random(rng, case.setup, case.clock))?;
            self.coverage.meet("writer", abi::number(word));
        }
        self.compare(CompareCase::random(rng, case.setup))
    }

    /// Other calls after a tick, which left this: words and polls.
    fn after(&mut self, rng: &mut Prng, left: &TickCase) -> Result<(), String> {
        if rng.one_in(2) {
            let judged = WordsCase::judged(rng, left);
            self.words(judged.clone().spoil(rng))?;
            self.words(judged)?;
        }
        self.poll(match rng.one_in(2) {
            true => PollCase::after(rng, left),
            false => PollCase::random(rng, left),
        })
    }

    pub fn tick(&mut self, case: TickCase) -> Result<(TickCase, Answer), String> {
        let given = case.clone();
        let (case, word) = self.case(case)?;
        let answer = abi::unpack_tick(word);
        self.coverage.meet("call", answer.number);
        if answer.number == 0 {
            self.meet_nudges(&given, &case, &answer);
            self.coverage.meet("mend", answer.repair);
            self.coverage.meet("sent", u8::from(answer.outgoing > 0));
            self.coverage.meet("gave", u8::from(answer.delivered > 0));
            for &number in &case.verdicts[..case.batch[0].into()] {
                self.coverage.meet("frame", number);
            }
        }
        Ok((case, answer))
    }

    /// Counts what an accepted call meets of the nudged clocks.
    fn meet_nudges(&mut self, given: &TickCase, left: &TickCase, answer: &Answer) {
        let TickCase { setup, clock, holdback, .. } = given;
        let step = Timestamp::of_state(setup, &given.state).sound_step(setup, *clock);
        let kinds = [
            ("step", nudges::step_of(given)),
            ("early", nudges::early_of(setup, *clock, &left.delivery)),
            ("overdue", nudges::overdue_of(setup, *clock, holdback, step, answer)),
        ];
        for (what, kind) in kinds {
            kind.into_iter().for_each(|kind| self.coverage.meet(what, kind));
        }
    }

    pub fn listen(&mut self, given: ListenCase) -> Result<(ListenCase, Answer), String> {
        let (left, word) = self.case(given.clone())?;
        let answer = abi::unpack_tick(word);
        for (what, kind) in observers::kinds_of(&given, &left, &answer) {
            self.coverage.meet(what, kind);
        }
        Ok((left, answer))
    }

    fn words(&mut self, case: WordsCase) -> Result<(), String> {
        let (case, word) = self.case(case)?;
        let answer = abi::number(word);
        self.coverage.meet("words", answer);
        if answer == 0 {
            for &number in &case.verdicts[..case.batch[0].into()] {
                self.coverage.meet("line", number);
            }
        }
        if answer == 6 {
            case.no_verdict().into_iter().for_each(|number| self.coverage.meet("no line", number));
        }
        Ok(())
    }

    fn compare(&mut self, case: CompareCase) -> Result<(), String> {
        let (case, word) = self.case(case)?;
        for (what, kind) in reasons::kinds_of(&case, word) {
            self.coverage.meet(what, kind);
        }
        Ok(())
    }

    fn poll(&mut self, case: PollCase) -> Result<(), String> {
        let (case, word) = self.case(case)?;
        for (what, kind) in polls::kinds_of(&case, word) {
            self.coverage.meet(what, kind);
        }
        Ok(())
    }

    /// Makes one call to both; what it left, and the answer.
    pub fn case<C: Case>(&mut self, case: C) -> Result<(C, u64), String> {
        let (mut left, mut right) = (case.clone(), case.clone());
        let answers = [left.call(self.left), right.call(self.right)];
        self.calls += 1;
        *self.made.entry(C::NAME).or_default() += 1;
        if answers[0] == answers[1] && left.buffers() == right.buffers() {
            return Ok((left, answers[0]));
        }
        let mut text = format!("call {}: {}\n{}", self.calls, case.numbers(), given(&case));
        text += &format!("  answers {:#x} and {:#x}\n", answers[0], answers[1]);
        for ((name, ours), (_, theirs)) in left.buffers().into_iter().zip(right.buffers()) {
            if let Some(difference) = first_difference(ours, theirs) {
                text += &format!("  {name} {difference}\n");
            }
        }
        Err(text)
    }

    /// Plays groups with engines beside their nodes until at least this many calls more are made.
    pub fn run_engines(&mut self, rng: &mut Prng, count: u64) -> Result<(), String> {
        let before = self.calls;
        while self.calls - before < count {
            let (setup, nudges) = (generate::long::setup(rng), rng.one_in(2));
            let mut beside = Beside::fresh(rng, setup, nudges);
            let rounds = 3 * setup.modulus;
            let mut end = 0;
            for _ in 0..rng.range(1, (setup.n * rounds).min(240)) {
                end = self.engine_step(rng, &mut beside)?;
                if end > 0 {
                    break;
                }
            }
            self.coverage.meet("beside", end);
            self.coverage.meet("beside wraps", beside.wraps().min(2) as u8);
            self.engine_calls = self.calls - before;
        }
        Ok(())
    }

    /// One call of a group's member as node and as engine, which must come to the same, with other calls
    /// of engines before it. The number that ends the run, since the engine's clock is 2^63 or it would
    /// hold more than 64 messages, otherwise 0.
    fn engine_step(&mut self, rng: &mut Prng, beside: &mut Beside) -> Result<u8, String> {
        let Pair { member, node, engine } = beside.next_pair(rng);
        self.around(rng, &engine)?;
        let wild = beside.wild_case(rng, member, &engine);
        let (wild, answer) = self.long(wild)?;
        if answer.number == 0 {
            beside.settle_wild(member, wild);
        }
        let (engine, answer) = self.long(engine)?;
        if answer.number > 0 {
            return Ok(answer.number);
        }
        if engine.verdicts[..engine.batch[0].into()].contains(&18) {
            return Ok(18);
        }
        let (node, word) = self.case(node)?;
        let node_answer = abi::unpack_tick(word);
        generate::engines::same(&node, &node_answer, &engine, &answer).map_err(|what| {
            format!("call {}: a node and its engine differ in {what}", self.calls)
        })?;
        self.pairs += 1;
        for (what, kind) in engines::pair_kinds_of(&engine, &answer) {
            self.coverage.meet(what, kind);
        }
        beside.settle(Pair { member, node, engine }, &node_answer, &answer);
        Ok(0)
    }

    /// Other calls of an engine: with wrong arguments, with another memory and with frames that nobody
    /// sent; frames read and written.
    fn around(&mut self, rng: &mut Prng, case: &LongCase) -> Result<(), String> {
        if rng.one_in(4) {
            let wrong = case.clone().spoil(rng);
            self.long(wrong)?;
        }
        if rng.one_in(2) {
            let other = case.stepped(rng).noisy(rng);
            self.long(other)?;
        }
        if rng.one_in(16) {
            let (_, word) = self.case(LongFreshCase::random(rng, case.setup, case.clock))?;
            self.coverage.meet("long fresh", abi::number(word));
        }
        if rng.one_in(3) {
            let (_, word) = self.case(LongReadCase::random(rng, case.setup, case.clock))?;
            self.coverage.meet("long reader", abi::number(word));
            let (_, word) = self.case(LongWriteCase::random(rng, case.setup, case.clock))?;
            self.coverage.meet("long writer", abi::number(word));
        }
        Ok(())
    }

    fn long(&mut self, given: LongCase) -> Result<(LongCase, Answer), String> {
        let (left, word) = self.case(given.clone())?;
        let answer = abi::unpack_tick(word);
        for (what, kind) in engines::kinds_of(&given, &left, &answer) {
            self.coverage.meet(what, kind);
        }
        Ok((left, answer))
    }

    /// Replays this many traces.
    pub fn run_traces(&mut self, rng: &mut Prng, count: u64) -> Result<(), String> {
        for _ in 0..count {
            let trace = generate::traces::random(rng);
            let (left, right) = (self.left.replay(&trace)?, self.right.replay(&trace)?);
            self.traces += 1;
            alike(&format!("trace {}", self.traces), &trace, &left, &right)?;
            let number = refusal(&left);
            self.coverage.meet("trace", number);
            if number == 0 {
                let kinds = nudges::steps_of(&trace, "", &left);
                kinds.into_iter().for_each(|kind| self.coverage.meet("trace step", kind));
            }
            for kind in reasons::of_lines(&left) {
                self.coverage.meet("trace reason", kind);
            }
            self.coverage.meet("trace gave", u8::from(left.contains("\ngive ")));
        }
        Ok(())
    }

    /// Rehearses this many traces of a whole group.
    pub fn run_yards(&mut self, rng: &mut Prng, count: u64) -> Result<(), String> {
        for _ in 0..count {
            let (trace, flaw) = generate::yards::random(rng);
            let (left, right) = (self.left.yard(&trace)?, self.right.yard(&trace)?);
            self.rehearsals += 1;
            alike(&format!("rehearsal {}", self.rehearsals), &trace, &left, &right)?;
            for (what, kind) in yards::kinds_of(&trace, flaw, &left) {
                self.coverage.meet(what, kind);
            }
        }
        Ok(())
    }
}

/// Are two texts for a trace the same?
fn alike(name: &str, trace: &[u8], left: &str, right: &str) -> Result<(), String> {
    if left == right {
        return Ok(());
    }
    Err(format!("{name}: {}\n  one writes\n{left}  the other\n{right}", hex(trace)))
}

/// The number with which a text ends that was refused, otherwise 0.
pub fn refusal(text: &str) -> u8 {
    let last = text.lines().last().unwrap_or_default();
    let number = last.strip_prefix("refused ").map_or(Ok(0), str::parse);
    number.expect("a number after refused")
}

/// The buffers as they were given, long ones cut.
fn given(case: &impl Case) -> String {
    let line = |(name, bytes): (&str, &[u8])| {
        let used = bytes.iter().rposition(|&byte| byte != 0).map_or(0, |last| last + 1);
        let shown = hex(&bytes[..used.min(SHOWN)]);
        let more = if used > SHOWN { " and more" } else { "" };
        format!("  given {name}, {} bytes: {shown}{more}\n", bytes.len())
    };
    case.buffers().into_iter().map(line).collect()
}

fn first_difference(ours: &[u8], theirs: &[u8]) -> Option<String> {
    let at = ours.iter().zip(theirs).position(|(a, b)| a != b)?;
    Some(format!("differ first at byte {at}: {} and {}", ours[at], theirs[at]))
}
