//! Calls with both pairs (02, 2.10) made to two programs, and what they meet, as numbers for the
//! coverage.

use crate::run::{Case, Comparison};
use crate::subject::Subject;
use oracle::generate::pairs::clock;
use oracle::generate::wider::{aimed, Walk};
use oracle::generate::{spoil, CompareCase, FreshCase, ListenCase, PollCase, Prng, ReadCase};
use oracle::generate::{Act, Bounds, Season, TickCase, WordsCase, WriteCase, WriteInCase};
use oracle::holdback::Entry;
use oracle::{abi, batch, node, Answer, Both, Frame, Limits, Reason, Settings, Setup};

type Kinds = Vec<(&'static str, u8)>;

impl Case for TickCase<Both> {
    const NAME: &str = "tick_in";

    fn call(&mut self, subject: &mut dyn Subject) -> u64 {
        subject.tick_in(self)
    }

    fn numbers(&self) -> String {
        format!("tick with both pairs: {:?} clock {} send {}", self.setup, self.clock, self.send)
    }

    fn buffers(&self) -> Vec<(&'static str, &[u8])> {
        vec![
            ("tables", &self.state),
            ("shelf", &self.holdback),
            ("bundle", &self.batch),
            ("ticket", &self.payload),
            ("outgoing", &self.outgoing),
            ("verdicts", &self.verdicts),
            ("hand-out", &self.delivery),
        ]
    }
}

impl Case for ListenCase<Both> {
    const NAME: &str = "listen_in";

    fn call(&mut self, subject: &mut dyn Subject) -> u64 {
        subject.listen_in(self)
    }

    fn numbers(&self) -> String {
        format!("observer with both pairs: {:?} clock {}", self.setup, self.clock)
    }

    fn buffers(&self) -> Vec<(&'static str, &[u8])> {
        vec![
            ("last", &self.last),
            ("shelf", &self.holdback),
            ("bundle", &self.batch),
            ("verdicts", &self.verdicts),
            ("hand-out", &self.delivery),
        ]
    }
}

impl Case for FreshCase<Both> {
    const NAME: &str = "fresh_in";

    fn call(&mut self, subject: &mut dyn Subject) -> u64 {
        subject.fresh_in(self)
    }

    fn numbers(&self) -> String {
        format!("start with both pairs: {:?} clock {}", self.setup, self.clock)
    }

    fn buffers(&self) -> Vec<(&'static str, &[u8])> {
        vec![("tables", &self.state)]
    }
}

impl Case for ReadCase<Both> {
    const NAME: &str = "read_in";

    fn call(&mut self, subject: &mut dyn Subject) -> u64 {
        subject.read_in(self)
    }

    fn numbers(&self) -> String {
        format!("reader with both pairs: {:?}", self.setup)
    }

    fn buffers(&self) -> Vec<(&'static str, &[u8])> {
        vec![("frame", &self.frame), ("tables", &self.state)]
    }
}

impl Case for WriteInCase {
    const NAME: &str = "write_in";

    fn call(&mut self, subject: &mut dyn Subject) -> u64 {
        subject.write_in(self)
    }

    fn numbers(&self) -> String {
        let WriteInCase { setup, node, wide, .. } = self;
        format!("writer with both pairs: {setup:?} station {node} wide {wide}")
    }

    fn buffers(&self) -> Vec<(&'static str, &[u8])> {
        vec![("tables", &self.state), ("ticket", &self.payload), ("out", &self.out)]
    }
}

impl Case for WordsCase<Both> {
    const NAME: &str = "words_in";

    fn call(&mut self, subject: &mut dyn Subject) -> u64 {
        subject.words_in(self)
    }

    fn numbers(&self) -> String {
        format!("words with both pairs: {:?}", self.setup)
    }

    fn buffers(&self) -> Vec<(&'static str, &[u8])> {
        vec![("bundle", &self.batch), ("verdicts", &self.verdicts), ("text", &self.text)]
    }
}

impl Case for CompareCase<Both> {
    const NAME: &str = "compare_in";

    fn call(&mut self, subject: &mut dyn Subject) -> u64 {
        subject.compare_in(self)
    }

    fn numbers(&self) -> String {
        format!("compare with both pairs: {:?} clock {}", self.setup, self.clock)
    }

    fn buffers(&self) -> Vec<(&'static str, &[u8])> {
        vec![("first", &self.first), ("second", &self.second)]
    }
}

impl Case for PollCase<Both> {
    const NAME: &str = "poll_in";

    fn call(&mut self, subject: &mut dyn Subject) -> u64 {
        subject.poll_in(self)
    }

    fn numbers(&self) -> String {
        let PollCase { setup, clock, within, .. } = self;
        format!("poll with both pairs: {setup:?} clock {clock} within {within}")
    }

    fn buffers(&self) -> Vec<(&'static str, &[u8])> {
        vec![("shelf", &self.holdback)]
    }
}

/// A call with both pairs, and the plain one that it is where they are equal.
trait CaseIn: Case {
    type Plain: Case;

    fn setup(&self) -> &Both;

    /// The same call with a plain setup.
    fn with_plain(self, setup: Setup) -> Self::Plain;
}

/// Says so of a case that has a setup and other parts, which are the same in the plain call.
macro_rules! case_in {
    ($case:ident { $($part:ident),* }) => {
        impl CaseIn for $case<Both> {
            type Plain = $case;

            fn setup(&self) -> &Both {
                &self.setup
            }

            fn with_plain(self, setup: Setup) -> $case {
                let $case { $($part,)* .. } = self;
                $case { setup, $($part),* }
            }
        }
    };
}

case_in!(TickCase { clock, state, holdback, batch, send, payload, outgoing, verdicts, delivery });
case_in!(ListenCase { clock, last, holdback, batch, verdicts, delivery });
case_in!(FreshCase { clock, state });
case_in!(ReadCase { frame, state });
case_in!(WordsCase { batch, verdicts, text });
case_in!(CompareCase { clock, first, second });
case_in!(PollCase { clock, within, holdback });

impl CaseIn for WriteInCase {
    type Plain = WriteCase;

    fn setup(&self) -> &Both {
        &self.setup
    }

    fn with_plain(self, setup: Setup) -> WriteCase {
        let WriteInCase { node, state, payload, out, .. } = self;
        WriteCase { setup, node, state, payload, out }
    }
}

impl Comparison<'_> {
    /// Lets nodes walk through V from any memory, and plays groups that go through it, until at least
    /// this many calls with both pairs are made.
    pub fn run_wider(&mut self, rng: &mut Prng, count: u64) -> Result<(), String> {
        let before = self.calls;
        while self.wider_calls < count {
            if rng.one_in(2) {
                self.walk(rng)?;
            } else {
                self.season(rng)?;
            }
            self.plain_beside = self.calls - before - self.wider_calls;
        }
        Ok(())
    }

    /// One node's walk.
    fn walk(&mut self, rng: &mut Prng) -> Result<(), String> {
        let mut walk = Walk::start(rng);
        for _ in 0..rng.range(1, 40) {
            let Some(case) = walk.next_case(rng) else { break };
            self.before_wider(rng, &case)?;
            let (left, answer) = self.tick_in(case)?;
            self.after_wider(rng, &left)?;
            if answer.number == 0 {
                walk.settle(left);
            }
        }
        Ok(())
    }

    /// A group's calls, those with a plain setup before and after too.
    fn season(&mut self, rng: &mut Prng) -> Result<(), String> {
        let is_fresh = rng.one_in(3);
        let mut season = Season::start(rng, Bounds::default(), is_fresh);
        for _ in 0..rng.range(1, 80) {
            let payload = rng.payload();
            let Some(mut act) = season.next_act(rng, &payload) else { break };
            self.act(&act)?;
            self.meet_all(act_kinds(&season, &act));
            let answer = act.run();
            season.settle(&act, &answer);
        }
        Ok(())
    }

    /// A call of a group, node's or observer's, with the setup of its phase.
    fn act(&mut self, act: &Act) -> Result<(), String> {
        let case = act.case.clone();
        match (act.plain(), act.is_node) {
            (Some(setup), true) => drop(self.case(case.with(setup))?),
            (Some(setup), false) => drop(self.case(ListenCase::of(case.with(setup)))?),
            (None, true) => drop(self.tick_in(case)?),
            (None, false) => drop(self.listen_in(ListenCase::of(case))?),
        }
        Ok(())
    }

    /// Makes a call with both pairs. Where these are equal the plain call has to leave the same.
    fn case_in<C: CaseIn>(&mut self, given: C) -> Result<(C, u64), String> {
        let (left, word) = self.case(given.clone())?;
        self.wider_calls += 1;
        let Some(setup) = given.setup().plain() else { return Ok((left, word)) };
        let marked = given.setup().marked as u8;
        let numbers = given.numbers();
        let (plain, plain_word) = self.case(given.with_plain(setup))?;
        if word != plain_word || left.buffers() != plain.buffers() {
            return Err(format!(
                "call {}: {numbers}\n  equal pairs do not what the plain call does",
                self.calls
            ));
        }
        self.coverage.meet("in equal", marked);
        Ok((left, word))
    }

    /// Other calls before a tick: with wrong arguments, with another memory, with V elsewhere, with a
    /// queue at its limit; of observers; starts; frames read, written and compared.
    fn before_wider(&mut self, rng: &mut Prng, case: &TickCase<Both>) -> Result<(), String> {
        if rng.one_in(3) {
            let mut wrong = case.clone();
            spoil::spoil(rng, &mut wrong);
            self.listen_in(ListenCase::of(wrong.clone()))?;
            self.tick_in(wrong)?;
        }
        let other = case.aimed(rng);
        if rng.one_in(2) {
            self.tick_in(other.stepped(rng))?;
            self.listen_in(ListenCase::stepped(rng, &other))?;
        }
        if rng.one_in(4) {
            self.tick_in(other.clone())?;
        }
        if rng.one_in(8) {
            self.tick_in(other.crowded(rng))?;
        }
        let at = clock(rng, &case.setup.old);
        let setup = aimed(rng, case.setup, at);
        if rng.one_in(8) {
            let (_, word) = self.case_in(FreshCase::random(rng, setup))?;
            self.coverage.meet("in fresh", abi::number(word));
        }
        if rng.one_in(2) {
            let (_, word) = self.case_in(ReadCase::random(rng, setup, at))?;
            self.coverage.meet("in reader", abi::number(word));
            if abi::number(word) == 0 {
                self.coverage.meet("in reader wide", abi::unpack_wide(word).into());
            }
            let (case, word) = self.case_in(WriteInCase::random(rng, setup, at))?;
            self.coverage.meet("in writer", abi::number(word));
            if abi::number(word) == 0 {
                self.coverage.meet("in writer wide", case.wide.into());
            }
        }
        self.compare_in(CompareCase::near(rng, setup, at))
    }

    /// Other calls after a tick, which left this: words and polls.
    fn after_wider(&mut self, rng: &mut Prng, left: &TickCase<Both>) -> Result<(), String> {
        if rng.one_in(3) {
            let judged = WordsCase::judged(rng, left);
            for case in [judged.clone().spoil(rng), judged] {
                let (_, word) = self.case_in(case)?;
                self.coverage.meet("in words", abi::number(word));
            }
        }
        let other = left.aimed(rng);
        let case = match rng.one_in(2) {
            true => PollCase::after(rng, left),
            false => PollCase::random(rng, &other),
        };
        let (_, word) = self.case_in(case)?;
        self.coverage.meet("in poll", abi::number(word));
        if abi::number(word) == 0 {
            self.coverage.meet("in poll next", abi::unpack_poll(word).next.is_some().into());
        }
        Ok(())
    }

    fn tick_in(&mut self, given: TickCase<Both>) -> Result<(TickCase<Both>, Answer), String> {
        let (left, word) = self.case_in(given.clone())?;
        let answer = abi::unpack_tick(word);
        self.coverage.meet("in call", answer.number);
        if answer.number == 0 {
            self.meet_all(tick_kinds(&given, &answer));
            let heard = ListenCase::of(left.clone());
            self.meet_all(board_kinds(&heard, answer.delivered));
        }
        Ok((left, answer))
    }

    fn listen_in(&mut self, given: ListenCase<Both>) -> Result<ListenCase<Both>, String> {
        let (left, word) = self.case_in(given)?;
        let answer = abi::unpack_tick(word);
        self.coverage.meet("in listen", answer.number);
        if answer.number == 0 {
            self.coverage.meet("in listen mend", answer.repair);
            self.meet_all(board_kinds(&left, answer.delivered));
        }
        Ok(left)
    }

    fn compare_in(&mut self, case: CompareCase<Both>) -> Result<(), String> {
        let (case, word) = self.case_in(case)?;
        self.coverage.meet("in compare", abi::number(word));
        if abi::number(word) == 0 {
            self.meet_all(compare_kinds(&case));
        }
        Ok(())
    }

    fn meet_all(&mut self, kinds: Kinds) {
        kinds.into_iter().for_each(|(what, kind)| self.coverage.meet(what, kind));
    }
}

/// Of a call of a group: its phase; and what it does for the first time: 0 takes up both pairs, 1 has
/// the mark, 2 takes the plain new setup.
fn act_kinds(season: &Season, act: &Act) -> Kinds {
    let before = season.members[act.member].phase;
    let passes = act.last < season.schedule.change && season.schedule.change <= act.v;
    let mut kinds = vec![("in phase", act.phase as u8)];
    kinds.extend((before < act.phase).then_some(("in turn", 2 * before as u8)));
    kinds.extend((passes && act.plain().is_none()).then_some(("in turn", 1)));
    kinds
}

/// Of an accepted tick: the mend; the side (1 is marked); and where the tables are sound, their width
/// and the side: 0 unmarked, 1 marked and narrow, 2 marked and wide, with an odd one, 3, for a setup
/// whose pairs are equal.
fn tick_kinds(given: &TickCase<Both>, answer: &Answer) -> Kinds {
    let TickCase { setup, clock, state, .. } = given;
    let limits = setup.at(*clock);
    let mut kinds = vec![("in mend", answer.repair), ("in side", setup.marked as u8)];
    let kind = match node::tables(&limits, *clock, state).kn.len() {
        _ if setup.old.epsilon == setup.wider_epsilon => 3,
        _ if !setup.is_marked() => 0,
        width if width == setup.old.width() => 1,
        _ => 2,
    };
    if answer.repair & 1 == 0 {
        kinds.push(("in tables", kind));
    }
    kinds
}

/// Of an accepted call what it left on its board: verdicts; of each frame taken its width and the side
/// (0 narrow and unmarked, 1 wide and unmarked, 2 and 3 marked); of 13 its half (0 the first, 1 the
/// second alone); of what is handed out whether it was due before V (0) or not (1).
fn board_kinds(left: &ListenCase<Both>, delivered: u16) -> Kinds {
    let ListenCase { setup, clock, batch, verdicts, delivery, .. } = left;
    let limits = setup.at(*clock);
    let mut kinds = Kinds::new();
    for (bytes, &verdict) in batch::entries(batch).expect("an exact batch").iter().zip(verdicts) {
        kinds.push(("in frame", verdict));
        let Ok(frame) = Frame::parse(&limits, bytes) else { continue };
        let entry = Entry::near(&limits, *clock, frame);
        let wide = setup.is_wide(frame.timestamp.kn.len());
        match verdict {
            0 => kinds.push(("in width", 2 * setup.marked as u8 + u8::from(wide))),
            13 => {
                let own = limits.own();
                let first = -entry.ahead > own.delta + own.epsilon;
                kinds.push(("in 13", u8::from(!first)));
            }
            _ => (),
        }
    }
    let mut rest = &delivery[2..];
    for _ in 0..delivered {
        let (frame, after) = Frame::split(&limits, rest).expect("a delivered frame");
        let entry = Entry::near(&limits, *clock, frame);
        kinds.push(("in due", u8::from(entry.due(&limits) >= limits.change)));
        rest = after;
    }
    kinds
}

/// Of an accepted comparison: the reason's number; whether the frames have two widths (1); and where a
/// count decided, whether it is one of the first ε (0) or a later one (1).
fn compare_kinds(case: &CompareCase<Both>) -> Kinds {
    let CompareCase { setup, clock, first, second } = case;
    let limits = setup.at(*clock);
    let near = |bytes| Entry::near(&limits, *clock, Frame::parse(&limits, bytes).expect("a frame"));
    let (first, second) = (near(first), near(second));
    let (a, b) = (first.frame.timestamp, second.frame.timestamp);
    let (_, reason) = oracle::reason::decide(&limits, *clock, &first, &second);
    let mut kinds = vec![("in reason", reason.number())];
    kinds.push(("in widths", u8::from(a.kn.len() != b.kn.len())));
    if let Reason::Count(_) = reason {
        let differ = |&k: &i64| a.count(a.c - k) != b.count(b.c - k);
        let k = (0..first.depth).find(differ).expect("a count that differs");
        kinds.push(("in count", u8::from(k >= setup.old.epsilon)));
    }
    kinds
}
