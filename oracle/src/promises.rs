//! What the recovery statement promises of a list of calls through V (02, 2.10), and what 2.14 adds
//! to it, judged call by call with true clocks.

use crate::generate::{frames, Act, Bounds, Prng, Season};
use crate::holdback::Entry;
use crate::{Answer, Frame, Limits, Setup, Timestamp};
use std::cmp::Ordering;
use std::collections::BTreeMap;
use std::fmt;

/// What was promised and did not hold.
#[derive(Clone, Copy, Debug, PartialEq, Eq, PartialOrd, Ord)]
pub enum Broken {
    /// A call that should be accepted was refused.
    Call,
    /// A frame sent is not what the writer makes of the new tables.
    Sending,
    /// A covered message got the wrong verdict.
    Hearing,
    /// A hand-out is not what is due, in order.
    Delivering,
    /// A cause does not come first.
    Causality,
    /// 2.14: a message far before another is handed out after it.
    Apart,
    /// 2.14: a message was heard and is handed out too late.
    Soon,
}

/// A message of the list.
struct Message {
    bytes: Vec<u8>,
    /// Its true clock.
    r: i64,
    /// The latest message, in the order, that leads to it; itself if there is none later.
    known: usize,
}

/// A board of the list.
#[derive(Clone, Default)]
struct Board {
    /// Which messages it heard.
    heard: Vec<usize>,
    /// The covered ones that are still to be handed out.
    pending: Vec<usize>,
    /// The latest covered message, in the order, whose call leads to the next of this board.
    known: Option<usize>,
    /// The latest clock of a covered message that was handed out.
    shown: Option<i64>,
    /// The largest step so far.
    longest: i64,
    calls: u32,
}

/// A list as it goes on.
pub struct List {
    pub season: Season,
    boards: Vec<Board>,
    messages: Vec<Message>,
    /// How many calls were made.
    pub calls: u64,
    /// How many covered messages were handed out.
    pub shown: u64,
    /// Was memory mended that a call had left? Nothing is promised of that, but it does harm.
    pub mended: bool,
}

impl List {
    pub fn new(season: Season) -> Self {
        let boards = vec![Board::default(); season.members.len()];
        List { season, boards, messages: Vec::new(), calls: 0, shown: 0, mended: false }
    }

    /// One more call: whether there was one, or what it broke.
    pub fn step(&mut self, rng: &mut Prng) -> Result<bool, Broken> {
        let payload = (self.messages.len() as u32).to_le_bytes();
        let Some(mut act) = self.season.next_act(rng, &payload) else {
            return Ok(false);
        };
        if rng.one_in(16) {
            require(is_refused(&act), Broken::Call)?;
        }
        let answer = act.run();
        self.calls += 1;
        require(answer.number == 0, Broken::Call)?;
        self.season.settle(&act, &answer);
        let board = &mut self.boards[act.member];
        board.longest = board.longest.max(act.v - act.last);
        board.calls += 1;
        let is_first = board.calls == 1 && !self.season.is_fresh;
        self.see_hearing(&act)?;
        if answer.outgoing > 0 {
            self.see_sending(&act, &answer)?;
        }
        self.see_delivery(&act)?;
        self.see_time(&act)?;
        self.mended |= !is_first && answer.repair > 0;
        Ok(true)
    }

    fn is_covered(&self, message: usize) -> bool {
        self.messages[message].r >= self.season.covered_from()
    }

    /// A message with its key by true clocks.
    fn entry(&self, message: usize) -> Entry<'_> {
        let Message { bytes, r, .. } = &self.messages[message];
        let (frame, _) = Frame::split(&self.season.schedule, bytes).expect("a message");
        Entry::at(&self.season.schedule, *r, frame)
    }

    fn due(&self, message: usize) -> i64 {
        self.entry(message).due(&self.season.schedule)
    }

    fn order(&self, first: usize, second: usize) -> Ordering {
        self.entry(first).order(&self.entry(second))
    }

    /// The later of two messages.
    fn later(&self, first: Option<usize>, second: usize) -> usize {
        match first {
            Some(first) if self.order(first, second).is_ge() => first,
            _ => second,
        }
    }

    /// "A covered message gets verdict 0 at its first hearing, 16 at each later one."
    fn see_hearing(&mut self, act: &Act) -> Result<(), Broken> {
        for (source, &verdict) in act.sources.iter().zip(&act.case.verdicts) {
            let &Some(message) = source else { continue };
            let is_covered = self.is_covered(message);
            let board = &mut self.boards[act.member];
            let first = !board.heard.contains(&message);
            if first {
                board.heard.push(message);
            }
            if is_covered && first {
                board.pending.push(message);
            }
            let right = if first { 0 } else { 16 };
            require(!is_covered || verdict == right, Broken::Hearing)?;
            if verdict == 0 && is_covered {
                let known = self.later(self.boards[act.member].known, self.messages[message].known);
                self.boards[act.member].known = Some(known);
            } else if verdict == 0 {
                // What is not covered leads on to what it knows of.
                let known = self.messages[message].known;
                if self.is_covered(known) {
                    let known = self.later(self.boards[act.member].known, known);
                    self.boards[act.member].known = Some(known);
                }
            }
            self.see_apart(act.member, message, first && is_covered)?;
        }
        Ok(())
    }

    /// 2.14 of a message that is heard after one far later was handed out.
    fn see_apart(&self, board: usize, message: usize, is_new: bool) -> Result<(), Broken> {
        let shown = self.boards[board].shown.filter(|_| is_new);
        let far = shown.is_some_and(|shown| self.messages[message].r + self.apart() <= shown);
        require(!far, Broken::Apart)
    }

    /// How far apart two messages are that come in the order of their clocks: ε′.
    fn apart(&self) -> i64 {
        self.season.schedule.new.epsilon - self.season.bounds.apart
    }

    /// "An accepted call with a ticket to send sends the frame that the writer makes of its station,
    /// clock modulo B, new c and counts, and ticket"; what it could have known of comes first.
    fn see_sending(&mut self, act: &Act, answer: &Answer) -> Result<(), Broken> {
        let number = self.messages.len();
        let bytes = act.case.outgoing[..answer.outgoing.into()].to_vec();
        let own = self.season.schedule.of(act.v);
        let tables = Timestamp::of_state(own, &act.case.state);
        let written = frames::encode(act.member as i64, &tables, &act.case.payload);
        let right = bytes == written && tables.r == act.case.clock;
        let is_covered = act.v >= self.season.covered_from();
        require(!is_covered || right, Broken::Sending)?;
        let before = self.boards[act.member].known;
        self.messages.push(Message { bytes, r: act.v, known: number });
        if !is_covered {
            // It may know of covered messages only if it is not sent before them.
            self.messages[number].known = before.unwrap_or(number);
            return Ok(());
        }
        let first = before.is_none_or(|known| self.order(known, number).is_lt());
        require(first, Broken::Causality)?;
        self.boards[act.member].known = Some(number);
        Ok(())
    }

    /// "The handed-out frames whose r, read near v, is at least T are byte for byte the covered
    /// messages heard there so far that are due", by 2.2 after the last clock and not past v, "each
    /// once, in the order of two stamps".
    fn see_delivery(&mut self, act: &Act) -> Result<(), Broken> {
        let from = self.season.covered_from();
        let handed: Vec<&[u8]> = (act.handed_out().into_iter())
            .filter(|&(_, r)| r >= from)
            .map(|(frame, _)| frame.bytes)
            .collect();
        let pending = std::mem::take(&mut self.boards[act.member].pending);
        let (mut due, rest): (Vec<usize>, Vec<usize>) =
            pending.into_iter().partition(|&message| self.due(message) <= act.v);
        due.retain(|&message| self.due(message) > act.last);
        due.sort_by(|&a, &b| self.order(a, b));
        let expected: Vec<&[u8]> = due.iter().map(|&m| &self.messages[m].bytes[..]).collect();
        require(handed == expected, Broken::Delivering)?;
        require(due.iter().all(|&message| !self.is_late(act, message)), Broken::Soon)?;
        self.shown += due.len() as u64;
        let r = |&message: &usize| self.messages[message].r;
        let mut shown = self.boards[act.member].shown;
        for message in &due {
            let far = shown.is_some_and(|shown| r(message) + self.apart() <= shown);
            require(!far, Broken::Apart)?;
            shown = shown.max(Some(r(message)));
        }
        self.boards[act.member].shown = shown;
        self.boards[act.member].pending = rest;
        Ok(())
    }

    /// 2.14: "each one heard is handed out before the board's clock reaches the sending clock + δ + 2ε",
    /// by 2.2 s − 1 later. What is handed out at v or not yet is late if v is that clock.
    fn is_late(&self, act: &Act, message: usize) -> bool {
        let Setup { epsilon, delta, .. } = self.season.schedule.new;
        let longest = self.boards[act.member].longest;
        let limit = delta + 2 * epsilon + longest - 1 - self.season.bounds.soon;
        self.messages[message].r + limit <= act.v
    }

    /// The same of what was heard and is still not handed out.
    fn see_time(&self, act: &Act) -> Result<(), Broken> {
        let pending = &self.boards[act.member].pending;
        require(pending.iter().all(|&message| !self.is_late(act, message)), Broken::Soon)
    }
}

/// Is the call refused, and does it change nothing, with a bundle that does not end after its last
/// entry? Such a call may stand anywhere: the same call comes after it.
fn is_refused(act: &Act) -> bool {
    let mut wrong = act.clone();
    wrong.case.batch.push(0);
    let given = wrong.case.clone();
    wrong.run().number == 5 && wrong.case == given
}

fn require(holds: bool, broken: Broken) -> Result<(), Broken> {
    if holds {
        Ok(())
    } else {
        Err(broken)
    }
}

/// What some lists came to.
#[derive(Clone, Debug, Default)]
pub struct Totals {
    pub lists: u64,
    pub calls: u64,
    /// Covered messages handed out.
    pub shown: u64,
    /// In how many lists memory was mended that a call had left.
    pub mended: u64,
    /// How many lists broke, by what broke first, and the seed of the first.
    pub broken: BTreeMap<Broken, (u64, u64)>,
}

/// Makes so many lists with these bounds, each from its own seed.
pub fn run(seed: u64, lists: u64, calls: u64, bounds: Bounds) -> Totals {
    let mut totals = Totals::default();
    for own in seeds(seed, lists) {
        let (list, broken) = play(own, calls, bounds);
        if let Some(broken) = broken {
            totals.broken.entry(broken).or_insert((0, own)).0 += 1;
        }
        totals.lists += 1;
        totals.calls += list.calls;
        totals.shown += list.shown;
        totals.mended += u64::from(list.mended);
    }
    totals
}

/// The seeds of so many lists.
pub fn seeds(seed: u64, lists: u64) -> impl Iterator<Item = u64> {
    let first = seed.wrapping_mul(1_000_003);
    (0..lists).map(move |number| first.wrapping_add(number))
}

/// Makes one list of up to so many calls with these bounds, a third of all seeds from a fresh start;
/// what broke, if something did.
pub fn play(seed: u64, calls: u64, bounds: Bounds) -> (List, Option<Broken>) {
    let mut rng = Prng::new(seed);
    let mut list = List::new(Season::start(&mut rng, bounds, seed % 3 == 0));
    for _ in 0..rng.range(1, calls as i64) {
        match list.step(&mut rng) {
            Ok(true) => (),
            Ok(false) => break,
            Err(broken) => return (list, Some(broken)),
        }
    }
    (list, None)
}

impl fmt::Display for Totals {
    fn fmt(&self, f: &mut fmt::Formatter) -> fmt::Result {
        let Totals { lists, calls, shown, mended, broken } = self;
        write!(f, "{lists} lists, {calls} calls, {shown} covered messages handed out, ")?;
        if *mended > 0 {
            write!(f, "{mended} with mends, ")?;
        }
        if broken.is_empty() {
            return write!(f, "none broke");
        }
        let parts = broken.iter().map(|(what, (count, seed))| {
            format!("{count} broke by {what:?} (the first from {seed})").to_lowercase()
        });
        write!(f, "{}", parts.collect::<Vec<_>>().join(", "))
    }
}
