//! What the limits of a call are: one pair in a plain setup, and by 02's 2.10 ("Wider limits in mid
//! season") two, which the setup carries with V, the clock of the change. Here ε, δ are the old
//! pair, ε′, δ′ the wider one. A plain call has the same limits at every clock; the code of calls is
//! the same for both.

use crate::fault::{planted, skew};
use crate::{ask, Setup};

/// The pairs that a call knows of, each as a whole setup.
pub trait Pairs: Copy {
    /// The old one and the wider one; of a plain setup twice the same.
    fn pairs(&self) -> [Setup; 2];

    /// May a frame have so many counts? "Both widths are read always."
    fn has_width(&self, counts: usize) -> bool {
        self.pairs().iter().any(|pair| counts == pair.width())
    }

    /// The limits of a frame with so many counts.
    fn of_width(&self, counts: usize) -> Setup {
        let [old, wider] = self.pairs();
        if counts == old.width() {
            old
        } else {
            wider
        }
    }

    /// The limits that sizes of queues and buffers go by.
    fn widest(&self) -> Setup {
        self.pairs()[1]
    }
}

/// The setup of a call, as given.
pub trait Settings: Pairs {
    type Limits: Limits;

    /// Check 1, and 19 right behind it.
    fn check(&self) -> Result<(), u8>;

    /// The same of an observer, which has no own number.
    fn check_observer(&self) -> Result<(), u8>;

    /// The limits of the side of V on which the mark puts the call.
    fn side(&self) -> Setup;

    /// The limits around a clock v.
    fn at(&self, v: i64) -> Self::Limits;
}

/// What a call asks of the limits of its own clock.
#[derive(Clone, Copy, Debug, PartialEq, Eq)]
pub enum Part {
    /// Where r is read near v.
    Near,
    /// The longest step.
    Step,
    /// Check 12: the largest c.
    C,
    /// Check 13: how far r is behind v.
    Late,
    /// Check 14: how far the sum is past v.
    Early,
    /// How many frames a sound queue has.
    Count,
}

/// The limits around a call's clock v. Clocks here are relative to v.
pub trait Limits: Pairs {
    /// The limits of a clock.
    fn of(&self, clock: i64) -> &Setup;

    /// The due clock of a sum.
    fn due(&self, sum: i64) -> i64;

    /// How many counts the order compares of frames with this sum.
    fn depth(&self, sum: i64) -> i64;

    /// The limits of the call's own clock.
    fn own(&self) -> &Setup {
        self.of(0)
    }

    /// The limits that a part of the call goes by: those of its own clock.
    fn by(&self, _part: Part) -> &Setup {
        self.own()
    }

    /// Is this a frame or are these tables with fewer counts than the call's own?
    fn is_narrow(&self, counts: usize) -> bool {
        counts < self.own().width()
    }
}

impl Pairs for Setup {
    fn pairs(&self) -> [Setup; 2] {
        [*self; 2]
    }

    fn has_width(&self, counts: usize) -> bool {
        counts == self.width()
    }
}

impl Settings for Setup {
    type Limits = Self;

    fn check(&self) -> Result<(), u8> {
        ask(self.is_valid(), 1)
    }

    fn check_observer(&self) -> Result<(), u8> {
        ask(if planted(36) { self.is_valid() } else { self.is_in_limits() }, 1)
    }

    fn side(&self) -> Setup {
        *self
    }

    fn at(&self, _v: i64) -> Self {
        *self
    }
}

impl Limits for Setup {
    fn of(&self, _clock: i64) -> &Setup {
        self
    }

    fn due(&self, sum: i64) -> i64 {
        sum + self.delta + self.epsilon
    }

    fn depth(&self, _sum: i64) -> i64 {
        self.epsilon
    }
}

/// A setup with both pairs, as given. Only a valid one is used beyond `check`.
#[derive(Clone, Copy, Debug, PartialEq, Eq)]
pub struct Both {
    /// n, the old pair, B and the own number.
    pub old: Setup,
    /// ε′.
    pub wider_epsilon: i64,
    /// δ′.
    pub wider_delta: i64,
    /// V, modulo B.
    pub change: i64,
    /// 1 once the clock is at or past V, 0 before.
    pub marked: i64,
}

impl Both {
    /// The plain setup with the wider pair.
    pub fn wider(&self) -> Setup {
        Setup { epsilon: self.wider_epsilon, delta: self.wider_delta, ..self.old }
    }

    pub fn is_marked(&self) -> bool {
        self.marked == 1
    }

    /// The plain setup that this one is where its pairs are equal and V and the mark are in their limits.
    pub fn plain(&self) -> Option<Setup> {
        let is_plain =
            self.wider() == self.old && self.change < self.old.modulus && self.marked <= 1;
        is_plain.then_some(self.old)
    }

    /// Has a frame with so many counts more than 2ε?
    pub fn is_wide(&self, counts: usize) -> bool {
        match planted(115) {
            true => counts == self.wider().width(),
            false => counts > self.old.width(),
        }
    }

    /// Where V lies relative to v: "unmarked, V lies (V − v) modulo B ahead, 0 meaning B; marked,
    /// (v − V) modulo B behind".
    fn change_near(&self, v: i64) -> i64 {
        let ahead = (self.change - v).rem_euclid(self.old.modulus);
        match self.is_marked() && !planted(83) {
            true => -(v - self.change).rem_euclid(self.old.modulus),
            false if ahead == 0 && !planted(82) => self.old.modulus,
            false => ahead,
        }
    }

    /// Are both pairs in their limits with n and B? (`is_in` says so of each.)
    fn are_pairs_in(&self, is_in: fn(&Setup) -> bool) -> bool {
        let mut wider = self.wider();
        if planted(110) {
            wider.modulus = 65_535;
        }
        is_in(&self.old) && (is_in(&wider) || planted(111))
    }

    /// "V below B (else 1)", and the mark 0 or 1; asked also where the pairs are equal.
    fn has_change(&self) -> bool {
        let unasked = planted(168) && self.wider() == self.old;
        unasked || self.change < self.old.modulus + skew(108) && (self.marked <= 1 || planted(109))
    }

    /// "Number 19 when ε′ or δ′ is smaller than the old": is neither?
    fn is_wider(&self) -> bool {
        let least = skew(107);
        (self.wider_epsilon >= self.old.epsilon + least || planted(105))
            && (self.wider_delta >= self.old.delta + least || planted(106))
    }

    /// 1, and 19 "asked after 1".
    fn check_by(&self, is_in: fn(&Setup) -> bool) -> Result<(), u8> {
        if planted(104) {
            ask(self.is_wider(), 19)?;
        }
        ask(self.are_pairs_in(is_in) && self.has_change(), 1)?;
        ask(self.is_wider(), 19)
    }
}

impl Pairs for Both {
    fn pairs(&self) -> [Setup; 2] {
        [self.old, self.wider()]
    }

    /// "Shelves and buffers have the new sizes."
    fn widest(&self) -> Setup {
        match () {
            () if planted(102) => self.side(),
            () if planted(103) => self.old,
            () => self.wider(),
        }
    }
}

impl Settings for Both {
    type Limits = Schedule;

    fn check(&self) -> Result<(), u8> {
        self.check_by(Setup::is_valid)
    }

    fn check_observer(&self) -> Result<(), u8> {
        match self.check_by(if planted(112) { Setup::is_valid } else { Setup::is_in_limits }) {
            Err(19) if planted(176) => Ok(()),
            checked => checked,
        }
    }

    fn side(&self) -> Setup {
        if self.is_marked() {
            self.wider()
        } else {
            self.old
        }
    }

    fn at(&self, v: i64) -> Schedule {
        Schedule { old: self.old, new: self.wider(), change: self.change_near(v) }
    }
}

/// Both pairs around a clock v, or around the clock 0 where clocks are true ones.
#[derive(Clone, Copy, Debug, PartialEq, Eq)]
pub struct Schedule {
    /// The limits before V.
    pub old: Setup,
    /// The limits from V on.
    pub new: Setup,
    /// V.
    pub change: i64,
}

impl Schedule {
    /// Is the old due clock of a sum before V? With this fault planted it may be V.
    fn is_due_before(&self, sum: i64, fault: u8) -> bool {
        self.old.due(sum) < self.change + skew(fault)
    }
}

impl Pairs for Schedule {
    fn pairs(&self) -> [Setup; 2] {
        [self.old, self.new]
    }

    fn has_width(&self, counts: usize) -> bool {
        let is_past = self.change <= 0;
        if planted(98) && is_past || planted(99) && !is_past {
            return counts == self.own().width();
        }
        counts == self.old.width() || counts == self.new.width()
    }
}

impl Limits for Schedule {
    /// Before V the old ones, later the new ones.
    fn of(&self, clock: i64) -> &Setup {
        if clock < self.change {
            &self.old
        } else {
            &self.new
        }
    }

    /// "A frame is due at sum + δ + ε if that lies before V, else at sum + δ′ + ε′."
    fn due(&self, sum: i64) -> i64 {
        match self.is_due_before(sum, 86) {
            _ if planted(84) => self.own().due(sum),
            true => self.old.due(sum),
            false => self.new.due(sum),
        }
    }

    /// "Frames due before V compare ε counts, all others ε′ counts."
    fn depth(&self, sum: i64) -> i64 {
        match self.is_due_before(sum, 91) {
            _ if planted(87) => self.own().epsilon,
            true if !planted(90) => self.old.epsilon,
            false if planted(89) => self.old.epsilon,
            _ => self.new.epsilon,
        }
    }

    /// "A tick uses the limits of its own clock." Each part has two faults: always the old pair, and
    /// always the wider one.
    fn by(&self, part: Part) -> &Setup {
        let fault = 70 + 2 * part as u8;
        match () {
            () if planted(fault) => &self.old,
            () if planted(fault + 1) => &self.new,
            () => self.own(),
        }
    }
}
