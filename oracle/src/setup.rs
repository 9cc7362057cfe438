//! The setup, its limits and the sizes that follow from it.

/// The longest payload (01's ticket).
pub const MAX_PAYLOAD: usize = 32;
/// The verdict buffer's least length: one byte for each frame a batch can have.
pub const VERDICTS: usize = 255;

/// The setup of a call, as given. Only a valid one is used beyond `is_valid`.
#[derive(Clone, Copy, Debug, PartialEq, Eq)]
pub struct Setup {
    /// Number of nodes (01's stations).
    pub n: i64,
    /// ε, the drift limit.
    pub epsilon: i64,
    /// δ, the delay limit.
    pub delta: i64,
    /// B; clocks are given modulo this. An engine's calls (02, 2.9) do not look at it.
    pub modulus: i64,
    /// The node's own number; an observer has none, and its calls do not look at it.
    pub own: i64,
}

impl Setup {
    /// The least B for these limits.
    pub fn least_modulus(&self) -> i64 {
        6 * self.epsilon + self.delta + 1
    }

    /// Are n, ε and δ in their limits?
    pub fn has_limits(&self) -> bool {
        (1..=16).contains(&self.n)
            && (1..=16).contains(&self.epsilon)
            && (0..=64).contains(&self.delta)
    }

    /// Check 1 without the own number: is the setup in its limits?
    pub fn is_in_limits(&self) -> bool {
        self.has_limits() && (self.least_modulus()..=65_535).contains(&self.modulus)
    }

    /// Is the own number that of a node?
    pub fn is_member(&self) -> bool {
        (0..self.n).contains(&self.own)
    }

    /// Check 1: the own number too?
    pub fn is_valid(&self) -> bool {
        self.is_in_limits() && self.is_member()
    }

    /// How many counts a timestamp has.
    pub fn width(&self) -> usize {
        2 * self.epsilon as usize
    }

    /// The length of the longest frame.
    pub fn longest_frame(&self) -> usize {
        39 + self.width()
    }

    /// How many frames the hold-back queue may have.
    pub fn capacity(&self) -> usize {
        (self.n * (self.delta + 3 * self.epsilon)) as usize
    }

    /// The exact length of the hold-back queue's buffer.
    pub fn holdback_len(&self) -> usize {
        2 + self.longest_frame() * self.capacity()
    }

    /// The step from a last clock to a new clock v, from 1 to ε; none if the last clock is damaged.
    pub fn sound_step(&self, last: i64, v: i64) -> Option<i64> {
        let step = self.step(last, v);
        (last < self.modulus && (1..=self.epsilon).contains(&step)).then_some(step)
    }

    /// How far a new clock v lies past a last clock, modulo B.
    pub fn step(&self, last: i64, v: i64) -> i64 {
        (v - last).rem_euclid(self.modulus)
    }

    /// A modular clock r read near v: how far it is ahead of v, negative if behind.
    pub fn near(&self, r: i64, v: i64) -> i64 {
        let u = (r - v).rem_euclid(self.modulus);
        if u <= self.epsilon - 1 - crate::fault::skew(2) {
            u
        } else {
            u - self.modulus
        }
    }

    /// A clock modulo B. With this fault planted it is not reduced, and cut to what an answer holds.
    pub(crate) fn reduced(&self, clock: i64, fault: u8) -> i64 {
        match crate::fault::planted(fault) {
            true => clock.clamp(0, 65_535),
            false => clock.rem_euclid(self.modulus),
        }
    }
}
