//! The twin's frames: what stands where in one, checks 10 to 12, and what the order looks at.

use super::{Group, MAX_PAYLOAD};

/// Where a frame's counts start.
pub const COUNTS: usize = 6;
/// A window holds every byte of a frame up to the payload's count, whatever ε is.
pub const WINDOW: usize = 39;
pub const WIDEST: usize = 32;

pub type Window = [u8; WINDOW];
pub type Counts = [u8; WIDEST];

/// 255, then 0, then 255, each 32 times: its parts are masks.
pub static MASKS: [u8; 3 * WIDEST] = {
    let mut masks = [255; 3 * WIDEST];
    let mut i = WIDEST;
    while i < 2 * WIDEST {
        masks[i] = 0;
        i += 1;
    }
    masks
};

/// For each ε and c 0 in the places of the counts past offset c, which a sound timestamp has not reached, otherwise 255.
pub static REACHED: [[Counts; 16]; 16] = {
    let mut masks = [[[255; WIDEST]; 16]; 16];
    let mut i = 0;
    while i < 16 * 16 * WIDEST {
        let (epsilon, c, place) = (1 + i / (16 * WIDEST), i / WIDEST % 16, i % WIDEST);
        if epsilon + c < place && place < 2 * epsilon {
            masks[epsilon - 1][c][place] = 0;
        }
        i += 1;
    }
    masks
};

/// A part of fixed length that starts at a place.
#[inline(always)]
pub fn part<const N: usize>(bytes: &[u8], at: usize) -> &[u8; N] {
    bytes[at..at + N].try_into().expect("N bytes")
}

#[inline(always)]
pub fn r_of(w: &Window) -> u32 {
    u16::from_le_bytes([w[2], w[3]]).into()
}

/// A station and a reading as one number; a reading of a frame that is queued is below 128.
#[inline(always)]
pub fn origin(station: u8, reading: usize) -> usize {
    usize::from(station) << 7 | reading
}

/// What the order looks at, as numbers that are compared without a branch. The sum is 0 where a frame is due at the least due clock.
#[derive(Clone, Copy)]
pub struct Key {
    pub sum: usize,
    /// Of the ε counts from offset c down the eight newest, and those behind them.
    newest: u64,
    older: u64,
    pub origin: usize,
}

impl Key {
    /// Comes before the key of every sound frame, whose count at offset c is not 0.
    pub const FIRST: Self = Key { sum: 0, newest: 0, older: 0, origin: 0 };

    /// Does it come before another? Wide, if ε is above 8: otherwise there are no older counts.
    #[inline(always)]
    pub fn is_before<const WIDE: bool>(&self, other: &Self) -> bool {
        let high = |key: &Key| (key.sum as u128) << 64 | u128::from(key.newest);
        let low = |key: &Key| u128::from(key.older) << 64 | key.origin as u128;
        let less = if WIDE { low(self) < low(other) } else { self.origin < other.origin };
        high(self) < high(other) + u128::from(less)
    }
}

impl Group {
    /// Is the timestamp sound?
    #[inline(always)]
    pub fn is_sound(&self, c: usize, counts: &Counts) -> bool {
        if c >= self.epsilon || counts[self.epsilon + c] == 0 {
            return false;
        }
        let reached = &self.reached[c];
        let mut over = 0;
        for i in 0..WIDEST {
            over |= counts[i].saturating_sub(self.most[i] & reached[i]);
        }
        over == 0
    }

    /// Is each count up to n, and from a place on below n?
    #[inline(always)]
    pub fn below_n(&self, counts: &Counts, place: usize) -> bool {
        let below: &Counts = part(&MASKS, 2 * WIDEST - place);
        let mut over = 0;
        for i in 0..WIDEST {
            over |= counts[i].saturating_sub(self.most[i] - (below[i] & !self.ignored[i] & 1));
        }
        over == 0
    }

    /// Checks 10 to 12; 10 not of what is left over.
    #[inline(always)]
    pub fn check_frame(&self, w: &Window) -> u8 {
        // The lengths of the first two sections stand at 0 and at 4.
        let head = u64::from_le_bytes(*part(w, 0)) & 0xff_0000_00ff;
        let right = head == (1 + self.width as u64) << 32 | 3;
        if !right || usize::from(w[COUNTS + self.width]) > MAX_PAYLOAD {
            return 10;
        }
        if w[1] >= self.n || r_of(w) >= self.modulus {
            return 11;
        }
        if self.is_sound(w[5].into(), part(w, COUNTS)) {
            0
        } else {
            12
        }
    }

    #[inline(always)]
    pub fn frame_len(&self, w: &Window) -> usize {
        7 + self.width + usize::from(w[COUNTS + self.width])
    }

    /// How far r lies past the clock that reads 0, below B.
    #[inline(always)]
    pub fn reading(&self, w: &Window) -> usize {
        let past = r_of(w).wrapping_sub(self.zero);
        past.min(past.wrapping_add(self.modulus)) as usize
    }

    /// The reading of v itself.
    pub fn now(&self) -> usize {
        self.delta + 3 * self.epsilon - 2
    }

    /// Reading and c together of a frame that is due at the least due clock.
    #[inline(always)]
    fn lowest(&self) -> usize {
        (self.width as i32 - 2 + self.least) as usize
    }

    /// The sum of a sound frame with its reading; it is past all others if the frame is due before the least due clock.
    #[inline(always)]
    pub fn sum(&self, w: &Window, reading: usize) -> usize {
        (reading + usize::from(w[5])).wrapping_sub(self.lowest())
    }

    /// The key of a sound frame with its reading.
    #[inline(always)]
    pub fn key<const WIDE: bool>(&self, w: &Window, reading: usize) -> Key {
        let (sum, origin) = (self.sum(w, reading), origin(w[1], reading));
        let end = COUNTS + self.epsilon + usize::from(w[5]) + 1;
        let newest = u64::from_le_bytes(*part(w, end - 8)) & self.newest;
        let older = if WIDE { u64::from_le_bytes(*part(w, end - 16)) & self.older } else { 0 };
        Key { sum, newest, older, origin }
    }
}
