//! The twin's poll (02, 2.5). It walks over the queue as the tick does, keeps no starts, and then counts from the front.

use super::frame::part;
use super::queue::Origins;
use super::{check_shelf, Group};

/// The arguments of the poll.
pub struct Poll<'a> {
    /// n, ε, δ, B, own number.
    pub setup: [u32; 5],
    pub clock: u32,
    pub within: u16,
    pub holdback: &'a [u8],
}

/// The poll, its answer packed as the library's.
pub fn poll(call: &Poll) -> u64 {
    let number = check_shelf(call.setup, call.clock, call.holdback);
    if number != 0 {
        return number.into();
    }
    let group = Group::of(call.setup, call.clock);
    let mut origins = Origins::NONE;
    if !group.walk_over(call.holdback, &mut origins, |_, _| ()) {
        return 0;
    }
    match u16::from_le_bytes(*part(call.holdback, 0)) {
        0 => 0,
        count => {
            let number = group.count_within(call.holdback, count.into(), call.within.into());
            1 << 8 | group.front_due(call.holdback) << 16 | number << 32
        }
    }
}

impl Group {
    /// How many frames of a sound queue are due at most so many ticks after v: from the front, up to the first one past that.
    fn count_within(&self, buf: &[u8], count: u64, within: usize) -> u64 {
        let (mut number, mut at) = (0, 2);
        while number < count {
            let w = part(buf, at);
            // The sum of a frame that is due one tick after v is 0.
            if self.sum(w, self.reading(w)) >= within {
                break;
            }
            at += self.frame_len(w);
            number += 1;
        }
        number
    }

    /// The due clock of the front frame, modulo B.
    fn front_due(&self, buf: &[u8]) -> u64 {
        let front = part(buf, 2);
        let sum = self.sum(front, self.reading(front));
        let due = self.clock + 1 + sum as u32;
        (if due < self.modulus { due } else { due - self.modulus }) as u64
    }
}
