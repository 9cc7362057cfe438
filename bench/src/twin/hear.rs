//! What the twin's tick and an observer's call do with a board: the queue is looked at, the frames of the batch are judged in turn,
//! those that are taken are queued and counted in, and what is due is handed out.

use super::frame::{part, Counts, Window, COUNTS, MASKS, WIDEST, WINDOW};
use super::queue::Queue;
use super::{Board, Group, Local};

/// Who judges frames. What a call goes through has it as a parameter, so that a tick and an observer's call have their own each.
pub trait Owner {
    /// Is 15 asked?
    const ASKS_COUNTS: bool;

    /// A taken frame is counted in.
    fn count_in(&mut self, group: &Group, entry: &Entry, ahead: i32);
}

impl Owner for Local {
    const ASKS_COUNTS: bool = true;

    #[inline(always)]
    fn count_in(&mut self, group: &Group, entry: &Entry, ahead: i32) {
        group.absorb(entry, ahead, self);
    }
}

/// An entry of the batch: its window, and where its bytes stand.
pub struct Entry<'b> {
    window: &'b Window,
    batch: &'b [u8],
    from: usize,
    len: usize,
}

impl Group {
    /// What a call does with its board; its part of the packed answer.
    pub fn attend<O: Owner>(&self, board: &mut Board, owner: &mut O) -> u64 {
        if board.holdback[..2] == [0, 0] && board.batch[0] == 0 {
            board.delivery[..2].fill(0);
            board.holdback.fill(0);
            return 0;
        }
        let mut queue = Queue::EMPTY;
        let repair = self.open::<O>(board, &mut queue);
        let taken = if self.epsilon > 8 {
            self.hear::<O, true>(board, owner, &mut queue)
        } else {
            self.hear::<O, false>(board, owner, &mut queue)
        };
        repair << 8 | taken << 16 | self.deliver::<O>(board, &queue) << 32
    }

    /// Judges the frames of the batch in turn; how many were taken.
    fn hear<O: Owner, const WIDE: bool>(
        &self,
        board: &mut Board,
        owner: &mut O,
        queue: &mut Queue,
    ) -> u64 {
        let (batch, mut from, mut taken) = (board.batch, 2, 0);
        for i in 0..usize::from(batch[0]) {
            let len = usize::from(batch[from - 1]);
            let mut spare = [0; WINDOW];
            let window = match batch[from..].first_chunk() {
                Some(window) => window,
                None => {
                    let part = &batch[from..][..len.min(WINDOW)];
                    spare[..part.len()].copy_from_slice(part);
                    &spare
                }
            };
            let entry = Entry { window, batch, from, len };
            let verdict = self.judge::<O, WIDE>(&entry, owner, queue, board.holdback);
            board.verdicts[i] = verdict;
            taken += u64::from(verdict == 0);
            from += 1 + len;
        }
        taken
    }

    /// Checks 10 to 16; a frame that passes is queued, for which there is always room, and counted in.
    fn judge<O: Owner, const WIDE: bool>(
        &self,
        entry: &Entry,
        owner: &mut O,
        queue: &mut Queue,
        buf: &mut [u8],
    ) -> u8 {
        let w = entry.window;
        if entry.len != self.frame_len(w) {
            return 10;
        }
        let number = self.check_frame(w);
        if number != 0 {
            return number;
        }
        let (reading, now) = (self.reading(w), self.now());
        let oldest = 2 * self.epsilon - 2;
        if reading.wrapping_sub(oldest) >= self.delta + 2 * self.epsilon {
            return 13;
        }
        if reading + usize::from(w[5]) >= now + self.epsilon {
            return 14;
        }
        let from = self.epsilon + now - reading;
        if O::ASKS_COUNTS && !self.below_n(part(w, COUNTS), from.min(WIDEST)) {
            return 15;
        }
        let key = self.key::<WIDE>(w, reading);
        if queue.origins.has(key.origin) {
            return 16;
        }
        queue.origins.mark(key.origin);
        let bytes = &entry.batch[entry.from..entry.from + entry.len];
        self.place::<O, WIDE>(&key, bytes, queue, buf);
        owner.count_in(self, entry, reading as i32 - now as i32);
        0
    }

    /// c and each count become the larger of own and frame's.
    fn absorb(&self, entry: &Entry, ahead: i32, local: &mut Local) {
        local.c = local.c.max(ahead + i32::from(entry.window[5]));
        let width = self.width as i32;
        if -ahead >= width {
            return;
        }
        let mut spare = [0; 3 * WIDEST];
        let at = (entry.from + COUNTS).wrapping_add_signed(-ahead as isize);
        let other: &Counts = match entry.batch.get(at..).and_then(|bytes| bytes.first_chunk()) {
            Some(other) => other,
            None => {
                spare[WIDEST..2 * WIDEST].copy_from_slice(part::<WIDEST>(entry.window, COUNTS));
                part(&spare, (WIDEST as i32 - ahead) as usize)
            }
        };
        let (first, end) = (ahead.max(0) as usize, (width + ahead.min(0)) as usize);
        let from: &Counts = part(&MASKS, 2 * WIDEST - first);
        let to: &Counts = part(&MASKS, WIDEST - end);
        for i in 0..WIDEST {
            local.kn[i] = local.kn[i].max(other[i] & from[i] & to[i]);
        }
    }
}
