//! A node that plays the ticks of a trace, and the lines of a tick.

use crate::holdback::Entry;
use crate::reading::{read_section, read_u16, read_u8};
use crate::timestamp::fresh;
use crate::{ask, batch, fault, reason, tick};
use crate::{Answer, Buffers, Call, ClockState, Frame, Reason, Setup};
use std::fmt::Write as _;
use std::io::{self, Read};

/// What one tick of a trace is given beside its batch.
pub struct Given {
    pub clock: i64,
    /// The send byte.
    pub send: u8,
    pub payload: Vec<u8>,
}

impl Given {
    pub fn read(input: &mut impl Read) -> io::Result<Self> {
        Ok(Given {
            clock: read_u16(input)?.into(),
            send: read_u8(input)?,
            payload: read_section(input)?,
        })
    }
}

/// What an accepted tick comes to.
pub struct Played {
    /// Its lines.
    pub text: String,
    /// The frame that it sent, no bytes if none.
    pub sent: Vec<u8>,
    /// A byte for each frame of its batch: 0 or the number.
    pub verdicts: Vec<u8>,
}

/// A played node with its buffers.
pub struct Player {
    setup: Setup,
    state: ClockState,
    holdback: Vec<u8>,
    outgoing: Vec<u8>,
    verdicts: Vec<u8>,
    delivery: Vec<u8>,
}

impl Player {
    /// Fresh one before a clock, with nothing held back.
    pub fn fresh_before(setup: Setup, clock: i64) -> Self {
        Player {
            setup,
            state: fresh(&setup, (clock - 1).rem_euclid(setup.modulus)),
            holdback: vec![0; setup.holdback_len()],
            outgoing: vec![0; setup.longest_frame()],
            verdicts: vec![0; crate::setup::VERDICTS],
            delivery: vec![0; setup.holdback_len()],
        }
    }

    /// Calls one tick that hears these frames. A send byte above 1 gets 5 before that.
    pub fn play<T: AsRef<[u8]>>(&mut self, given: &Given, heard: &[T]) -> Result<Played, u8> {
        ask(given.send <= 1, 5)?;
        let batch = batch::encode(heard);
        let call = Call {
            setup: self.setup,
            clock: given.clock,
            batch: &batch,
            send: given.send == 1,
            payload: &given.payload,
        };
        let mut buffers = Buffers {
            holdback: &mut self.holdback,
            verdicts: &mut self.verdicts,
            delivery: &mut self.delivery,
        };
        let answer = tick(&call, &mut self.state, &mut self.outgoing, &mut buffers);
        ask(answer.number == 0, answer.number)?;
        Ok(Played {
            text: self.lines(given.clock, &answer),
            sent: self.outgoing[..answer.outgoing.into()].to_vec(),
            verdicts: self.verdicts[..heard.len()].to_vec(),
        })
    }

    /// The tick line and a give line for each delivered frame, with the reason against the one
    /// before it.
    fn lines(&self, clock: i64, answer: &Answer) -> String {
        let Answer { repair, taken, delivered, outgoing, .. } = *answer;
        let (c, sent) = (self.state[2], u8::from(outgoing > 0));
        let mut text =
            format!("tick {clock} mend {repair} c {c} took {taken} sent {sent} gave {delivered}\n");
        let mut rest = &self.delivery[2..];
        let mut last: Option<Entry> = None;
        for _ in 0..delivered {
            let (frame, after) = Frame::split(&self.setup, rest).expect("a delivered frame");
            let Frame { node, timestamp, payload, .. } = frame;
            let entry = Entry::near(&self.setup, clock, frame);
            let reason = last.map_or(Reason::Nothing, |last| {
                reason::decide(&self.setup, clock, &last, &entry).1
            });
            let (r, payload) = (timestamp.r, hex(payload));
            writeln!(text, "give {node} {r} {payload} {reason}").expect("text");
            last = if fault::planted(22) { last.or(Some(entry)) } else { Some(entry) };
            rest = after;
        }
        text
    }
}

/// Two lower-case digits a byte, `-` if empty.
pub fn hex(bytes: &[u8]) -> String {
    if bytes.is_empty() {
        return "-".into();
    }
    bytes.iter().map(|byte| format!("{byte:02x}")).collect()
}
