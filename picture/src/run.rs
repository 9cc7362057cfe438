//! A run as it is drawn: the steps, the messages, who heard them and which boards showed them.

use oracle::Setup;

/// What was played.
#[derive(Clone, Copy, Debug, PartialEq, Eq)]
pub enum Kind {
    /// One node's trace (01's `replay`).
    Replay,
    /// A trace of all nodes (02's `yard`).
    Yard,
}

impl Kind {
    /// What the second program writes for a trace.
    pub fn text(self, trace: &[u8]) -> String {
        match self {
            Kind::Replay => oracle::replay::replay_text(trace),
            Kind::Yard => oracle::yard::yard_text(trace),
        }
    }

    /// What a step is called.
    pub fn step_word(self) -> &'static str {
        match self {
            Kind::Replay => "tick",
            Kind::Yard => "step",
        }
    }
}

/// A whole run.
#[derive(Debug)]
pub struct Run {
    pub kind: Kind,
    pub setup: Setup,
    pub steps: Vec<Step>,
    pub messages: Vec<Message>,
}

/// One tick of one node.
#[derive(Debug)]
pub struct Step {
    /// 02's station.
    pub node: usize,
    /// Its clock, modulo B.
    pub clock: i64,
    /// Its clock counted on from the first one of the run.
    pub time: i64,
    /// How far the clock has moved since the node's last step; none in its first.
    pub moved: Option<i64>,
    /// What its tick line says.
    pub tick: Tick,
    /// The message that it sent.
    pub sent: Option<usize>,
    pub hearings: Vec<Hearing>,
    /// What its board shows, in order.
    pub deliveries: Vec<Delivery>,
}

/// The numbers of a tick line.
#[derive(Clone, Copy, Debug)]
pub struct Tick {
    pub repair: u8,
    pub c: u8,
    pub taken: u8,
    pub delivered: u16,
}

/// A message that a step heard; those with one verdict are put together.
#[derive(Debug)]
pub struct Hearing {
    pub message: usize,
    /// 0, or the number by which it was refused.
    pub verdict: u8,
    pub times: usize,
}

/// A message on a board.
#[derive(Debug)]
pub struct Delivery {
    pub message: usize,
    /// What put it behind the one before it, as the give line says it (02, 2.4).
    pub reason: String,
}

/// A frame that was sent, or that came from outside.
#[derive(Debug)]
pub struct Message {
    /// The step that sent it.
    pub source: Option<usize>,
    pub bytes: Vec<u8>,
    /// None if the bytes are no frame (10).
    pub content: Option<Content>,
    /// What its sender had sent or taken since the sending before it: its direct causes.
    pub causes: Vec<usize>,
}

/// The fields of a frame.
#[derive(Debug)]
pub struct Content {
    pub node: i64,
    pub r: i64,
    pub c: i64,
    pub counts: Vec<u8>,
    pub payload: Vec<u8>,
    /// The due clock modulo B, if the frame passes 10 to 12.
    pub due: Option<i64>,
}

impl Run {
    /// The nodes that have a lane.
    pub fn lanes(&self) -> Vec<usize> {
        match self.kind {
            Kind::Replay => vec![self.setup.own as usize],
            Kind::Yard => (0..self.setup.n as usize).collect(),
        }
    }

    /// The node that sent a message, if it can be told.
    pub fn sender(&self, message: usize) -> Option<usize> {
        let node = self.messages[message].content.as_ref()?.node;
        Some(node as usize)
    }

    /// Every step with its number from 1.
    pub fn numbered(&self) -> impl Iterator<Item = (usize, &Step)> {
        self.steps.iter().enumerate().map(|(index, step)| (index + 1, step))
    }

    /// Does a step hear this message from outside the run?
    pub fn is_outside(&self, hearing: &Hearing) -> bool {
        self.messages[hearing.message].source.is_none()
    }
}
