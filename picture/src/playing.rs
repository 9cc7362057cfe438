//! Plays a trace once more by the second program's nodes, and puts together who heard what.

use crate::run::{Content, Delivery, Hearing, Kind, Message, Run, Step, Tick};
use oracle::playing::{Given, Played, Player};
use oracle::reading::{read_counted, read_limits, read_section, read_u16};
use oracle::replay::read_setup;
use oracle::{yard, Frame, Setup};
use std::collections::HashMap;
use std::io;

/// What one step is given.
struct Turn {
    node: usize,
    given: Given,
    heard: Heard,
}

/// What a step hears: frames of earlier steps, from 1, or any bytes.
enum Heard {
    Steps(Vec<u16>),
    Bytes(Vec<Vec<u8>>),
}

/// The run of a trace that is not refused.
pub fn play(kind: Kind, trace: &[u8]) -> io::Result<Run> {
    let (setup, turns) = match kind {
        Kind::Replay => read_replay(trace)?,
        Kind::Yard => read_yard(trace)?,
    };
    let mut stage = Stage::new(kind, setup);
    for turn in &turns {
        stage.play(turn)?;
    }
    Ok(stage.run)
}

fn read_replay(mut trace: &[u8]) -> io::Result<(Setup, Vec<Turn>)> {
    let setup = read_setup(&mut trace)?;
    let count = read_u16(&mut trace)?;
    let turn = |_| {
        let given = Given::read(&mut trace)?;
        let heard = Heard::Bytes(read_counted(&mut trace, read_section)?);
        Ok(Turn { node: setup.own as usize, given, heard })
    };
    Ok((setup, (0..count).map(turn).collect::<io::Result<_>>()?))
}

fn read_yard(mut trace: &[u8]) -> io::Result<(Setup, Vec<Turn>)> {
    let setup = read_limits(&mut trace)?;
    let count = read_u16(&mut trace)?;
    let turn = |_| {
        let yard::Step { node, given, heard } = yard::Step::read(&mut trace)?;
        Ok(Turn { node, given, heard: Heard::Steps(heard) })
    };
    Ok((setup, (0..count).map(turn).collect::<io::Result<_>>()?))
}

/// The nodes while a trace is played, and the run so far.
struct Stage {
    run: Run,
    nodes: Vec<Option<Node>>,
    /// The last message of these bytes.
    known: HashMap<Vec<u8>, usize>,
}

/// A started node.
struct Node {
    player: Player,
    /// When its last step was.
    time: Option<i64>,
    /// The messages that it has taken and not yet handed out.
    held: Vec<usize>,
    /// What it has sent or taken since its last sending.
    causes: Vec<usize>,
}

impl Stage {
    fn new(kind: Kind, setup: Setup) -> Self {
        let nodes = (0..setup.n).map(|_| None).collect();
        let run = Run { kind, setup, steps: Vec::new(), messages: Vec::new() };
        Stage { run, nodes, known: HashMap::new() }
    }

    /// Plays one step and adds it to the run.
    fn play(&mut self, turn: &Turn) -> io::Result<()> {
        let heard = self.messages_of(&turn.heard)?;
        let frames: Vec<&[u8]> = heard.iter().map(|&m| &self.run.messages[m].bytes[..]).collect();
        let setup = Setup { own: turn.node as i64, ..self.run.setup };
        let fresh = || Node::fresh_before(setup, turn.given.clock);
        let seat = self.nodes.get_mut(turn.node).ok_or_else(wrong)?;
        let node = seat.get_or_insert_with(fresh);
        let played = node.player.play(&turn.given, &frames).map_err(|_| wrong())?;
        let tick = tick_line(&played.text).ok_or_else(wrong)?;
        node.settle(tick.repair, &heard, &played.verdicts);
        let (time, moved) = self.place_in_time(turn);
        let sent = self.add_sent(turn.node, &played);
        let deliveries = self.deliveries(turn.node, &played.text).ok_or_else(wrong)?;
        let hearings = hearings(&heard, &played.verdicts);
        let (node, clock) = (turn.node, turn.given.clock);
        let step = Step { node, clock, time, moved, tick, sent, hearings, deliveries };
        self.run.steps.push(step);
        Ok(())
    }

    /// The messages that a step hears. Bytes that no step has sent are a message from outside.
    fn messages_of(&mut self, heard: &Heard) -> io::Result<Vec<usize>> {
        match heard {
            Heard::Bytes(entries) => Ok(entries.iter().map(|bytes| self.find(bytes)).collect()),
            Heard::Steps(steps) => {
                let sent = |&step: &u16| {
                    let step = self.run.steps.get(usize::from(step).checked_sub(1)?)?;
                    step.sent
                };
                steps.iter().map(sent).collect::<Option<_>>().ok_or_else(wrong)
            }
        }
    }

    fn find(&mut self, bytes: &[u8]) -> usize {
        match self.known.get(bytes) {
            Some(&message) => message,
            None => self.add(None, bytes, Vec::new()),
        }
    }

    fn add(&mut self, source: Option<usize>, bytes: &[u8], causes: Vec<usize>) -> usize {
        let content = content(&self.run.setup, bytes);
        let message = self.run.messages.len();
        self.run.messages.push(Message { source, bytes: bytes.to_vec(), content, causes });
        self.known.insert(bytes.to_vec(), message);
        message
    }

    /// Adds the message that a step has sent, if any.
    fn add_sent(&mut self, node: usize, played: &Played) -> Option<usize> {
        if played.sent.is_empty() {
            return None;
        }
        let mut causes = std::mem::take(&mut self.nodes[node].as_mut()?.causes);
        causes.sort_unstable();
        causes.dedup();
        let message = self.add(Some(self.run.steps.len()), &played.sent, causes);
        self.nodes[node].as_mut()?.causes.push(message);
        Some(message)
    }

    /// A step's clock counted on from the node's last one, or near the step before; and how far
    /// the node's clock has moved.
    fn place_in_time(&mut self, turn: &Turn) -> (i64, Option<i64>) {
        let modulus = self.run.setup.modulus;
        let node = self.nodes[turn.node].as_mut().expect("a started node");
        let before = self.run.steps.last().map(|step| step.time);
        let near = node.time.or(before).unwrap_or(turn.given.clock);
        let ahead = (turn.given.clock - near).rem_euclid(modulus);
        let moved = if 2 * ahead > modulus { ahead - modulus } else { ahead };
        let last = node.time.replace(near + moved);
        (near + moved, last.map(|_| moved))
    }

    /// The give lines of a step.
    fn deliveries(&mut self, node: usize, text: &str) -> Option<Vec<Delivery>> {
        let node = self.nodes[node].as_mut()?;
        let messages = &self.run.messages;
        let delivery = |line: &str| {
            let mut words = line.splitn(5, ' ').skip(1);
            let sender: i64 = words.next()?.parse().ok()?;
            let r: i64 = words.next()?.parse().ok()?;
            let reason = words.nth(1)?.to_string();
            let is_it = |message: &usize| {
                let content = messages[*message].content.as_ref();
                content.is_some_and(|content| content.node == sender && content.r == r)
            };
            let place = node.held.iter().position(is_it)?;
            Some(Delivery { message: node.held.remove(place), reason })
        };
        text.lines().filter(|line| line.starts_with("give ")).map(delivery).collect()
    }
}

impl Node {
    fn fresh_before(setup: Setup, clock: i64) -> Self {
        let player = Player::fresh_before(setup, clock);
        Node { player, time: None, held: Vec::new(), causes: Vec::new() }
    }

    /// What a step's mend and its taken messages change. Replaced tables know of nothing before, and
    /// an emptied queue holds nothing.
    fn settle(&mut self, repair: u8, heard: &[usize], verdicts: &[u8]) {
        if repair & 1 != 0 {
            self.causes.clear();
        }
        if repair & 2 != 0 {
            self.held.clear();
        }
        let taken = heard.iter().zip(verdicts).filter(|(_, &verdict)| verdict == 0);
        for (&message, _) in taken {
            self.held.push(message);
            self.causes.push(message);
        }
    }
}

/// What cannot be: the second program has played this trace.
fn wrong() -> io::Error {
    io::Error::other("the trace is not what its text says")
}

/// The numbers of the tick line, which is the first.
fn tick_line(text: &str) -> Option<Tick> {
    let words: Vec<&str> = text.lines().next()?.split(' ').collect();
    let number = |place: usize| words.get(place)?.parse::<u16>().ok();
    Some(Tick {
        repair: number(3)? as u8,
        c: number(5)? as u8,
        taken: number(7)? as u8,
        delivered: number(11)?,
    })
}

/// The fields of a frame; none if the bytes are no frame.
fn content(setup: &Setup, bytes: &[u8]) -> Option<Content> {
    let (frame, rest) = Frame::split(setup, bytes)?;
    if !rest.is_empty() {
        return None;
    }
    let due = frame.timestamp.r + frame.timestamp.c + setup.delta + setup.epsilon;
    let is_sound = Frame::parse(setup, bytes).is_ok();
    Some(Content {
        node: frame.node,
        r: frame.timestamp.r,
        c: frame.timestamp.c,
        counts: frame.timestamp.kn.to_vec(),
        payload: frame.payload.to_vec(),
        due: is_sound.then_some(due.rem_euclid(setup.modulus)),
    })
}

/// What was heard, in order; the same message with the same verdict once, with how often.
fn hearings(heard: &[usize], verdicts: &[u8]) -> Vec<Hearing> {
    let mut hearings: Vec<Hearing> = Vec::new();
    for (&message, &verdict) in heard.iter().zip(verdicts) {
        let same = |found: &&mut Hearing| (found.message, found.verdict) == (message, verdict);
        match hearings.iter_mut().find(same) {
            Some(hearing) => hearing.times += 1,
            None => hearings.push(Hearing { message, verdict, times: 1 }),
        }
    }
    hearings
}
