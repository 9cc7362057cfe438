//! The program `yard` (02, 2.8): a trace of all nodes of a group in, the lines of their ticks out, and
//! for each check of a frame the step in which it first refused one.

use crate::fault::{planted, skew};
use crate::playing::{Given, Player};
use crate::reading::{check_setup, end, is_at_end, read_counted, read_limits};
use crate::reading::{read_u16, read_u8, Stop};
use crate::{ask, Setup};
use std::io::{self, Read, Write};
use std::ops::RangeInclusive;

/// The most steps that a trace may have.
pub const MAX_STEPS: u16 = 1_000;

/// The checks of a frame.
pub const CHECKS: RangeInclusive<u8> = 10..=16;

/// The text for a whole trace.
pub fn yard_text(trace: &[u8]) -> String {
    let mut text = Vec::new();
    yard(&mut &trace[..], &mut text).expect("bytes can be read and written");
    String::from_utf8(text).expect("yard writes text")
}

/// Reads a trace as it comes and writes each step's lines before it reads the next.
pub fn yard(input: &mut impl Read, output: &mut impl Write) -> io::Result<()> {
    end(run(input, output), output)
}

fn run(input: &mut impl Read, output: &mut impl Write) -> Result<(), Stop> {
    let setup = read_limits(input)?;
    check_setup(&setup)?;
    let count = read_u16(input)?;
    ask(count <= MAX_STEPS + skew(46) as u16, 5)?;
    let mut rehearsal = Rehearsal::new(setup);
    for _ in 0..count {
        let step = Step::read(input)?;
        match rehearsal.play(&step) {
            Err(number) if planted(43) => writeln!(output, "refused {number}")?,
            text => output.write_all(text?.as_bytes())?,
        }
        output.flush()?;
    }
    ask(is_at_end(input)? || planted(47), 5)?;
    output.write_all(rehearsal.figures().as_bytes())?;
    output.flush()?;
    Ok(())
}

/// One step of a trace.
pub struct Step {
    /// The node whose tick it is (02's station).
    pub node: usize,
    pub given: Given,
    /// The steps, from 1, whose frames it hears.
    pub heard: Vec<u16>,
}

impl Step {
    pub fn read(input: &mut impl Read) -> io::Result<Self> {
        Ok(Step {
            node: read_u8(input)?.into(),
            given: Given::read(input)?,
            heard: read_counted(input, read_u16)?,
        })
    }
}

/// A group whose steps are played, and what they have left.
struct Rehearsal {
    setup: Setup,
    /// A node has started once it has had a step.
    nodes: Vec<Option<Player>>,
    /// The frame that each step has sent, no bytes if none.
    sent: Vec<Vec<u8>>,
    /// The verdicts of each step.
    verdicts: Vec<Vec<u8>>,
}

impl Rehearsal {
    fn new(setup: Setup) -> Self {
        let nodes = (0..setup.n).map(|_| None).collect();
        Rehearsal { setup, nodes, sent: Vec::new(), verdicts: Vec::new() }
    }

    /// Plays one step and answers its lines.
    fn play(&mut self, step: &Step) -> Result<String, u8> {
        ask(step.node < self.nodes.len(), 5)?;
        let heard = self.frames(&step.heard)?;
        if planted(42) && self.sent.is_empty() {
            (0..self.nodes.len()).for_each(|node| self.start(node, step.given.clock));
        }
        self.start(step.node, step.given.clock);
        let node = self.nodes[step.node].as_mut().expect("a started node");
        let played = node.play(&step.given, &heard)?;
        if planted(44) {
            self.play_neighbour(step, &heard);
        }
        self.sent.push(played.sent);
        self.verdicts.push(played.verdicts);
        Ok(labelled(step.node, &played.text))
    }

    /// A node's first step starts it, fresh one before this clock.
    fn start(&mut self, node: usize, clock: i64) {
        let setup = Setup { own: node as i64, ..self.setup };
        self.nodes[node].get_or_insert_with(|| Player::fresh_before(setup, clock));
    }

    /// What fault 44 does: another node has the tick too.
    fn play_neighbour(&mut self, step: &Step, heard: &[Vec<u8>]) {
        let other = (step.node + 1) % self.nodes.len();
        if let (true, Some(node)) = (other != step.node, self.nodes[other].as_mut()) {
            let _ = node.play(&step.given, heard);
        }
    }

    /// The frames that these steps have sent; 5 where one is not an earlier step that sent.
    fn frames(&self, steps: &[u16]) -> Result<Vec<Vec<u8>>, u8> {
        let mut frames = Vec::new();
        for &step in steps {
            let index = usize::from(step).checked_sub(1 - skew(39) as usize).ok_or(5)?;
            if planted(41) && index == self.sent.len() {
                continue;
            }
            let frame = self.sent.get(index).ok_or(5)?;
            ask(!frame.is_empty(), 5)?;
            frames.push(frame.clone());
        }
        Ok(frames)
    }

    /// A line for each check of a frame: the smallest number of opening steps in which it refused one.
    fn figures(&self) -> String {
        let line = |check: u8| match self.first_refused(check) {
            Some(steps) => format!("{check} {steps}\n"),
            None => format!("{check} -\n"),
        };
        CHECKS.map(line).collect()
    }

    fn first_refused(&self, check: u8) -> Option<usize> {
        let before = self.verdicts.iter().position(|verdicts| verdicts.contains(&check))?;
        Some(before + 1 - skew(40) as usize)
    }
}

/// Each line after its node and a space.
fn labelled(node: usize, text: &str) -> String {
    let label = |line: &str| match planted(45) && line.starts_with("give") {
        true => format!("{line}\n"),
        false => format!("{node} {line}\n"),
    };
    text.lines().map(label).collect()
}
