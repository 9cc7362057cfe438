//! Traces for the program `yard`: their bytes, and the text form that the program `trace` describes.

use crate::trace::{bytes, for_each_item, limits, limits_bytes, number, parse, short_bytes, word};
use crate::Setup;
use std::str::SplitWhitespace;

/// A trace of all nodes, good or bad.
#[derive(Clone, Debug, PartialEq, Eq)]
pub struct YardTrace {
    /// The own number is not part of the trace.
    pub setup: Setup,
    pub steps: Vec<TraceStep>,
    /// The count of steps, where it is not the true one.
    pub count: Option<u16>,
    /// What follows the last step.
    pub tail: Vec<u8>,
}

/// One step of a trace.
#[derive(Clone, Debug, Default, PartialEq, Eq)]
pub struct TraceStep {
    /// 02's station.
    pub node: u8,
    pub clock: u16,
    /// The send byte.
    pub send: u8,
    /// 01's ticket.
    pub payload: Vec<u8>,
    /// The steps, from 1, whose frames it hears.
    pub heard: Vec<u16>,
}

impl YardTrace {
    pub fn new(setup: Setup) -> Self {
        YardTrace { setup, steps: Vec::new(), count: None, tail: Vec::new() }
    }

    /// The trace as `yard` reads it.
    pub fn to_bytes(&self) -> Vec<u8> {
        let mut bytes = limits_bytes(&self.setup);
        bytes.extend(self.count.unwrap_or(self.steps.len() as u16).to_le_bytes());
        for TraceStep { node, clock, send, payload, heard } in &self.steps {
            bytes.push(*node);
            bytes.extend(clock.to_le_bytes());
            bytes.extend([*send, payload.len() as u8]);
            bytes.extend(payload);
            bytes.push(heard.len() as u8);
            bytes.extend(heard.iter().flat_map(|step| step.to_le_bytes()));
        }
        bytes.extend(&self.tail);
        bytes
    }

    /// Reads the text form; an error names the line.
    pub fn from_text(text: &str) -> Result<Self, String> {
        let mut trace = None;
        for_each_item(text, |item, words| add_item(&mut trace, item, words))?;
        trace.ok_or_else(|| "no yard".into())
    }
}

/// Adds one line of the text form.
fn add_item(
    trace: &mut Option<YardTrace>,
    item: &str,
    words: &mut SplitWhitespace,
) -> Result<(), String> {
    match (item, trace.as_mut()) {
        ("yard", None) => *trace = Some(YardTrace::new(limits(words)?)),
        ("yard", Some(_)) => return Err("a second yard".into()),
        (_, None) => return Err("the yard comes first".into()),
        ("step", Some(trace)) => trace.steps.push(step(words)?),
        ("steps", Some(trace)) => trace.count = Some(number(words)?),
        ("tail", Some(trace)) => trace.tail = bytes(words)?,
        _ => return Err(format!("`{item}` is not known")),
    }
    Ok(())
}

/// A step: node and clock, then what it sends or keeps, then what it hears.
fn step(words: &mut SplitWhitespace) -> Result<TraceStep, String> {
    let (node, clock) = (number(words)?, number(words)?);
    let mut step = TraceStep { node, clock, ..TraceStep::default() };
    while let Some(item) = words.next() {
        match item {
            "send" => (step.send, step.payload) = (1, short_bytes(words)?),
            "keep" => (step.send, step.payload) = (0, short_bytes(words)?),
            "hears" => step.heard = heard(words)?,
            _ => return Err(format!("`{item}` is not known")),
        }
    }
    Ok(step)
}

/// The numbers of steps, with commas.
fn heard(words: &mut SplitWhitespace) -> Result<Vec<u16>, String> {
    let heard: Vec<u16> = word(words)?.split(',').map(parse).collect::<Result<_, _>>()?;
    match heard.len() {
        0..=255 => Ok(heard),
        _ => Err("more than 255 frames".into()),
    }
}
