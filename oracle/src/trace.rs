//! Traces for replay: their bytes, and the text form that the program `trace` describes.

use crate::yard_trace::YardTrace;
use crate::{batch, Setup};
use std::str::{FromStr, SplitWhitespace};

/// A trace, good or bad.
#[derive(Clone, Debug, PartialEq, Eq)]
pub struct Trace {
    pub setup: Setup,
    pub ticks: Vec<TraceTick>,
    /// The count of ticks, where it is not the true one.
    pub count: Option<u16>,
    /// What follows the last tick.
    pub tail: Vec<u8>,
}

/// One tick of a trace.
#[derive(Clone, Debug, Default, PartialEq, Eq)]
pub struct TraceTick {
    pub clock: u16,
    /// The send byte.
    pub send: u8,
    /// 01's ticket.
    pub payload: Vec<u8>,
    /// The entries of 01's bundle.
    pub batch: Vec<Vec<u8>>,
}

impl Trace {
    /// The trace as replay reads it.
    pub fn to_bytes(&self) -> Vec<u8> {
        let mut bytes = limits_bytes(&self.setup);
        bytes.push(self.setup.own as u8);
        bytes.extend(self.count.unwrap_or(self.ticks.len() as u16).to_le_bytes());
        for tick in &self.ticks {
            bytes.extend(tick.clock.to_le_bytes());
            bytes.extend([tick.send, tick.payload.len() as u8]);
            bytes.extend(&tick.payload);
            bytes.extend(batch::encode(&tick.batch));
        }
        bytes.extend(&self.tail);
        bytes
    }

    /// Reads the text form; an error names the line.
    pub fn from_text(text: &str) -> Result<Self, String> {
        let mut trace = None;
        for_each_item(text, |item, words| add_item(&mut trace, item, words))?;
        trace.ok_or_else(|| "no setup".into())
    }
}

/// The limits as a trace has them, without the own number.
pub(crate) fn limits_bytes(setup: &Setup) -> Vec<u8> {
    let Setup { n, epsilon, delta, modulus, .. } = *setup;
    let [low, high] = (modulus as u16).to_le_bytes();
    vec![n as u8, epsilon as u8, delta as u8, low, high]
}

/// The bytes of a trace in its text form: a yard's if that is what it starts with.
pub fn bytes_of_text(text: &str) -> Result<Vec<u8>, String> {
    match items(text).next() {
        Some((_, "yard", _)) => Ok(YardTrace::from_text(text)?.to_bytes()),
        _ => Ok(Trace::from_text(text)?.to_bytes()),
    }
}

/// Reads a text form line by line; an error names the line, and says what is too much in it.
pub(crate) fn for_each_item<'a>(
    text: &'a str,
    mut add: impl FnMut(&str, &mut SplitWhitespace<'a>) -> Result<(), String>,
) -> Result<(), String> {
    for (line, item, mut words) in items(text) {
        let added = add(item, &mut words).and_then(|()| match words.next() {
            Some(word) => Err(format!("`{word}` is too much")),
            None => Ok(()),
        });
        added.map_err(|error| format!("line {line}: {error}"))?;
    }
    Ok(())
}

/// The lines that are not empty but for a comment: their numbers, first words and the others.
fn items(text: &str) -> impl Iterator<Item = (usize, &str, SplitWhitespace<'_>)> {
    text.lines().enumerate().filter_map(|(index, line)| {
        let line = line.split('#').next().unwrap_or_default();
        let mut words = line.split_whitespace();
        Some((index + 1, words.next()?, words))
    })
}

/// Adds one line of the text form.
fn add_item(
    trace: &mut Option<Trace>,
    item: &str,
    words: &mut SplitWhitespace,
) -> Result<(), String> {
    match (item, trace.as_mut()) {
        ("setup", None) => *trace = Some(new_trace(words)?),
        ("setup", Some(_)) => return Err("a second setup".into()),
        (_, None) => return Err("the setup comes first".into()),
        ("tick", Some(trace)) => {
            trace.ticks.push(TraceTick { clock: number(words)?, ..TraceTick::default() })
        }
        ("ticks", Some(trace)) => trace.count = Some(number(words)?),
        ("tail", Some(trace)) => trace.tail = bytes(words)?,
        (_, Some(trace)) => add_to_tick(trace, item, words)?,
    }
    Ok(())
}

/// Adds a line that belongs to the last tick.
fn add_to_tick(trace: &mut Trace, item: &str, words: &mut SplitWhitespace) -> Result<(), String> {
    let tick = trace.ticks.last_mut().ok_or("a tick comes first")?;
    match item {
        "send" => (tick.send, tick.payload) = (1, short_bytes(words)?),
        "keep" => (tick.send, tick.payload) = (0, short_bytes(words)?),
        "frame" => tick.batch.push(frame(words)?),
        "raw" => tick.batch.push(short_bytes(words)?),
        _ => return Err(format!("`{item}` is not known")),
    }
    if tick.batch.len() > 255 {
        return Err("more than 255 entries".into());
    }
    Ok(())
}

fn new_trace(words: &mut SplitWhitespace) -> Result<Trace, String> {
    let limits = limits(words)?;
    let setup = Setup { own: number::<u8>(words)?.into(), ..limits };
    Ok(Trace { setup, ticks: Vec::new(), count: None, tail: Vec::new() })
}

/// The limits of a setup, with the own number 0.
pub(crate) fn limits(words: &mut SplitWhitespace) -> Result<Setup, String> {
    Ok(Setup {
        n: number::<u8>(words)?.into(),
        epsilon: number::<u8>(words)?.into(),
        delta: number::<u8>(words)?.into(),
        modulus: number::<u16>(words)?.into(),
        own: 0,
    })
}

/// A frame given by its fields, each section after its true count.
fn frame(words: &mut SplitWhitespace) -> Result<Vec<u8>, String> {
    let (node, r, c): (u8, u16, u8) = (number(words)?, number(words)?, number(words)?);
    let kn: Vec<u8> = word(words)?.split(',').map(parse).collect::<Result<_, _>>()?;
    let payload = bytes(words)?;
    let [low, high] = r.to_le_bytes();
    let mut frame = vec![3, node, low, high, kn.len().wrapping_add(1) as u8, c];
    frame.extend(kn);
    frame.push(payload.len() as u8);
    frame.extend(payload);
    short(frame)
}

pub(crate) fn word<'a>(words: &mut SplitWhitespace<'a>) -> Result<&'a str, String> {
    words.next().ok_or_else(|| "something is missing".into())
}

pub(crate) fn parse<T: FromStr>(word: &str) -> Result<T, String> {
    word.parse().map_err(|_| format!("`{word}` is not a number that fits"))
}

pub(crate) fn number<T: FromStr>(words: &mut SplitWhitespace) -> Result<T, String> {
    parse(word(words)?)
}

/// Hexadecimal bytes, `-` for none.
pub(crate) fn bytes(words: &mut SplitWhitespace) -> Result<Vec<u8>, String> {
    let word = word(words)?;
    if word == "-" {
        return Ok(Vec::new());
    }
    let digits: Vec<char> = word.chars().collect();
    let pairs = digits.chunks(2).map(|pair| match pair {
        [high, low] => Some((high.to_digit(16)? * 16 + low.to_digit(16)?) as u8),
        _ => None,
    });
    pairs.collect::<Option<_>>().ok_or_else(|| format!("`{word}` is not hexadecimal"))
}

pub(crate) fn short_bytes(words: &mut SplitWhitespace) -> Result<Vec<u8>, String> {
    short(bytes(words)?)
}

/// Bytes whose count fits in one byte.
fn short(bytes: Vec<u8>) -> Result<Vec<u8>, String> {
    if bytes.len() > 255 {
        return Err("more than 255 bytes".into());
    }
    Ok(bytes)
}
