//! What is said where the pointer stands, and in the heading.

use crate::run::{Content, Hearing, Kind, Message, Run, Step};
use crate::style::cut;
use oracle::playing::hex;
use oracle::yard::CHECKS;

/// So many messages are named at most.
const NAMES: usize = 20;

/// A message in few words: its ticket, sender and clock.
fn name(run: &Run, message: usize) -> String {
    match &run.messages[message].content {
        Some(Content { node, r, payload, .. }) => {
            format!("{} of station {node} at {r}", cut(&hex(payload), 12))
        }
        None => "what is no frame".into(),
    }
}

/// Some messages, the first of many.
fn names(run: &Run, messages: &[usize]) -> String {
    let mut names: Vec<String> =
        messages.iter().take(NAMES).map(|&message| name(run, message)).collect();
    if messages.len() > NAMES {
        names.push(format!("and {} more", messages.len() - NAMES));
    }
    names.join(", ")
}

/// A message's ticket, stamp and due clock.
pub fn message(run: &Run, message: usize) -> String {
    let Message { content, bytes, .. } = &run.messages[message];
    let Some(Content { node, r, c, counts, payload, due }) = content else {
        return format!("no frame: {}", hex(bytes));
    };
    let epsilon = run.setup.epsilon;
    let counts: Vec<String> = counts.iter().map(u8::to_string).collect();
    let due = due.map_or("-".into(), |due| due.to_string());
    format!(
        "ticket {}{}\nstation {node}, stamp r {r}, c {c}, counts {} from offset −{epsilon}\n\
         due at clock {due}",
        hex(payload),
        readable(payload),
        counts.join(","),
    )
}

/// A ticket as letters, if it has nothing else.
fn readable(payload: &[u8]) -> String {
    let is_readable = |byte: &u8| *byte == b' ' || byte.is_ascii_graphic();
    match std::str::from_utf8(payload) {
        Ok(text) if !text.is_empty() && payload.iter().all(is_readable) => format!(" ({text})"),
        _ => String::new(),
    }
}

/// A sending: the message, what it may be because of, and on which boards it is.
pub fn sending(run: &Run, sent: usize) -> String {
    let mut lines = vec![message(run, sent)];
    let causes = &run.messages[sent].causes;
    if !causes.is_empty() {
        lines.push(format!("because of {}", names(run, causes)));
    }
    for (number, step) in run.numbered() {
        for place in 0..step.deliveries.len() {
            if step.deliveries[place].message == sent {
                lines.push(shown(run, number, step, place));
            }
        }
    }
    lines.join("\n")
}

/// A message on a board: which, when, in which place and why there (02, 2.4).
pub fn delivery(run: &Run, number: usize, step: &Step, place: usize) -> String {
    let message = message(run, step.deliveries[place].message);
    format!("{message}\n{}", shown(run, number, step, place))
}

fn shown(run: &Run, number: usize, step: &Step, place: usize) -> String {
    let (word, count) = (run.kind.step_word(), step.deliveries.len());
    let reason = reason(run, step, place);
    let Step { node, clock, .. } = step;
    format!("on board {node} at {clock} ({word} {number}), {} of {count}{reason}", place + 1)
}

/// Why a message stands behind the one before it.
fn reason(run: &Run, step: &Step, place: usize) -> String {
    let Some(before) = place.checked_sub(1) else {
        return String::new();
    };
    let reason = &step.deliveries[place].reason;
    let before = name(run, step.deliveries[before].message);
    let what = match reason.split_once(' ').map_or(&reason[..], |(word, _)| word) {
        "sum" => "its r + c is larger",
        "count" => "it knew of more events at that clock",
        "station" => "its station's number is larger",
        "r" => "its r is larger",
        _ => "nothing differs",
    };
    format!(": behind {before} by {reason}, {what}")
}

/// A hearing: the message, who heard it and what came of it.
pub fn hearing(run: &Run, number: usize, step: &Step, hearing: &Hearing) -> String {
    let (word, Step { node, clock, .. }) = (run.kind.step_word(), step);
    let message = message(run, hearing.message);
    let times = if hearing.times > 1 { format!(", {} times", hearing.times) } else { "".into() };
    let verdict = verdict(hearing.verdict);
    format!("{message}\nheard by station {node} at {clock} ({word} {number}){times}: {verdict}")
}

/// Hearings that a step refuses by one number.
pub fn refused(run: &Run, number: usize, step: &Step, hearings: &[usize]) -> String {
    let one = &step.hearings[hearings[0]];
    if hearings.len() == 1 {
        return hearing(run, number, step, one);
    }
    let messages: Vec<usize> = hearings.iter().map(|&i| step.hearings[i].message).collect();
    let (word, Step { node, clock, .. }) = (run.kind.step_word(), step);
    let (names, verdict) = (names(run, &messages), verdict(one.verdict));
    format!("heard by station {node} at {clock} ({word} {number}): {names}\n{verdict}")
}

/// What a verdict says.
fn verdict(number: u8) -> String {
    let why = match number {
        0 => return "taken".into(),
        10 => "form, a wrong count or something left over",
        11 => "range, a station or clock out of range",
        12 => "stamp, not a sound one",
        13 => "late, too old, or its sender's clock too far ahead",
        14 => "early, it knows of a clock too far ahead",
        15 => "count, it counts more events than there can be",
        _ => "repeat, it is on the shelf already",
    };
    format!("refused by {number}: {why}")
}

/// The word of each number that a frame can be refused by in such a run.
pub fn numbers(kind: Kind) -> &'static str {
    match kind {
        Kind::Yard => "13 late, 14 early, 15 count, 16 repeat",
        Kind::Replay => "10 form, 11 range, 12 stamp, 13 late, 14 early, 15 count, 16 repeat",
    }
}

/// A step: what its tick line says.
pub fn step(run: &Run, number: usize, step: &Step) -> String {
    let Step { node, clock, tick, .. } = step;
    let mut lines = vec![
        format!("{} {number}: station {node} at clock {clock}", run.kind.step_word()),
        format!("mend {}, c {}, took {}, gave {}", tick.repair, tick.c, tick.taken, tick.delivered),
    ];
    match step.moved {
        Some(1) | None => {}
        Some(moved) if (2..=run.setup.epsilon).contains(&moved) => {
            lines.push(format!("its clock was nudged by {moved}"));
        }
        Some(moved) => lines.push(format!("its clock moved by {moved}, which is damage")),
    }
    if let Some(sent) = step.sent {
        lines.push(format!("sent {}", cut(&name(run, sent), 40)));
    }
    lines.join("\n")
}

/// A mend: which of what.
pub fn mend(repair: u8) -> &'static str {
    match repair {
        1 => "mend 1: the tables were replaced",
        2 => "mend 2: the shelf was emptied",
        _ => "mend 3: the tables were replaced and the shelf emptied",
    }
}

/// The heading.
pub fn heading(run: &Run) -> String {
    let setup = &run.setup;
    let who = match (run.kind, setup.n) {
        (Kind::Replay, _) => format!("Station {} of {}", setup.own, setup.n),
        (Kind::Yard, 1) => "A yard of one station".into(),
        (Kind::Yard, n) => format!("A yard of {n} stations"),
    };
    let (count, word) = (run.steps.len(), run.kind.step_word());
    let plural = if count == 1 { "" } else { "s" };
    format!(
        "{who}, {count} {word}{plural}: drift limit ε {}, delay limit δ {}, clocks modulo {}",
        setup.epsilon, setup.delta, setup.modulus
    )
}

/// The line under it: the first refusals and mends.
pub fn summary(run: &Run) -> String {
    let word = run.kind.step_word();
    let first_refused = |check: u8| {
        let refuses = |step: &Step| step.hearings.iter().any(|hearing| hearing.verdict == check);
        let number = run.steps.iter().position(refuses)? + 1;
        Some(format!("{check} first in {word} {number}"))
    };
    let refused: Vec<String> = CHECKS.filter_map(first_refused).collect();
    let refused = if refused.is_empty() { "nothing".into() } else { refused.join(", ") };
    let mends = match run.steps.iter().position(|step| step.tick.repair > 0) {
        Some(index) => format!("first in {word} {}", index + 1),
        None => "nothing".into(),
    };
    format!("Refused: {refused}. Mended: {mends}.")
}
