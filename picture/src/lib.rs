//! Draws a run, a rehearsal of all nodes or the replay of one, as a picture (SVG): who sent what,
//! who heard it, when each board showed it, and what was mended. It is given a trace and the text
//! that the proved program wrote for it; the second program plays the trace once more, to know what
//! the text does not say, and must write the same text.

mod arrows;
pub mod layout;
mod legend;
mod paint;
mod parts;
mod pieces;
pub mod playing;
pub mod run;
mod style;
mod svg;
mod words;

use run::{Kind, Run};

/// The picture of a trace that gave this text; otherwise what is wrong.
pub fn draw(kind: Kind, trace: &[u8], text: &str) -> Result<String, String> {
    let run = read(kind, trace, text)?;
    Ok(paint::paint(&run, &layout::lay_out(&run)))
}

/// The run of a trace that gave this text; otherwise what is wrong.
pub fn read(kind: Kind, trace: &[u8], text: &str) -> Result<Run, String> {
    let own = kind.text(trace);
    if text != own {
        return Err(difference(text, &own));
    }
    match refusal(text) {
        Some(number) => Err(refused(kind, text, number)),
        None => playing::play(kind, trace).map_err(|error| error.to_string()),
    }
}

/// The number of a text that ends in a refusal.
fn refusal(text: &str) -> Option<&str> {
    text.lines().last()?.strip_prefix("refused ")
}

/// The first line in which the text is not what the trace gives.
fn difference(text: &str, own: &str) -> String {
    if text.is_empty() {
        return "there is no text: the trace was not played".into();
    }
    let (mut given, mut wanted) = (text.lines(), own.lines());
    for number in 1.. {
        let (given, wanted) = (given.next(), wanted.next());
        if given != wanted || given.is_none() {
            let [given, wanted] = [given, wanted].map(|line| line.unwrap_or("nothing more"));
            return format!(
                "the text is not this trace's: line {number} is `{given}`, \
                 and by the second program `{wanted}`"
            );
        }
    }
    unreachable!("one of the texts ends")
}

/// What to say of a refused trace.
fn refused(kind: Kind, text: &str, number: &str) -> String {
    let steps = text.lines().filter(|line| line.contains("tick ")).count();
    let why = match (number, kind) {
        ("1", _) => "its setup is outside its limits, or its shelf is too long",
        ("2", _) => "a clock is not below B",
        ("4", _) => "a ticket has more than 32 bytes",
        (_, Kind::Replay) => "it is cut, or goes on too long, or has a send byte above 1",
        (_, Kind::Yard) => {
            "it is cut, or goes on too long, \
             or a step has a wrong station or send byte, or hears a frame not yet sent"
        }
    };
    let other = match kind {
        Kind::Replay => "a yard's trace is drawn with the word yard",
        Kind::Yard => "a single station's trace is drawn without the word yard",
    };
    let step = kind.step_word();
    format!("the trace is refused with {number} after {steps} {step}s: {why} ({other})")
}
