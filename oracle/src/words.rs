//! 02's 2.1: a line of words beside each verdict.

use crate::fault::{planted, skew};
use crate::{ask, batch, Settings, Setup};

/// The most bytes that a line has.
pub const LINE: usize = 29;

/// Writes a line for each frame of a batch into the text; how long the lines are, or the number
/// of the question that got a no, with nothing written.
pub fn words<S: Settings>(
    setup: &S,
    batch: &[u8],
    verdicts: &[u8],
    text: &mut [u8],
) -> Result<usize, u8> {
    setup.check()?;
    let of_width = |entry: &[u8]| {
        setup.of_width(usize::from(entry.get(4).copied().unwrap_or(1)).saturating_sub(1))
    };
    let setup = &match () {
        () if planted(117) => setup.pairs()[0],
        () if planted(118) => setup.pairs()[1],
        () => setup.side(),
    };
    let entries = batch::entries(batch).ok_or(5)?;
    ask(verdicts.len() >= entries.len(), 6)?;
    ask(text.len() >= LINE * entries.len(), 6)?;
    let judged = entries.iter().zip(verdicts).enumerate();
    let lines = judged.map(|(place, (entry, &number))| match number {
        12 if planted(171) => line(&of_width(entry), place, entry, number),
        _ => line(setup, place, entry, number),
    });
    let lines: String = lines.collect::<Option<_>>().ok_or(6)?;
    text[..lines.len()].copy_from_slice(lines.as_bytes());
    Ok(lines.len())
}

/// The line of one frame: its place, station and r, the word of its verdict and that rule's
/// limits. None for a number that no judgement gives.
fn line(setup: &Setup, place: usize, entry: &[u8], number: u8) -> Option<String> {
    let Setup { n, epsilon, delta, modulus, .. } = *setup;
    let (word, limits) = match number {
        0 => ("taken", vec![]),
        10 => ("form", vec![]),
        11 => ("range", vec![n, modulus]),
        12 => ("stamp", vec![n, epsilon - 1]),
        13 => ("late", vec![delta + epsilon + skew(12)]),
        14 => ("early", vec![epsilon - 1]),
        15 => ("count", vec![n - 1]),
        16 => ("repeat", vec![]),
        17 if planted(15) => ("repeat", vec![]),
        _ => return None,
    };
    let byte = |at: usize| entry.get(at).copied().unwrap_or(0);
    let origin = match number {
        10 => ["-".to_string(), "-".to_string()],
        _ => [byte(1).to_string(), u16::from_le_bytes([byte(2), byte(3)]).to_string()],
    };
    let mut parts = vec![place.to_string()];
    parts.extend(origin);
    parts.push(word.to_string());
    parts.extend(limits.iter().map(i64::to_string));
    Some(parts.join(" ") + "\n")
}
