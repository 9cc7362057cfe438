//! Colours, sizes and labels. The colours are told apart by colour-blind people too (six of Okabe
//! and Ito's, a grey and a dark purple; a test measures it); no colour alone says anything: numbers, forms and dashes say it
//! as well.

use crate::run::{Message, Run};
use oracle::playing::hex;

/// The colours of nodes, each with that of text upon it. A node from 8 up has angular marks.
const NODES: [(&str, &str); 8] = [
    ("#0072b2", "#fff"),
    ("#e69f00", "#000"),
    ("#009e73", "#000"),
    ("#cc79a7", "#000"),
    ("#56b4e9", "#000"),
    ("#555555", "#fff"),
    ("#000000", "#fff"),
    ("#6a3d7c", "#fff"),
];
/// What is refused or mended.
pub const ALARM: &str = "#c2410c";
/// A frame whose sender cannot be told.
const NOBODY: (&str, &str) = ("#eeeeee", "#000");

/// The colour of a node and that of text upon it.
pub fn colours(node: Option<usize>) -> (&'static str, &'static str) {
    match node {
        Some(node) if node < 16 => NODES[node % NODES.len()],
        _ => NOBODY,
    }
}

/// The number of a node's colour, for its arrow head.
pub fn colour_number(node: Option<usize>) -> usize {
    node.filter(|&node| node < 16).map_or(NODES.len(), |node| node % NODES.len())
}

/// How many colours there are, that of nobody included.
pub const COLOURS: usize = NODES.len() + 1;

/// A colour by its number.
pub fn colour(number: usize) -> &'static str {
    NODES.get(number).unwrap_or(&NOBODY).0
}

/// How round the corners of a node's marks are.
pub fn roundness(node: Option<usize>) -> i64 {
    match node {
        Some(node) if node < NODES.len() => 6,
        _ => 0,
    }
}

/// How wide a text in small letters of even width is.
pub fn text_width(text: &str) -> i64 {
    (text.chars().count() as i64 * 61 + 9) / 10
}

/// How wide a number in the smallest letters is.
pub fn number_width(number: usize) -> i64 {
    (number.to_string().len() as i64 * 49 + 9) / 10
}

/// A message's ticket, cut to so many characters; `?` if there is no frame.
pub fn label(message: &Message, limit: usize) -> String {
    match &message.content {
        Some(content) => cut(&hex(&content.payload), limit),
        None => "?".into(),
    }
}

/// A text cut to so many characters, the last of them dots.
pub fn cut(text: &str, limit: usize) -> String {
    match text.len() > limit {
        true => text[..limit - 1].to_string() + "…",
        false => text.into(),
    }
}

/// The number of a message's sender, `?` if it cannot be told.
pub fn sender(run: &Run, message: usize) -> String {
    run.sender(message).map_or("?".into(), |node| node.to_string())
}

/// How far a clock has moved, where it is not by one.
pub fn moved_label(moved: Option<i64>) -> Option<String> {
    match moved {
        None | Some(1) => None,
        Some(moved) if moved < 0 => Some(format!("−{}", -moved)),
        Some(moved) => Some(format!("+{moved}")),
    }
}

/// The number by which a hearing is refused, and how often.
pub fn verdict_label(verdict: u8, times: usize) -> String {
    match times {
        1 => verdict.to_string(),
        _ => format!("{verdict} ×{times}"),
    }
}

#[cfg(test)]
mod tests {
    use super::*;

    /// How full, red-blind, green-blind and blue-blind sight see linear red, green and blue (Machado,
    /// Oliveira and Fernandes, 2009).
    const SIGHTS: [[[f64; 3]; 3]; 4] = [
        [[1.0, 0.0, 0.0], [0.0, 1.0, 0.0], [0.0, 0.0, 1.0]],
        [[0.1523, 1.0526, -0.2049], [0.1145, 0.7863, 0.0992], [-0.0039, -0.0481, 1.0520]],
        [[0.3673, 0.8606, -0.2280], [0.2801, 0.6725, 0.0474], [-0.0118, 0.0429, 0.9689]],
        [[1.2555, -0.0767, -0.1788], [-0.0784, 0.9308, 0.1476], [0.0047, 0.6914, 0.3039]],
    ];
    /// Red, green and blue to X, Y and Z, as parts of white.
    const XYZ: [[f64; 3]; 3] =
        [[0.4339, 0.3762, 0.1899], [0.2126, 0.7152, 0.0722], [0.0177, 0.1095, 0.8728]];

    fn times(matrix: &[[f64; 3]; 3], v: [f64; 3]) -> [f64; 3] {
        matrix.map(|row| (row[0] * v[0] + row[1] * v[1] + row[2] * v[2]).clamp(0.0, 1.0))
    }

    /// A colour as a sight has it, in CIELAB.
    fn seen(colour: &str, sight: &[[f64; 3]; 3]) -> [f64; 3] {
        let part = |at: usize| u8::from_str_radix(&colour[at..at + 2], 16).unwrap();
        let linear = [1, 3, 5].map(part).map(|part| match f64::from(part) / 255.0 {
            part if part <= 0.04045 => part / 12.92,
            part => ((part + 0.055) / 1.055).powf(2.4),
        });
        let [x, y, z] = times(&XYZ, times(sight, linear)).map(|part| match part > 0.008856 {
            true => part.cbrt(),
            false => 7.787 * part + 16.0 / 116.0,
        });
        [116.0 * y - 16.0, 500.0 * (x - y), 200.0 * (y - z)]
    }

    #[test]
    fn colours_are_told_apart_by_every_sight() {
        let mut colours: Vec<&str> = NODES.iter().map(|(colour, _)| *colour).collect();
        colours.extend([ALARM, NOBODY.0, "#ffffff"]);
        for sight in &SIGHTS {
            for (place, one) in colours.iter().enumerate() {
                for other in &colours[place + 1..] {
                    let (a, b) = (seen(one, sight), seen(other, sight));
                    let apart = (0..3).map(|i| (a[i] - b[i]).powi(2)).sum::<f64>().sqrt();
                    let is_ground = [*one, *other] == [NOBODY.0, "#ffffff"];
                    assert!(apart >= 15.0 || is_ground, "{one} and {other}: {apart}");
                }
            }
        }
    }
}
