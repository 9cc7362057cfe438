//! The parts that a picture and its legend are made of.

use crate::layout::Area;
use crate::pieces::PIECE;
use crate::style::{colours, roundness, ALARM};
use crate::svg::Svg;

/// A text in the middle of an area.
fn centred(svg: &mut Svg, area: Area, ink: &str, text: &str) {
    let (x, y) = (area.middle(), area.y + area.height / 2 + 4);
    svg.text("text", &[("class", &"in"), ("x", &x), ("y", &y), ("fill", &ink)], text);
}

fn rectangle(svg: &mut Svg, area: Area, round: i64, fill: &str, stroke: &str) {
    let Area { x, y, width, height } = area;
    svg.leaf(
        "rect",
        &[
            ("x", &x),
            ("y", &y),
            ("width", &width),
            ("height", &height),
            ("rx", &round),
            ("fill", &fill),
            ("stroke", &stroke),
        ],
    );
}

/// A sending: its ticket on the sender's colour.
pub fn sending(svg: &mut Svg, area: Area, node: Option<usize>, label: &str) {
    let (colour, ink) = colours(node);
    rectangle(svg, area, roundness(node), colour, "#222");
    centred(svg, area, ink, label);
}

/// A message on a board or from outside: the sender's number on its colour, and the ticket.
pub fn chip(svg: &mut Svg, area: Area, node: Option<usize>, swatch: i64, label: &str) {
    let (colour, ink) = colours(node);
    let number = node.map_or("?".into(), |node| node.to_string());
    let round = roundness(node) / 2;
    rectangle(svg, area, round, "#fff", "#222");
    let left = Area { width: swatch, ..area };
    rectangle(svg, left, round, colour, "#222");
    centred(svg, left, ink, &number);
    let right = Area { x: area.x + swatch, width: area.width - swatch, ..area };
    centred(svg, right, "#000", label);
}

/// The number by which a message is refused.
pub fn refused(svg: &mut Svg, area: Area, label: &str) {
    rectangle(svg, area, 0, "#fff", ALARM);
    centred(svg, area, ALARM, label);
}

/// What was mended.
pub fn mend(svg: &mut Svg, area: Area, label: &str) {
    rectangle(svg, area, 0, ALARM, ALARM);
    centred(svg, area, "#fff", label);
}

/// A step that sends nothing.
pub fn dot(svg: &mut Svg, area: Area) {
    let (x, y) = (area.middle(), area.y + area.height / 2);
    svg.leaf("circle", &[("class", &"dot"), ("cx", &x), ("cy", &y), ("r", &(area.height / 2))]);
}

/// A line without anything in it, of this class.
pub fn line(svg: &mut Svg, class: &str, path: &str) {
    svg.leaf("path", &[("class", &class), ("d", &path)]);
}

/// An area of a piece's height around the height y.
pub fn around(x: i64, y: i64, width: i64) -> Area {
    Area { x, y: y - PIECE / 2, width, height: PIECE }
}
