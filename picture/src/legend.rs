//! The legend: what each mark means.

use crate::layout::Area;
use crate::parts::{around, chip, dot, line, mend, refused, sending};
use crate::pieces::{HALF_DOT, HALF_MARK};
use crate::run::{Kind, Run};
use crate::style::colour;
use crate::svg::Svg;
use crate::words::numbers;

/// How wide and high an entry is, and where its words start.
const CELL: i64 = 345;
const ROW: i64 = 22;
const WORDS: i64 = 66;
const MARGIN: i64 = 16;

/// What an entry shows.
#[derive(Clone, Copy)]
enum Sign {
    Sending,
    Dot,
    Taken,
    Refused,
    Delivery,
    Nudge,
    Mend,
    Wrap,
}

fn entries(run: &Run) -> Vec<(Sign, String)> {
    let word = run.kind.step_word();
    let taken = match run.kind {
        Kind::Yard => "heard and taken, in the sender's colour",
        Kind::Replay => "heard and taken, from outside or its own",
    };
    vec![
        (Sign::Sending, format!("a sending with its ticket; its {word} below")),
        (Sign::Delivery, "on the board: sender and ticket, first on top".into()),
        (Sign::Taken, taken.into()),
        (Sign::Refused, "heard and refused, by this number".into()),
        (Sign::Dot, format!("a {word} that sends nothing")),
        (Sign::Nudge, "a clock nudged by so many ticks".into()),
        (Sign::Mend, "mended: 1 tables, 2 shelf, 3 both".into()),
        (Sign::Wrap, "here clocks start again from 0".into()),
    ]
}

/// What stands below the signs.
fn notes(run: &Run) -> [String; 2] {
    let numbers = format!("The numbers: {}.", numbers(run.kind));
    let more = "Opened in a browser it says more of what the pointer stands on: \
                ticket, stamp, due clock, and why it is shown there.";
    [numbers, more.into()]
}

/// How high the legend of a picture of this width is.
pub fn height(run: &Run, width: i64) -> i64 {
    let rows = (entries(run).len() as i64 + across(width) - 1) / across(width);
    (rows + notes(run).len() as i64) * ROW + MARGIN
}

/// How many entries stand side by side.
fn across(width: i64) -> i64 {
    ((width - 2 * MARGIN) / CELL).clamp(1, 5)
}

/// Draws the legend below this height.
pub fn draw(svg: &mut Svg, run: &Run, width: i64, top: i64) {
    for (place, (sign, words)) in entries(run).iter().enumerate() {
        let (row, column) = (place as i64 / across(width), place as i64 % across(width));
        let (x, y) = (MARGIN + column * CELL, top + row * ROW + ROW / 2);
        draw_sign(svg, *sign, x, y);
        let place = (x + WORDS, y + 4);
        svg.text("text", &[("class", &"say"), ("x", &place.0), ("y", &place.1)], words);
    }
    let mut y = top + height(run, width) - MARGIN;
    for note in notes(run).iter().rev() {
        y -= ROW;
        let place = (MARGIN + 4, y + ROW / 2 + 4);
        svg.text("text", &[("class", &"say"), ("x", &place.0), ("y", &place.1)], note);
    }
}

/// Draws one sign, from x on, around the height y.
fn draw_sign(svg: &mut Svg, sign: Sign, x: i64, y: i64) {
    let path = format!("M{} {y}H{}", x + 4, x + 54);
    match sign {
        Sign::Sending => {
            let area = Area { x: x + 16, y: y - HALF_MARK, width: 26, height: 2 * HALF_MARK };
            sending(svg, area, Some(0), "a1");
        }
        Sign::Dot => {
            line(svg, "line", &path);
            let side = 2 * HALF_DOT;
            dot(svg, Area { x: x + 25, y: y - HALF_DOT, width: side, height: side });
        }
        Sign::Taken => {
            let (stroke, head) = (colour(0), "url(#h0)");
            let class = "arrow";
            svg.leaf(
                "path",
                &[("class", &class), ("stroke", &stroke), ("marker-end", &head), ("d", &path)],
            );
        }
        Sign::Refused => {
            line(svg, "arrow refused", &format!("M{} {y}H{}", x + 4, x + 34));
            refused(svg, around(x + 34, y, 19), "16");
        }
        Sign::Delivery => chip(svg, around(x + 14, y, 30), Some(0), 12, "a1"),
        Sign::Nudge => {
            line(svg, "nudge", &format!("M{} {y}H{}", x + 4, x + 34));
            let place = (x + 38, y + 4);
            svg.text("text", &[("class", &"moved"), ("x", &place.0), ("y", &place.1)], "+2");
        }
        Sign::Mend => mend(svg, around(x + 8, y, 43), "mend 1"),
        Sign::Wrap => line(svg, "wrap", &format!("M{} {}v16", x + 29, y - 8)),
    }
}
