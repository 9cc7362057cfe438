//! The arrows: from each sending to each hearing.

use crate::layout::{Area, Item, Layout};
use crate::pieces::{leader, HALF_DOT, HALF_MARK};
use crate::run::{Hearing, Run, Step};
use crate::style::{colour, colour_number, COLOURS};
use crate::svg::Svg;
use crate::words;
use std::collections::HashMap;

/// How far an arrow bends that would go straight through the steps of other lanes.
const BEND: i64 = 44;
/// How high an arrow back to its own lane goes.
const ARC: i64 = 30;
/// Of more arrows than this each is drawn fainter.
const MANY: usize = 400;
/// Of more than this none says who heard it, but all say which message it is.
const VERY_MANY: usize = 5_000;

/// The heads of arrows, one for each colour.
pub fn heads(svg: &mut Svg) {
    svg.open("defs", &[]);
    for number in 0..COLOURS {
        let id = format!("h{number}");
        svg.open(
            "marker",
            &[
                ("id", &id),
                ("viewBox", &"0 0 8 8"),
                ("refX", &"7"),
                ("refY", &"4"),
                ("markerWidth", &"5"),
                ("markerHeight", &"5"),
                ("orient", &"auto"),
            ],
        );
        svg.leaf("path", &[("d", &"M0 0L8 4L0 8z"), ("fill", &colour(number))]);
        svg.close("marker");
    }
    svg.close("defs");
}

/// Draws all arrows, those of a message together, with what the pointer finds there.
pub fn draw(svg: &mut Svg, run: &Run, layout: &Layout) {
    let mut heard: Vec<Vec<(usize, usize)>> = vec![Vec::new(); run.messages.len()];
    for (index, step) in run.steps.iter().enumerate() {
        for (place, hearing) in step.hearings.iter().enumerate() {
            heard[hearing.message].push((index, place));
        }
    }
    let count: usize = heard.iter().map(Vec::len).sum();
    let opacity = if count > MANY { "0.6" } else { "1" };
    let quiver = Quiver { run, layout, areas: areas(layout), is_terse: count > VERY_MANY };
    svg.open("g", &[("opacity", &opacity)]);
    for (message, hearings) in heard.iter().enumerate() {
        let (class, sender) = (format!("m m{message}"), run.sender(message));
        svg.open("g", &[("class", &class), ("stroke", &colour(colour_number(sender)))]);
        if quiver.is_terse {
            svg.text("title", &[], &words::message(run, message));
        }
        for &(step, place) in hearings {
            quiver.draw_one(svg, step, place);
        }
        svg.close("g");
    }
    svg.close("g");
}

/// Where everything stands.
fn areas(layout: &Layout) -> HashMap<(usize, Item), Area> {
    layout.placed.iter().map(|placed| ((placed.step, placed.item), placed.area)).collect()
}

/// What arrows are drawn by.
struct Quiver<'a> {
    run: &'a Run,
    layout: &'a Layout,
    areas: HashMap<(usize, Item), Area>,
    is_terse: bool,
}

impl Quiver<'_> {
    /// The arrow of one hearing of a step, with what the pointer finds there.
    fn draw_one(&self, svg: &mut Svg, index: usize, place: usize) {
        let step = &self.run.steps[index];
        let hearing = &step.hearings[place];
        let path = self.path(index, place);
        if self.is_terse {
            return self.draw_line(svg, hearing, &path);
        }
        svg.open("g", &[]);
        svg.text("title", &[], &words::hearing(self.run, index + 1, step, hearing));
        svg.leaf("path", &[("class", &"hit"), ("d", &path)]);
        self.draw_line(svg, hearing, &path);
        svg.close("g");
    }

    /// What is refused is dashed, and has its number for a head.
    fn draw_line(&self, svg: &mut Svg, hearing: &Hearing, path: &str) {
        let head = format!("url(#h{})", colour_number(self.run.sender(hearing.message)));
        match hearing.verdict {
            0 => svg.leaf("path", &[("class", &"arrow"), ("marker-end", &head), ("d", &path)]),
            _ => svg.leaf("path", &[("class", &"arrow refused"), ("d", &path)]),
        }
    }

    fn path(&self, index: usize, place: usize) -> String {
        let step = &self.run.steps[index];
        let message = &self.run.messages[step.hearings[place].message];
        let number = Item::Refused(leader(self.run, step, place));
        let target = self.areas.get(&(index, number)).filter(|_| step.hearings[place].verdict > 0);
        match message.source {
            Some(source) => from_step(self.run, self.layout, source, index, target),
            None => {
                let area = &self.areas[&(index, Item::Outside(place))];
                let mark = &self.areas[&(index, Item::Mark)];
                from_outside(area, target, mark)
            }
        }
    }
}

/// Straight down from a frame to its number, or to the mark or the line beside it.
fn from_outside(area: &Area, target: Option<&Area>, mark: &Area) -> String {
    let x = area.middle();
    let end = match target {
        Some(target) => target.y,
        None if (mark.x..=mark.right()).contains(&x) => mark.y - 1,
        None => mark.y + mark.height / 2 - 1,
    };
    format!("M{x} {}V{end}", area.bottom())
}

/// From a sending to the step that hears it.
fn from_step(
    run: &Run,
    layout: &Layout,
    source: usize,
    index: usize,
    target: Option<&Area>,
) -> String {
    let (from, to) = (&run.steps[source], &run.steps[index]);
    let (x1, y1) = (layout.middles[source], layout.lane(from).y);
    let (x2, y2) = end(layout, index, to, from.node > to.node, x1, target);
    let bend = format!("{} {}", (x1 + x2) / 2 - BEND, (y1 + y2) / 2);
    let apart = from.node.abs_diff(to.node);
    match (apart, from.node > to.node) {
        (0, _) => {
            let top = layout.lane(from).y - HALF_MARK;
            format!("M{x1} {top}Q{} {} {x2} {y2}", (x1 + x2) / 2, top - ARC)
        }
        (2.., _) if (x2 - x1).abs() < BEND / 2 => format!("M{x1} {y1}Q{bend} {x2} {y2}"),
        (_, true) => format!("M{x1} {}L{x2} {y2}", y1 - HALF_MARK),
        (_, false) => format!("M{x1} {}L{x2} {y2}", y1 + HALF_MARK),
    }
}

/// Where an arrow ends: at the side of its number, or at the step's mark.
fn end(
    layout: &Layout,
    index: usize,
    step: &Step,
    from_below: bool,
    x1: i64,
    target: Option<&Area>,
) -> (i64, i64) {
    let (x, y) = (layout.middles[index], layout.lane(step).y);
    let half = 1 + if step.sent.is_some() { HALF_MARK } else { HALF_DOT };
    match target {
        Some(area) if x1 > area.right() => (area.right(), area.y + area.height / 2),
        Some(area) => (area.x, area.y + area.height / 2),
        None if from_below => (x, y + half),
        None => (x, y - half),
    }
}
