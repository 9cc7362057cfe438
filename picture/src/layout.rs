//! Where everything stands: columns for clocks, a lane for each node, and an area for all that must
//! be read, no two of which overlap. All numbers are whole.

use crate::pieces::{height_above, height_below, last_number_width, place_step};
use crate::pieces::{usual_width, whole_width, STACK};
use crate::run::{Run, Step};
use crate::style::label;
use crate::words::{heading, summary};
use std::collections::BTreeMap;

/// Where the lanes start and end, and how far they are apart.
pub const LEFT: i64 = 96;
pub const TOP: i64 = 72;
const RIGHT: i64 = 16;
const LANE_GAP: i64 = 16;
/// How high the lower axis is.
pub const AXIS: i64 = 20;
/// So many columns at most get more room than they need, and longer labels.
const FEW_COLUMNS: usize = 24;
const MANY_COLUMNS: usize = 100;
/// A gap of more clocks than this is drawn as a break.
const LONGEST_GAP: i64 = 3;
/// The least width of a picture.
const LEAST_WIDTH: i64 = 780;

/// A rectangle.
#[derive(Clone, Copy, Debug, PartialEq, Eq)]
pub struct Area {
    pub x: i64,
    pub y: i64,
    pub width: i64,
    pub height: i64,
}

impl Area {
    pub fn middle(&self) -> i64 {
        self.x + self.width / 2
    }

    pub fn right(&self) -> i64 {
        self.x + self.width
    }

    pub fn bottom(&self) -> i64 {
        self.y + self.height
    }
}

/// What stands in an area.
#[derive(Clone, Copy, Debug, PartialEq, Eq, Hash)]
pub enum Item {
    /// The step itself: a sending's mark with its ticket, or a dot.
    Mark,
    /// The step's number.
    Number,
    /// How far its clock has moved.
    Moved,
    /// What was mended.
    Mend,
    /// The number of this hearing, which is refused, and of those that it leads.
    Refused(usize),
    /// The frame of this hearing, which comes from outside.
    Outside(usize),
    /// This one of its deliveries.
    Delivery(usize),
}

/// Something that must be read, at a step.
#[derive(Clone, Copy, Debug)]
pub struct Placed {
    pub step: usize,
    pub item: Item,
    pub area: Area,
}

/// A node's lane.
#[derive(Clone, Copy, Debug)]
pub struct Lane {
    pub node: usize,
    /// Its line.
    pub y: i64,
    pub top: i64,
    pub bottom: i64,
}

/// The column of a clock; none where clocks are left out.
#[derive(Clone, Copy, Debug)]
pub struct Column {
    pub time: Option<i64>,
    pub x: i64,
    pub width: i64,
}

/// A whole picture's places.
#[derive(Debug)]
pub struct Layout {
    pub lanes: Vec<Lane>,
    pub columns: Vec<Column>,
    /// The middle of each step.
    pub middles: Vec<i64>,
    pub placed: Vec<Placed>,
    /// How many characters a label may have.
    pub limit: usize,
    pub width: i64,
    /// Where the lanes end.
    pub bottom: i64,
}

impl Layout {
    /// The lane of a step.
    pub fn lane(&self, step: &Step) -> &Lane {
        self.lanes.iter().find(|lane| lane.node == step.node).expect("a lane for each node")
    }

    /// The label of a message.
    pub fn label(&self, run: &Run, message: usize) -> String {
        label(&run.messages[message], self.limit)
    }
}

/// Places all of a run.
pub fn lay_out(run: &Run) -> Layout {
    let times = run.steps.iter().map(|step| step.time);
    let clocks: std::collections::BTreeSet<i64> = times.collect();
    let limit = if clocks.len() > MANY_COLUMNS { 3 } else { 4 };
    let base = base_width(run, limit, clocks.len() <= FEW_COLUMNS);
    let (columns, middles) = columns(run, limit, base);
    let end = columns.last().map_or(LEFT, |column| column.x + column.width);
    let lanes = lanes(run);
    let bottom = lanes.last().map_or(TOP, |lane| lane.bottom);
    let width = (end + RIGHT).max(LEAST_WIDTH).max(words_width(run));
    let mut layout = Layout { lanes, columns, middles, placed: Vec::new(), limit, width, bottom };
    for (index, step) in run.steps.iter().enumerate() {
        place_step(run, index, step, &mut layout);
    }
    layout
}

/// The room that the heading and the line under it need.
fn words_width(run: &Run) -> i64 {
    let [heading, summary] = [heading(run), summary(run)].map(|words| words.chars().count() as i64);
    32 + (heading * 9).max(summary * 7)
}

/// The width that each column has at least.
fn base_width(run: &Run, limit: usize, few: bool) -> i64 {
    let widths = run.steps.iter().map(|step| usual_width(run, step, limit));
    let least = if few { 54 } else { 34 };
    widths.max().unwrap_or(0).max(last_number_width(run)).max(least)
}

/// The columns, and the middle of each step. A node that comes to a clock again has its steps side by
/// side in that clock's column.
fn columns(run: &Run, limit: usize, base: i64) -> (Vec<Column>, Vec<i64>) {
    let mut visits: BTreeMap<(usize, i64), usize> = BTreeMap::new();
    let mut slots: BTreeMap<i64, Vec<i64>> = BTreeMap::new();
    let mut places = Vec::new();
    for step in &run.steps {
        let visit = visits.entry((step.node, step.time)).or_insert(0);
        let widths = slots.entry(step.time).or_default();
        let width = whole_width(run, step, limit).max(base);
        match widths.get_mut(*visit) {
            Some(widest) => *widest = width.max(*widest),
            None => widths.push(width),
        }
        places.push((step.time, *visit));
        *visit += 1;
    }
    let columns = in_a_row(&slots, base);
    let starts: BTreeMap<i64, i64> =
        columns.iter().filter_map(|column| Some((column.time?, column.x))).collect();
    let middle = |(time, visit): (i64, usize)| {
        let widths = &slots[&time];
        starts[&time] + widths[..visit].iter().sum::<i64>() + widths[visit] / 2
    };
    (columns, places.into_iter().map(middle).collect())
}

/// Columns side by side, also for clocks at which nothing is; a long gap is one column.
fn in_a_row(slots: &BTreeMap<i64, Vec<i64>>, base: i64) -> Vec<Column> {
    let mut columns: Vec<Column> = Vec::new();
    let mut x = LEFT;
    let mut last = None;
    for (&time, widths) in slots {
        let between = last.map_or(time, |last| last + 1)..time;
        let gap = match between.end - between.start > LONGEST_GAP {
            true => vec![None],
            false => between.map(Some).collect(),
        };
        let gap = gap.into_iter().map(|time| (time, base));
        for (time, width) in gap.chain([(Some(time), widths.iter().sum())]) {
            columns.push(Column { time, x, width });
            x += width;
        }
        last = Some(time);
    }
    columns
}

/// The lanes from the top down, each as high as its highest step.
fn lanes(run: &Run) -> Vec<Lane> {
    let mut top = TOP;
    let mut lanes = Vec::new();
    for node in run.lanes() {
        let steps = || run.steps.iter().filter(|step| step.node == node);
        let above = steps().map(|step| height_above(run, step)).max().unwrap_or(0).max(14);
        let below = steps().map(|step| height_below(run, step)).max().unwrap_or(0);
        let y = top + above;
        let bottom = y + below.max(STACK) + 2;
        lanes.push(Lane { node, y, top, bottom });
        top = bottom + LANE_GAP;
    }
    lanes
}
