//! What stands at a step: which pieces, how wide they are and where they go.

use crate::layout::{Area, Item, Layout, Placed};
use crate::run::{Hearing, Kind, Run, Step};
use crate::style::{label, moved_label, number_width, sender, text_width, verdict_label};

/// How high a chip, a box and a badge are, and how far one is below the next.
pub const PIECE: i64 = 13;
const PITCH: i64 = 14;
/// Half the height of a sending's mark.
pub const HALF_MARK: i64 = 8;
/// Half the height of the mark of a step that sends nothing.
pub const HALF_DOT: i64 = 4;
/// How far below a lane's line the stack starts.
pub const STACK: i64 = 21;
/// How far above it the refused messages start.
const REFUSED: i64 = 18;
/// How far above it the frames from outside stand, and the numbers of those refused.
const OUTSIDE: i64 = 68;
const OUTSIDE_REFUSED: i64 = 42;
/// How far a box stands beside the middle of its step.
const ASIDE: i64 = 3;
/// How far a step's number does.
const NUMBER_ASIDE: i64 = 5;
/// The room for a refused message's number that widens all columns; more widens its own.
const LONGEST_BOX: i64 = 44;

/// The room for a step's mark, what it hands out and what it refuses.
pub fn usual_width(run: &Run, step: &Step, limit: usize) -> i64 {
    let marks = step.sent.map(|message| mark_width(&label(&run.messages[message], limit)));
    let chips = step.deliveries.iter().map(|delivery| chip_width(run, delivery.message, limit));
    let boxes = box_widths(run, step).filter(|&width| width <= LONGEST_BOX);
    marks.into_iter().chain(chips).chain(boxes).max().unwrap_or(0) + 6
}

/// All the room that a step needs, which for some is more than the usual.
pub fn whole_width(run: &Run, step: &Step, limit: usize) -> i64 {
    let mend = if step.tick.repair > 0 { mend_width(step) + 6 } else { 0 };
    let moved = moved_label(step.moved).map_or(0, |label| 2 * (ASIDE + text_width(&label)) + 2);
    let boxes = box_widths(run, step).max().unwrap_or(0) + 6;
    let cells = row(run, step).into_iter();
    let cells: i64 = cells.map(|hearing| cell_width(run, step, hearing, limit)).sum();
    mend.max(moved).max(boxes).max(cells + 8)
}

/// The room for the number of the last step.
pub fn last_number_width(run: &Run) -> i64 {
    2 * (NUMBER_ASIDE + number_width(run.steps.len())) + 2
}

/// The room for each refused number of a yard's step, around its middle.
fn box_widths<'a>(run: &'a Run, step: &'a Step) -> impl Iterator<Item = i64> + 'a {
    let boxes = refused(run, step, |_| true).into_iter();
    boxes.map(move |hearing| 2 * (ASIDE + box_width(run, step, hearing)))
}

/// What a step's mend is called.
pub fn mend_label(step: &Step) -> String {
    format!("mend {}", step.tick.repair)
}

fn mend_width(step: &Step) -> i64 {
    text_width(&mend_label(step)) + 6
}

fn mark_width(label: &str) -> i64 {
    text_width(label) + 12
}

/// The number of what a hearing leads, and how often.
pub fn refused_label(run: &Run, step: &Step, hearing: usize) -> String {
    let times = led(run, step, hearing).iter().map(|&i| step.hearings[i].times).sum();
    verdict_label(step.hearings[hearing].verdict, times)
}

fn box_width(run: &Run, step: &Step, hearing: usize) -> i64 {
    text_width(&refused_label(run, step, hearing)) + 6
}

/// The first of a step's refused hearings that share its number's box: in a yard those of one number
/// that come from one side, of a single node each alone.
pub fn leader(run: &Run, step: &Step, hearing: usize) -> usize {
    let of = |hearing: &Hearing| (hearing.verdict, source_node(run, hearing) > Some(step.node));
    let own = of(&step.hearings[hearing]);
    match run.kind {
        Kind::Replay => hearing,
        Kind::Yard => step.hearings.iter().position(|other| of(other) == own).unwrap_or(hearing),
    }
}

/// The hearings that one leads, itself first.
pub fn led(run: &Run, step: &Step, hearing: usize) -> Vec<usize> {
    (hearing..step.hearings.len()).filter(|&i| leader(run, step, i) == hearing).collect()
}

/// How wide the part of a chip is that has the sender's number.
pub fn swatch_width(run: &Run, message: usize) -> i64 {
    text_width(&sender(run, message)) + 5
}

fn chip_width(run: &Run, message: usize, limit: usize) -> i64 {
    swatch_width(run, message) + text_width(&label(&run.messages[message], limit)) + 6
}

/// The hearings of a single node's step that stand side by side above its line: those from outside,
/// and what it refuses of its own.
fn row(run: &Run, step: &Step) -> Vec<usize> {
    let stands = |hearing: &Hearing| run.is_outside(hearing) || hearing.verdict > 0;
    match run.kind {
        Kind::Yard => Vec::new(),
        Kind::Replay => (0..step.hearings.len()).filter(|&i| stands(&step.hearings[i])).collect(),
    }
}

/// How wide a place in that row is.
fn cell_width(run: &Run, step: &Step, hearing: usize, limit: usize) -> i64 {
    let heard = &step.hearings[hearing];
    let number = if heard.verdict > 0 { box_width(run, step, hearing) } else { 0 };
    let chip = if run.is_outside(heard) { chip_width(run, heard.message, limit) } else { 0 };
    number.max(chip) + 4
}

/// How far a step reaches above its lane's line.
pub fn height_above(run: &Run, step: &Step) -> i64 {
    let hears_itself = |hearing: &Hearing| source_node(run, hearing) == Some(step.node);
    let arcs = if step.hearings.iter().any(hears_itself) { 26 } else { 0 };
    let row = if row(run, step).is_empty() { 0 } else { OUTSIDE + 4 };
    let refused = refused_above(run, step).len() as i64;
    let refused = if refused > 0 { REFUSED + refused * PITCH } else { 0 };
    arcs.max(row).max(refused)
}

/// How far a step reaches below it.
pub fn height_below(run: &Run, step: &Step) -> i64 {
    STACK + stack(run, step).len() as i64 * PITCH
}

/// The node that sent what is heard, within the run.
fn source_node(run: &Run, hearing: &Hearing) -> Option<usize> {
    run.messages[hearing.message].source.map(|step| run.steps[step].node)
}

/// Refused hearings whose number stands above the line: they come from above, or from itself.
fn refused_above(run: &Run, step: &Step) -> Vec<usize> {
    refused(run, step, |node| node <= step.node)
}

/// The leaders of a yard's refused hearings that come from such nodes.
fn refused(run: &Run, step: &Step, from: impl Fn(usize) -> bool) -> Vec<usize> {
    let is_one = |&place: &usize| {
        let hearing = &step.hearings[place];
        let comes = hearing.verdict > 0 && source_node(run, hearing).is_some_and(&from);
        run.kind == Kind::Yard && comes && leader(run, step, place) == place
    };
    (0..step.hearings.len()).filter(is_one).collect()
}

/// What stands below a step, from the top down.
fn stack(run: &Run, step: &Step) -> Vec<Item> {
    let mend = (step.tick.repair > 0).then_some(Item::Mend);
    let refused = refused(run, step, |node| node > step.node);
    let mut items: Vec<Item> = mend.into_iter().collect();
    items.extend(refused.into_iter().map(Item::Refused));
    items.extend((0..step.deliveries.len()).map(Item::Delivery));
    items
}

/// Places all that stands at a step.
pub fn place_step(run: &Run, index: usize, step: &Step, layout: &mut Layout) {
    let (x, y) = (layout.middles[index], layout.lane(step).y);
    let mut put = |item, area| layout.placed.push(Placed { step: index, item, area });
    let limit = layout.limit;
    let (half, width) = match step.sent {
        Some(message) => (HALF_MARK, mark_width(&label(&run.messages[message], limit))),
        None => (HALF_DOT, 2 * HALF_DOT),
    };
    put(Item::Mark, Area { x: x - width / 2, y: y - half, width, height: 2 * half });
    let number = number_width(index + 1);
    put(Item::Number, Area { x: x + NUMBER_ASIDE, y: y + 9, width: number, height: 9 });
    if let Some(label) = moved_label(step.moved) {
        let width = text_width(&label);
        put(Item::Moved, Area { x: x - ASIDE - width, y: y + 9, width, height: 10 });
    }
    for (place, item) in stack(run, step).into_iter().enumerate() {
        put(item, piece(run, step, item, limit, x, y + STACK + place as i64 * PITCH));
    }
    for (place, &hearing) in refused_above(run, step).iter().enumerate() {
        let item = Item::Refused(hearing);
        put(item, piece(run, step, item, limit, x, y - REFUSED - (place as i64 + 1) * PITCH));
    }
    place_row(run, index, step, layout);
}

/// The area of one piece of a stack: the numbers of refused ones stand beside the middle, so that
/// what is taken is seen to come to it.
fn piece(run: &Run, step: &Step, item: Item, limit: usize, x: i64, y: i64) -> Area {
    let (left, width) = match item {
        Item::Refused(hearing) => (x + ASIDE, box_width(run, step, hearing)),
        Item::Delivery(place) => {
            let width = chip_width(run, step.deliveries[place].message, limit);
            (x - width / 2, width)
        }
        _ => {
            let width = mend_width(step);
            (x - width / 2, width)
        }
    };
    Area { x: left, y, width, height: PIECE }
}

/// Places what a single node hears from outside.
fn place_row(run: &Run, index: usize, step: &Step, layout: &mut Layout) {
    let (y, limit) = (layout.lane(step).y, layout.limit);
    let row = row(run, step);
    let width = |hearing: usize| cell_width(run, step, hearing, limit);
    let whole: i64 = row.iter().map(|&hearing| width(hearing)).sum();
    let mut left = layout.middles[index] - whole / 2;
    for hearing in row {
        let middle = left + width(hearing) / 2;
        let mut put = |item, width: i64, y| {
            let area = Area { x: middle - width / 2, y, width, height: PIECE };
            layout.placed.push(Placed { step: index, item, area });
        };
        let heard = &step.hearings[hearing];
        if run.is_outside(heard) {
            put(Item::Outside(hearing), chip_width(run, heard.message, limit), y - OUTSIDE);
        }
        if heard.verdict > 0 {
            put(Item::Refused(hearing), box_width(run, step, hearing), y - OUTSIDE_REFUSED);
        }
        left += width(hearing);
    }
}
