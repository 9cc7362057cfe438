//! Writes the picture: lanes and clocks first, then arrows, and upon these all that must be read.

use crate::arrows;
use crate::layout::{Column, Item, Layout, Placed, AXIS, LEFT, TOP};
use crate::legend;
use crate::parts::{chip, dot, line, mend, refused, sending};
use crate::pieces::{led, mend_label, refused_label, swatch_width};
use crate::run::{Run, Step};
use crate::style::{colours, moved_label, roundness, ALARM};
use crate::svg::Svg;
use crate::words;
use std::fmt::Write as _;

/// How many columns stand between two names of a lane.
const NAMES_APART: usize = 20;

/// Of so many direct causes at most each stands out.
const MOST_CAUSES: usize = 40;

const STYLE: &str = "
text{font:10px ui-monospace,Menlo,Consolas,DejaVu Sans Mono,monospace}
.head{font:bold 14px Helvetica,Arial,DejaVu Sans,sans-serif}
.say{font:12px Helvetica,Arial,DejaVu Sans,sans-serif}
.in,.clock{text-anchor:middle}
.number{fill:#555;font-size:8px}
.clock{fill:#222}
.moved{font-weight:bold}
.damage{fill:ALARM}
.number,.moved,.name{paint-order:stroke;stroke:#fff;stroke-width:3px;stroke-linejoin:round}
.name{fill:#666}
.line{stroke:#888;fill:none}
.nudge{stroke:#555;stroke-width:3;fill:none}
.grid{stroke:#e4e4e4;fill:none}
.wrap{stroke:#222;stroke-width:2;stroke-dasharray:2 3;fill:none}
.break{fill:#f0f0f0}
.dot{fill:#fff;stroke:#222;stroke-width:1.5}
.arrow{stroke-width:1.5;fill:none}
.refused{stroke:ALARM;stroke-dasharray:5 3}
.hit{stroke:#000;stroke-opacity:0;stroke-width:9;fill:none;pointer-events:stroke}
svg:has(.m:hover) .m{opacity:.12}
";

/// The picture of a run.
pub fn paint(run: &Run, layout: &Layout) -> String {
    let end = layout.bottom + AXIS;
    let (width, height) = (layout.width, end + legend::height(run, layout.width) + 8);
    let mut svg = Svg::default();
    let view = format!("0 0 {width} {height}");
    svg.open(
        "svg",
        &[
            ("xmlns", &"http://www.w3.org/2000/svg"),
            ("width", &width),
            ("height", &height),
            ("viewBox", &view),
            ("role", &"img"),
            ("aria-label", &words::heading(run)),
        ],
    );
    svg.text("style", &[], &style(run));
    arrows::heads(&mut svg);
    svg.leaf("rect", &[("width", &width), ("height", &height), ("fill", &"#fff")]);
    svg.text("text", &[("class", &"head"), ("x", &16), ("y", &24)], &words::heading(run));
    svg.text("text", &[("class", &"say"), ("x", &16), ("y", &42)], &words::summary(run));
    clocks(&mut svg, run, layout);
    lanes(&mut svg, run, layout);
    arrows::draw(&mut svg, run, layout);
    layout.placed.iter().for_each(|placed| piece(&mut svg, run, layout, placed));
    legend::draw(&mut svg, run, width, end + 8);
    svg.close("svg");
    svg.finish()
}

/// The style, with a rule for each message: pointed at, it stands out, and its direct causes do by
/// half.
fn style(run: &Run) -> String {
    let mut style = STYLE.replace("ALARM", ALARM);
    for (index, message) in run.messages.iter().enumerate() {
        let by = format!("svg:has(.m{index}:hover) ");
        let causes: Vec<String> =
            message.causes.iter().map(|cause| format!("{by}.m{cause}")).collect();
        if (1..=MOST_CAUSES).contains(&causes.len()) {
            let _ = writeln!(style, "{}{{opacity:.55}}", causes.join(","));
        }
        let _ = writeln!(style, "{by}.m{index}{{opacity:1}}");
    }
    style
}

/// The clocks above and below the lanes, and lines between them.
fn clocks(svg: &mut Svg, run: &Run, layout: &Layout) {
    let (top, bottom) = (TOP - 8, layout.bottom);
    let clock = |column: &Column| column.time.map(|time| time.rem_euclid(run.setup.modulus));
    let mut last = None;
    for column in &layout.columns {
        let (x, middle) = (column.x, column.x + column.width / 2);
        let clock = clock(column);
        let wraps = clock.is_some_and(|clock| last.is_some_and(|last| clock < last));
        last = clock.or(last);
        if clock.is_none() {
            let (height, width) = (bottom - top, column.width);
            svg.leaf(
                "rect",
                &[
                    ("class", &"break"),
                    ("x", &x),
                    ("y", &top),
                    ("width", &width),
                    ("height", &height),
                ],
            );
        }
        let class = if wraps { "wrap" } else { "grid" };
        line(svg, class, &format!("M{x} {top}V{bottom}"));
        let text = clock.map_or("…".into(), |clock| clock.to_string());
        for y in [top - 3, bottom + 13] {
            svg.text("text", &[("class", &"clock"), ("x", &middle), ("y", &y)], &text);
        }
    }
    for y in [top - 3, bottom + 13] {
        svg.text("text", &[("class", &"number"), ("x", &16), ("y", &y)], "clock");
    }
}

/// The line and the name of each lane, and where its clock was nudged.
fn lanes(svg: &mut Svg, run: &Run, layout: &Layout) {
    let end = layout.columns.last().map_or(LEFT + 40, |column| column.x + column.width);
    for lane in &layout.lanes {
        line(svg, "line", &format!("M{LEFT} {}H{end}", lane.y));
        let (colour, ink) = colours(Some(lane.node));
        let (y, round) = (lane.y - 9, roundness(Some(lane.node)));
        svg.leaf(
            "rect",
            &[
                ("x", &12),
                ("y", &y),
                ("width", &72),
                ("height", &18),
                ("rx", &round),
                ("fill", &colour),
            ],
        );
        let name = format!("station {}", lane.node);
        svg.text(
            "text",
            &[("class", &"in"), ("x", &48), ("y", &(lane.y + 4)), ("fill", &ink)],
            &name,
        );
        for column in layout.columns.iter().skip(NAMES_APART).step_by(NAMES_APART) {
            let place = (column.x + 3, lane.top - 2);
            svg.text("text", &[("class", &"name"), ("x", &place.0), ("y", &place.1)], &name);
        }
    }
    let mut last = vec![None; 16];
    for (step, &x) in run.steps.iter().zip(&layout.middles) {
        let from = last[step.node].replace(x);
        if let (Some(from), true) = (from, is_nudged(run, step)) {
            line(svg, "nudge", &format!("M{from} {}H{x}", layout.lane(step).y));
        }
    }
}

/// Has the clock moved by more than one, and no more than it may?
fn is_nudged(run: &Run, step: &Step) -> bool {
    step.moved.is_some_and(|moved| (2..=run.setup.epsilon).contains(&moved))
}

/// Something that must be read, with what the pointer finds there.
fn piece(svg: &mut Svg, run: &Run, layout: &Layout, placed: &Placed) {
    let step = &run.steps[placed.step];
    let (class, title) = meaning(run, placed);
    svg.open("g", &[("class", &class)]);
    svg.text("title", &[], &title);
    let area = placed.area;
    match placed.item {
        Item::Mark => match step.sent {
            Some(message) => sending(svg, area, Some(step.node), &layout.label(run, message)),
            None => dot(svg, area),
        },
        Item::Number => small(svg, placed, "number", &(placed.step + 1).to_string()),
        Item::Moved => {
            let class = if is_nudged(run, step) { "moved" } else { "moved damage" };
            small(svg, placed, class, &moved_label(step.moved).unwrap_or_default());
        }
        Item::Mend => mend(svg, area, &mend_label(step)),
        Item::Refused(hearing) => refused(svg, area, &refused_label(run, step, hearing)),
        Item::Outside(hearing) => message(svg, run, layout, placed, step.hearings[hearing].message),
        Item::Delivery(place) => message(svg, run, layout, placed, step.deliveries[place].message),
    }
    svg.close("g");
}

/// A message as a chip.
fn message(svg: &mut Svg, run: &Run, layout: &Layout, placed: &Placed, message: usize) {
    let swatch = swatch_width(run, message);
    chip(svg, placed.area, run.sender(message), swatch, &layout.label(run, message));
}

/// A small text in its area.
fn small(svg: &mut Svg, placed: &Placed, class: &str, text: &str) {
    let (x, y) = (placed.area.x, placed.area.bottom() - 1);
    svg.text("text", &[("class", &class), ("x", &x), ("y", &y)], text);
}

/// The class of a placed thing, which names its message, and what is said of it.
fn meaning(run: &Run, placed: &Placed) -> (String, String) {
    let (step, number) = (&run.steps[placed.step], placed.step + 1);
    let of = |message: usize| format!("m m{message}");
    match placed.item {
        Item::Mark => match step.sent {
            Some(message) => (of(message), words::sending(run, message)),
            None => ("step".into(), words::step(run, number, step)),
        },
        Item::Number | Item::Moved => ("step".into(), words::step(run, number, step)),
        Item::Mend => ("step".into(), words::mend(step.tick.repair).into()),
        Item::Refused(hearing) => {
            let hearings = led(run, step, hearing);
            let messages = hearings.iter().map(|&i| format!(" m{}", step.hearings[i].message));
            let class = "m".to_string() + &messages.collect::<String>();
            (class, words::refused(run, number, step, &hearings))
        }
        Item::Outside(hearing) => {
            let hearing = &step.hearings[hearing];
            (of(hearing.message), words::hearing(run, number, step, hearing))
        }
        Item::Delivery(place) => {
            (of(step.deliveries[place].message), words::delivery(run, number, step, place))
        }
    }
}
