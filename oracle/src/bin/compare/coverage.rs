//! How often each number was met.

use std::collections::BTreeMap;
use std::fmt;

/// What a number was the answer to, and how often a run of the usual length should meet which.
type Row = (&'static str, &'static [(u8, u64)]);

/// The usual length: the calls, those of engines, and the traces and rehearsals, of which the rows tell. A shorter run
/// has to meet its share. Each number is a little below the least that came with 30 seeds; where seeds
/// differ much, or a kind is rare, half of that or less, so that any seed will do.
const CALLS: u64 = 200_000;
const ENGINES: u64 = 200_000;
const WIDER: u64 = 100_000;
const CHARGES: u64 = 50_000;
const FIGURES: u64 = 40_000;
const TRACES: u64 = 4_000;

/// Of calls. The numbers of `no line` are verdicts for which the words answered 6. For `sent` and
/// `gave` (was a frame sent, was one handed out) 1 is yes. The numbers of `early`, `overdue` and
/// `step` are kinds: see `nudges`; so are those of `count`: see `reasons`; those of the rows of polls
/// but the first: see `polls`; and those of the rows of observers: see `observers`.
const OF_CALLS: [Row; 34] = [
    ("call", &[(0, 37_000), (1, 910), (2, 800), (3, 790), (4, 720), (5, 1_300), (6, 1_700)]),
    ("compare", &[(0, 18_000), (1, 2_100), (2, 2_100), (10, 2_200), (11, 710), (12, 660)]),
    ("count", &[(0, 1_000), (1, 3_300), (2, 260)]),
    ("early", &[(0, 9_200), (1, 500), (2, 720)]),
    ("first", &[(10, 1_000), (11, 300), (12, 290)]),
    (
        "frame",
        &[
            (0, 130_000),
            (10, 23_000),
            (11, 5_000),
            (12, 4_700),
            (13, 22_000),
            (14, 12_000),
            (15, 13_000),
            (16, 120_000),
        ],
    ),
    ("fresh", &[(0, 860), (1, 320), (2, 230)]),
    ("fresh last", &[(0, 1_000), (1, 300), (2, 300)]),
    ("gave", &[(0, 25_000), (1, 10_000)]),
    (
        "line",
        &[
            (0, 50_000),
            (10, 13_000),
            (11, 6_500),
            (12, 6_500),
            (13, 9_900),
            (14, 10_000),
            (15, 10_000),
            (16, 59_000),
        ],
    ),
    ("listen", &[(0, 21_000), (1, 720), (2, 820), (3, 800), (5, 1_400), (6, 1_200)]),
    ("listen 15", &[(0, 68_000), (1, 5_300)]),
    ("listen early", &[(0, 4_100), (1, 280), (2, 500)]),
    (
        "listen frame",
        &[
            (0, 74_000),
            (10, 13_000),
            (11, 2_900),
            (12, 2_800),
            (13, 25_000),
            (14, 10_000),
            (16, 38_000),
        ],
    ),
    ("listen gave", &[(0, 15_000), (1, 5_000)]),
    (
        "listen last",
        &[(0, 1_700), (1, 8_200), (2, 1_600), (3, 2_600), (4, 1_700), (5, 220), (6, 1_500)],
    ),
    ("listen mend", &[(0, 8_400), (1, 2_600), (2, 4_400), (3, 5_000)]),
    ("listen overdue", &[(1, 810), (2, 240), (3, 1_300)]),
    ("mend", &[(0, 27_000), (1, 1_900), (2, 4_300), (3, 3_000)]),
    ("no line", &[(1, 200), (9, 200), (17, 200), (18, 200), (255, 200)]),
    ("order", &[(0, 6_600), (1, 6_600), (2, 4_800)]),
    ("overdue", &[(1, 760), (2, 260), (3, 590)]),
    ("poll", &[(0, 23_000), (1, 1_200), (2, 1_000), (3, 840)]),
    ("poll bound", &[(0, 3_300), (1, 6_100), (2, 5_600)]),
    ("poll next", &[(0, 13_000), (1, 820)]),
    ("poll shelf", &[(0, 1_800), (1, 15_000), (2, 800), (3, 840), (4, 4_100)]),
    ("poll within", &[(0, 3_800), (1, 5_300), (2, 5_600)]),
    ("reader", &[(0, 5_100), (1, 500), (10, 2_300), (11, 340), (12, 330)]),
    ("reason", &[(0, 4_800), (1, 6_600), (2, 4_800), (3, 1_100), (4, 740)]),
    ("second", &[(10, 1_000), (11, 320), (12, 310)]),
    ("sent", &[(0, 12_000), (1, 24_000)]),
    ("step", &[(0, 1_400), (1, 25_000), (2, 2_300), (3, 3_400), (4, 1_500)]),
    ("words", &[(0, 18_000), (1, 1_500), (5, 1_500), (6, 4_300)]),
    ("writer", &[(0, 3_300), (1, 500), (4, 970), (6, 810), (11, 1_700), (12, 1_100)]),
];
/// Of calls of engines. The numbers of `long`, `long frame`, `long fresh`, `long mend`, `long reader` and `long writer` are
/// what they are for other calls; those of `beside` are what ended a run (0: its length); all others are
/// kinds: see `engines`.
const OF_ENGINES: [Row; 21] = [
    ("beside", &[(0, 290), (2, 13), (18, 16)]),
    ("beside early", &[(0, 15_000), (1, 660), (2, 1_000), (3, 20_000)]),
    ("beside frame", &[(0, 90_000), (16, 220_000)]),
    ("beside sent", &[(0, 13_000), (1, 27_000)]),
    ("beside wraps", &[(0, 100), (1, 68), (2, 45)]),
    ("long", &[(0, 100_000), (1, 2_000), (2, 810), (3, 1_100), (4, 1_000), (5, 1_900), (6, 2_500)]),
    ("long 11", &[(0, 8_600), (1, 12_000)]),
    ("long 16", &[(0, 550_000), (1, 18_000)]),
    ("long 18", &[(0, 12_000), (1, 4_600)]),
    ("long early", &[(0, 42_000), (1, 1_600), (2, 3_900)]),
    (
        "long frame",
        &[
            (0, 430_000),
            (10, 68_000),
            (11, 23_000),
            (12, 13_000),
            (13, 45_000),
            (14, 23_000),
            (15, 9_300),
            (16, 570_000),
            (18, 17_000),
        ],
    ),
    ("long fresh", &[(0, 1_200), (1, 440), (2, 750)]),
    ("long gave", &[(0, 50_000), (1, 49_000)]),
    ("long held", &[(0, 7_400), (1, 70_000), (2, 420), (3, 1_100), (4, 1_700)]),
    ("long mend", &[(0, 81_000), (1, 3_200), (2, 11_000), (3, 8_700)]),
    ("long order", &[(0, 12_000), (1, 52_000)]),
    ("long overdue", &[(1, 2_900), (2, 1_000), (3, 3_300)]),
    ("long reader", &[(0, 7_700), (1, 510), (10, 3_600), (11, 950), (12, 410)]),
    ("long sent", &[(0, 34_000), (1, 69_000)]),
    ("long step", &[(0, 2_400), (1, 73_000), (2, 5_900), (3, 8_500), (4, 2_300), (5, 950)]),
    ("long writer", &[(0, 4_200), (1, 520), (4, 1_500), (6, 2_000), (11, 2_200), (12, 2_700)]),
];

/// Of calls with both pairs; what is no number of an answer is a kind: see `wider`.
const OF_WIDER: [Row; 25] = [
    ("in 13", &[(0, 17_000), (1, 1_300)]),
    (
        "in call",
        &[(0, 26_000), (1, 350), (2, 400), (3, 370), (4, 360), (5, 640), (6, 820), (19, 33)],
    ),
    ("in compare", &[(0, 6_400), (1, 620), (2, 770), (10, 780), (11, 250), (12, 490), (19, 66)]),
    ("in count", &[(0, 950), (1, 320)]),
    ("in due", &[(0, 23_000), (1, 16_000)]),
    ("in equal", &[(0, 1_800), (1, 2_200)]),
    (
        "in frame",
        &[
            (0, 35_000),
            (10, 23_000),
            (11, 4_900),
            (12, 7_900),
            (13, 19_000),
            (14, 1_900),
            (15, 5_400),
            (16, 20_000),
        ],
    ),
    ("in fresh", &[(0, 650), (1, 220), (2, 200), (19, 21)]),
    ("in listen", &[(0, 9_100), (1, 330), (2, 400), (3, 370), (5, 680), (6, 580), (19, 33)]),
    ("in listen mend", &[(0, 4_900), (1, 900), (2, 1_600), (3, 1_400)]),
    ("in mend", &[(0, 20_000), (1, 1_200), (2, 2_900), (3, 1_800)]),
    ("in phase", &[(0, 2_200), (1, 12_500), (2, 5_300)]),
    ("in poll", &[(0, 8_500), (1, 370), (2, 360), (3, 300), (19, 34)]),
    ("in poll next", &[(0, 3_200), (1, 5_000)]),
    ("in reader", &[(0, 2_700), (1, 230), (10, 1_200), (11, 200), (12, 190), (19, 22)]),
    ("in reader wide", &[(0, 1_700), (1, 930)]),
    ("in reason", &[(0, 2_200), (1, 2_200), (2, 1_300), (3, 240), (4, 190)]),
    ("in side", &[(0, 11_000), (1, 14_000)]),
    ("in tables", &[(0, 7_500), (1, 1_600), (2, 7_300), (3, 5_000)]),
    ("in turn", &[(0, 190), (1, 600), (2, 380)]),
    ("in width", &[(0, 11_000), (1, 2_700), (2, 11_000), (3, 8_900)]),
    ("in widths", &[(0, 4_200), (1, 2_000)]),
    ("in words", &[(0, 4_500), (1, 290), (5, 350), (6, 1_000), (19, 32)]),
    ("in writer", &[(0, 1_500), (1, 220), (4, 530), (6, 350), (11, 950), (12, 960), (19, 21)]),
    ("in writer wide", &[(0, 800), (1, 730)]),
];

/// Of charges and totals; what is no number of an answer is a kind: see `charges`.
const OF_CHARGES: [Row; 5] = [
    (
        "charge",
        &[(0, 7_000), (1, 1_600), (3, 800), (4, 800), (20, 2_800), (21, 4_000), (22, 6_000)],
    ),
    ("charge held", &[(0, 400), (1, 8_500), (2, 350), (3, 6_000), (4, 5_000)]),
    ("charge made", &[(0, 350), (1, 1_300), (2, 400), (3, 3_500), (4, 1_000)]),
    ("total", &[(0, 5_500), (3, 750)]),
    ("total above 0", &[(0, 4_000), (1, 1_500)]),
];

/// Of traces. 3 and 6 are not among them: the program's own buffers are right.
const OF_TRACES: [Row; 4] = [
    ("trace", &[(0, 2_200), (1, 160), (2, 66), (4, 69), (5, 570)]),
    ("trace gave", &[(0, 1_100), (1, 2_200)]),
    ("trace reason", &[(0, 12_000), (1, 1_000), (2, 6_900), (3, 1_200), (4, 38)]),
    ("trace step", &[(0, 490), (1, 17_000), (2, 630), (3, 2_800), (4, 520)]),
];

/// Of rehearsals; all numbers but those of `yard` are kinds: see `yards`. 10 to 12 refuse no frame that
/// a node has sent, and no queue is unsound beside sound tables, so mend 2 does not come.
const OF_YARDS: [Row; 8] = [
    ("yard", &[(0, 1_600), (1, 130), (2, 66), (4, 44), (5, 1_200)]),
    ("yard boards", &[(0, 430), (1, 230), (2, 880)]),
    ("yard figure", &[(13, 620), (14, 130), (15, 41), (16, 1_300)]),
    (
        "yard flaw",
        &[
            (1, 43),
            (2, 53),
            (3, 53),
            (4, 43),
            (5, 49),
            (6, 50),
            (7, 51),
            (8, 50),
            (9, 50),
            (10, 52),
            (11, 47),
            (12, 49),
            (13, 37),
            (14, 49),
            (15, 43),
        ],
    ),
    ("yard length", &[(0, 30), (1, 1_500), (2, 19), (3, 1)]),
    ("yard mend", &[(0, 94_000), (1, 950), (3, 450)]),
    (
        "yard nodes",
        &[
            (1, 360),
            (2, 210),
            (3, 210),
            (4, 220),
            (5, 16),
            (6, 17),
            (7, 15),
            (8, 16),
            (9, 15),
            (10, 12),
            (11, 15),
            (12, 14),
            (13, 25),
            (14, 13),
            (15, 15),
            (16, 27),
        ],
    ),
    ("yard step", &[(0, 450), (1, 76_000), (2, 2_000), (3, 4_100), (4, 460)]),
];

/// Of calls of the figures: their answers, the verdicts that they counted, and the runs, from any bytes and from empty figures.
const OF_FIGURES: [Row; 3] = [
    ("figures", &[(0, 35_000), (1, 100), (3, 300), (5, 300), (6, 300)]),
    ("figures of", &[(0, 10_000), (10, 500), (11, 100), (12, 100), (13, 500), (14, 500), (15, 500), (16, 10_000)]),
    ("figures run", &[(0, 5), (1, 5)]),
];

/// The counts.
#[derive(Default)]
pub struct Coverage(BTreeMap<(&'static str, u8), u64>);

impl Coverage {
    /// Counts a number.
    pub fn meet(&mut self, what: &'static str, number: u8) {
        *self.0.entry((what, number)).or_default() += 1;
    }

    fn count(&self, what: &'static str, number: u8) -> u64 {
        self.0.get(&(what, number)).copied().unwrap_or(0)
    }

    /// The numbers that were met too rarely in a run of this many calls, calls of engines, calls with
    /// both pairs, charges and totals, calls of the figures, traces and rehearsals.
    pub fn gaps(&self, lengths: [u64; 7]) -> Vec<String> {
        let [calls, engines, wider, charges, figures, traces, rehearsals] = lengths;
        let of_calls = self.below(&OF_CALLS, calls, CALLS);
        let of_engines = self.below(&OF_ENGINES, engines, ENGINES);
        let of_wider = self.below(&OF_WIDER, wider, WIDER);
        let of_charges = self.below(&OF_CHARGES, charges, CHARGES);
        let of_figures = self.below(&OF_FIGURES, figures, FIGURES);
        let of_traces = self.below(&OF_TRACES, traces, TRACES);
        let of_yards = self.below(&OF_YARDS, rehearsals, TRACES);
        [of_calls, of_engines, of_wider, of_charges, of_figures, of_traces, of_yards].concat()
    }

    /// The numbers of some rows that a run of this length met less often than it should.
    fn below(&self, rows: &[Row], length: u64, usual: u64) -> Vec<String> {
        let all = rows.iter().flat_map(|&(what, leasts)| {
            leasts.iter().map(move |&(number, least)| (what, number, least * length / usual))
        });
        all.filter(|&(what, number, least)| self.count(what, number) < least)
            .map(|(what, number, least)| {
                format!("{what} {number} ({} of {least})", self.count(what, number))
            })
            .collect()
    }
}

impl fmt::Display for Coverage {
    fn fmt(&self, f: &mut fmt::Formatter) -> fmt::Result {
        let mut last = "";
        for (&(what, number), count) in &self.0 {
            if what != last {
                write!(f, "{}{what:<14}", if last.is_empty() { "" } else { "\n" })?;
                last = what;
            }
            write!(f, " {number}:{count}")?;
        }
        Ok(())
    }
}
