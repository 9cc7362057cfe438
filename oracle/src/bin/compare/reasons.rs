//! What a comparison meets of 02's reasons, as numbers for the coverage.

use oracle::abi;
use oracle::generate::CompareCase;
use oracle::holdback::Entry;
use oracle::{Frame, Reason};

/// What a comparison of two frames met: its number; of a refused one, which frame it was for; of
/// an accepted one, which frame is first, the reason's number, and where a count decided, how its
/// clock lies: 0 before 0, 1 from 0 to B − 1, 2 past that.
pub fn kinds_of(case: &CompareCase, word: u64) -> Vec<(&'static str, u8)> {
    let CompareCase { setup, clock, first, second } = case;
    let number = abi::number(word);
    if number > 9 {
        let which = if Frame::parse(setup, first).is_err() { "first" } else { "second" };
        return vec![("compare", number), (which, number)];
    }
    if number > 0 {
        return vec![("compare", number)];
    }
    let [order, reason] = abi::unpack_compare(word);
    let mut kinds = vec![("compare", number), ("order", order), ("reason", reason)];
    let near = |bytes| Entry::near(setup, *clock, Frame::parse(setup, bytes).expect("a frame"));
    let (first, second) = (near(first), near(second));
    if let (_, Reason::Count(_)) = oracle::reason::decide(setup, *clock, &first, &second) {
        let (a, b) = (first.frame.timestamp, second.frame.timestamp);
        let differ = |&k: &i64| a.count(a.c - k) != b.count(b.c - k);
        let k = (0..setup.epsilon).find(differ).expect("a count that differs");
        kinds.push(("count", wrap_kind(setup.modulus, clock + first.sum - k)));
    }
    kinds
}

fn wrap_kind(modulus: i64, clock: i64) -> u8 {
    match clock {
        _ if clock < 0 => 0,
        _ if clock < modulus => 1,
        _ => 2,
    }
}

/// The numbers of the reasons at the ends of give lines.
pub fn of_lines(lines: &str) -> Vec<u8> {
    let kind = |line: &str| {
        let words: Vec<_> = line.strip_prefix("give ")?.split(' ').collect();
        Some(match words[3] {
            "-" => 0,
            "sum" => 1,
            "count" => 2,
            "station" => 3,
            _ => 4,
        })
    };
    lines.lines().filter_map(kind).collect()
}
