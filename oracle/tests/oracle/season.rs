//! Lists of calls through V (02, 2.10): the promises hold under the premises, and break where one is
//! moved too far or left out.

use oracle::generate::season::{LEFT_OUT, MOVES};
use oracle::generate::Bounds;
use oracle::promises::{play, run, seeds};

#[test]
fn the_promises_hold_straight_through_v() {
    let totals = run(1, 3_000, 200, Bounds::default());
    assert!(totals.broken.is_empty() && totals.mended == 0, "{totals}");
    assert!(totals.calls > 200_000 && totals.shown > 150_000, "{totals}");
}

/// A bound moved by so many ticks.
fn moved(name: &str, ticks: i64) -> Bounds {
    let &(_, bounds) = MOVES.iter().find(|(other, _)| *other == name).expect("a bound");
    bounds(ticks)
}

/// Does one of these lists break?
fn breaks(bounds: Bounds, mut lists: impl Iterator<Item = u64>) -> bool {
    lists.any(|seed| play(seed, 200, bounds).1.is_some())
}

#[test]
fn bounds_that_are_moved_break_from_where_they_are_tight() {
    // The bound, by how many ticks it first breaks, and a list that does.
    let first_broken = [
        ("take-up later", 1, 1_001_304),
        ("plain new sooner by ε′ − ε and more", 3, 1_000_092),
        ("freeze of both to new sooner", 3, 1_001_888),
        ("stale limit later", 2, 1_000_081),
        ("T sooner", 2, 1_000_057),
    ];
    for (name, ticks, seed) in first_broken {
        assert!(breaks(moved(name, ticks), [seed].into_iter()), "{name} by {ticks}");
        let holds = !breaks(moved(name, ticks - 1), [seed].into_iter().chain(seeds(1, 200)));
        assert!(holds, "{name} by {}", ticks - 1);
    }
    for name in ["v ≤ V + B − 1 later", "2.14 less apart", "2.14 sooner"] {
        assert!(breaks(moved(name, 1), seeds(1, 1_000)), "{name} by 1");
    }
    let name = "freeze of old to both sooner";
    assert!(!breaks(moved(name, 4), seeds(1, 500)), "nothing is seen to need it");
}

#[test]
fn premises_that_are_left_out_are_missed() {
    for (name, bounds) in LEFT_OUT {
        assert!(breaks(bounds(0), seeds(1, 1_000)), "{name}");
    }
}
