//! Makes lists of calls through V (02, 2.10), and asks of each what the recovery statement and 2.14
//! promise.
//!
//! ```text
//! season [--seed S] [--lists N] [--calls N]
//! season moved [--bound NAME] [--seed S] [--lists N] [--calls N]
//! ```
//!
//! A third of the lists is from a fresh start, the others from damaged memory; a list has up to so
//! many calls. The first form fails if one breaks. The second moves each bound of the premises, or
//! those whose names start so, by 1 to 4 ticks, or leaves it out, and prints how many lists broke, by
//! what broke first.

use oracle::generate::season::{LEFT_OUT, MOVES};
use oracle::generate::Bounds;
use oracle::promises::{run, Totals};
use std::process::ExitCode;
use std::time::Instant;

/// The command line.
struct Options {
    moved: bool,
    bound: String,
    seed: u64,
    lists: u64,
    calls: u64,
}

impl Options {
    fn parse(mut words: impl Iterator<Item = String>) -> Result<Self, String> {
        let mut options =
            Options { moved: false, bound: String::new(), seed: 1, lists: 100_000, calls: 200 };
        while let Some(word) = words.next() {
            if word == "moved" {
                options.moved = true;
                continue;
            }
            let value = words.next().ok_or_else(|| format!("{word}: a value is missing"))?;
            let number = || value.parse().map_err(|_| format!("{word}: not a number"));
            match word.as_str() {
                "--seed" => options.seed = number()?,
                "--lists" => options.lists = number()?,
                "--calls" => options.calls = number()?,
                "--bound" => options.bound = value,
                _ => return Err(format!("{word}: not known")),
            }
        }
        Ok(options)
    }

    fn run(&self, bounds: Bounds) -> Totals {
        run(self.seed, self.lists, self.calls, bounds)
    }
}

fn main() -> ExitCode {
    match Options::parse(std::env::args().skip(1)).and_then(|options| act(&options)) {
        Ok(()) => ExitCode::SUCCESS,
        Err(error) => {
            eprintln!("season: {error}");
            ExitCode::FAILURE
        }
    }
}

fn act(options: &Options) -> Result<(), String> {
    let start = Instant::now();
    let totals = options.run(Bounds::default());
    let (seed, seconds) = (options.seed, start.elapsed().as_secs_f64());
    println!("{totals}, seed {seed}, {seconds:.1} s");
    if !totals.broken.is_empty() || totals.mended > 0 {
        return Err("a promise does not hold".into());
    }
    if options.moved {
        let is_asked = |name: &str| name.starts_with(&options.bound);
        for (name, bounds) in MOVES.into_iter().filter(|(name, _)| is_asked(name)) {
            for ticks in 1..=4 {
                println!("{name}, by {ticks}: {}", options.run(bounds(ticks)));
            }
        }
        for (name, bounds) in LEFT_OUT.into_iter().filter(|(name, _)| is_asked(name)) {
            println!("{name}: {}", options.run(bounds(0)));
        }
    }
    Ok(())
}
