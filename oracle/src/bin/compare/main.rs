//! Compares the oracle with the proved library and the proved programs, call by call.
//!
//! ```text
//! compare --replay PATH --yard PATH [--seed S] [--calls N] [--engines N] [--wider N] [--charges N] [--figures N] [--traces N] [--plant K]
//! compare selfcheck [--seed S] [--calls N] [--engines N] [--wider N] [--charges N] [--figures N] [--traces N]
//! ```
//!
//! The first form needs the feature `abi`; `--plant K` (feature `plant`) puts fault K into the
//! oracle, and the comparison should then fail. The second form (feature `plant`) needs no
//! library: it compares the oracle with itself, and then with itself and each fault in turn; for
//! those of `yard` it makes no calls, for those of engines only calls of engines, for those of
//! charges only charges and totals, for those of the figures only their calls, and for those of calls
//! with both pairs only such.

mod charges;
mod coverage;
mod engines;
mod figures;
mod nudges;
mod observers;
mod polls;
mod reasons;
mod run;
mod subject;
mod wider;
mod yards;

use oracle::fault;
use oracle::generate::Prng;
#[cfg(feature = "abi")]
use oracle::streaming::{self, Sample};
use run::Comparison;
use std::process::ExitCode;
use std::time::Instant;
use subject::{Oracle, Subject};

/// The command line.
#[derive(Clone)]
struct Options {
    selfcheck: bool,
    seed: u64,
    calls: u64,
    engines: u64,
    figures: u64,
    wider: u64,
    charges: u64,
    traces: u64,
    fault: u8,
    replay: Option<String>,
    yard: Option<String>,
}

impl Options {
    fn parse(mut words: impl Iterator<Item = String>) -> Result<Self, String> {
        let mut options = Options {
            selfcheck: false,
            seed: 1,
            calls: 200_000,
            engines: 200_000,
            figures: 40_000,
            wider: 100_000,
            charges: 50_000,
            traces: 2_000,
            fault: 0,
            replay: None,
            yard: None,
        };
        while let Some(word) = words.next() {
            if word == "selfcheck" {
                options.selfcheck = true;
                continue;
            }
            let value = words.next().ok_or_else(|| format!("{word}: a value is missing"))?;
            let number = || value.parse::<u64>().map_err(|_| format!("{word}: not a number"));
            match word.as_str() {
                "--seed" => options.seed = number()?,
                "--calls" => options.calls = number()?,
                "--engines" => options.engines = number()?,
                "--figures" => options.figures = number()?,
                "--wider" => options.wider = number()?,
                "--charges" => options.charges = number()?,
                "--traces" => options.traces = number()?,
                "--plant" => options.fault = number()?.min(255) as u8,
                "--replay" => options.replay = Some(value),
                "--yard" => options.yard = Some(value),
                _ => return Err(format!("{word}: not known")),
            }
        }
        options.check()
    }

    fn check(self) -> Result<Self, String> {
        if self.fault > 0 && !fault::all().any(|fault| fault == self.fault) {
            return Err(format!("--plant: there is no fault {}", self.fault));
        }
        if (self.selfcheck || self.fault > 0) && !cfg!(feature = "plant") {
            return Err("planting faults needs the feature plant".into());
        }
        Ok(self)
    }
}

fn main() -> ExitCode {
    let result =
        Options::parse(std::env::args().skip(1)).and_then(|options| match options.selfcheck {
            true => selfcheck(&options),
            false => compare_with_library(&options),
        });
    match result {
        Ok(()) => ExitCode::SUCCESS,
        Err(error) => {
            eprintln!("compare: {error}");
            ExitCode::FAILURE
        }
    }
}

/// Compares two subjects by calls and traces: what was met, and any difference.
fn compare<'s>(
    options: &Options,
    left: &'s mut dyn Subject,
    right: &'s mut dyn Subject,
) -> (Comparison<'s>, Result<(), String>) {
    let (mut rng, mut other) = (Prng::new(options.seed), Prng::new(!options.seed));
    let mut third = Prng::new(options.seed ^ 0x5555);
    let mut fourth = Prng::new(options.seed ^ 0xaaaa);
    let mut fifth = Prng::new(options.seed ^ 0xcccc);
    let mut comparison = Comparison::new(left, right);
    let result = comparison
        .run_calls(&mut rng, options.calls)
        .and_then(|()| comparison.run_engines(&mut other, options.engines))
        .and_then(|()| comparison.run_wider(&mut third, options.wider))
        .and_then(|()| comparison.run_charges(&mut fourth, options.charges))
        .and_then(|()| comparison.run_figures(&mut fifth, options.figures))
        .and_then(|()| comparison.run_traces(&mut rng, options.traces))
        .and_then(|()| comparison.run_yards(&mut rng, options.traces));
    (comparison, result.map_err(|difference| format!("seed {}, {difference}", options.seed)))
}

/// A comparison that should find nothing and meet every number.
fn compare_alike(
    options: &Options,
    left: &mut dyn Subject,
    right: &mut dyn Subject,
) -> Result<(), String> {
    let start = Instant::now();
    let (done, result) = compare(options, left, right);
    result?;
    println!("{}", done.coverage);
    let (seconds, seed) = (start.elapsed().as_secs_f64(), options.seed);
    let Comparison { calls, engine_calls, wider_calls, charge_calls, figures_calls, .. } = done;
    let Comparison { plain_beside, pairs, traces, rehearsals, .. } = done;
    println!(
        "{calls} calls, {traces} traces and {rehearsals} rehearsals alike, seed {seed}, {seconds:.1} s"
    );
    let engines = engine_calls - pairs;
    println!("{engines} of the calls are of engines, {pairs} of a node beside one");
    println!(
        "{wider_calls} of the calls have both pairs, {plain_beside} are plain ones beside them"
    );
    println!("{charge_calls} of the calls are charges and totals");
    println!("{figures_calls} of the calls are of the figures");
    let made = done.made.iter().map(|(name, count)| format!("{name} {count}"));
    println!("calls of each function: {}", made.collect::<Vec<_>>().join(", "));
    let plain = calls - engine_calls - wider_calls - plain_beside - charge_calls - figures_calls;
    let lengths =
        [plain, engine_calls, wider_calls, charge_calls, figures_calls, traces, rehearsals];
    match done.coverage.gaps(lengths) {
        gaps if gaps.is_empty() => Ok(()),
        gaps => Err(format!("met too rarely: {}", gaps.join(", "))),
    }
}

#[cfg(feature = "abi")]
fn compare_with_library(options: &Options) -> Result<(), String> {
    let path = |program: &Option<String>, name: &str| match program {
        None if options.traces > 0 => Err(format!("--{name} is missing")),
        path => Ok(path.clone().unwrap_or_default()),
    };
    let (replay, yard) = (path(&options.replay, "replay")?, path(&options.yard, "yard")?);
    for (program, name, sample) in
        [(&replay, "replay", Sample::of_replay()), (&yard, "yard", Sample::of_yard())]
    {
        if !program.is_empty() {
            streaming::check(program, &sample, streaming::LIMIT)?;
            streaming::check_full(program, &sample, streaming::LIMIT)?;
            println!(
                "the proved {name} writes each tick's lines before the next, and ends where it cannot"
            );
        }
    }
    let mut oracle = Oracle { fault: options.fault };
    compare_alike(options, &mut oracle, &mut subject::Proved { replay, yard })
}

#[cfg(not(feature = "abi"))]
fn compare_with_library(options: &Options) -> Result<(), String> {
    let Options { replay, yard, .. } = options;
    let program = replay.as_deref().or(yard.as_deref()).unwrap_or("the library");
    Err(format!("{program}: comparing with it needs the feature abi"))
}

/// What is needed of a comparison that should find this fault.
fn for_fault(options: &Options, fault: u8) -> Options {
    let all = options.clone();
    let (engines, wider, charges) = (all.engines, all.wider, all.charges);
    let (figures, traces) = (all.figures, all.traces);
    let none = Options { calls: 0, engines: 0, wider: 0, charges: 0, figures: 0, traces: 0, ..all };
    match fault {
        _ if fault::OF_YARD.contains(&fault) => Options { traces, ..none },
        _ if fault::OF_ENGINES.contains(&fault) => Options { engines, ..none },
        _ if fault::OF_WIDER.iter().any(|faults| faults.contains(&fault)) => {
            Options { wider, ..none }
        }
        _ if fault::OF_CHARGES.contains(&fault) => Options { charges, ..none },
        _ if fault::OF_FIGURES.contains(&fault) => Options { figures, ..none },
        _ => options.clone(),
    }
}

/// The oracle against itself, then against itself with each fault.
fn selfcheck(options: &Options) -> Result<(), String> {
    compare_alike(options, &mut Oracle { fault: 0 }, &mut Oracle { fault: 0 })?;
    for fault in fault::all() {
        let (mut sound, mut faulty) = (Oracle { fault: 0 }, Oracle { fault });
        let (done, result) = compare(&for_fault(options, fault), &mut sound, &mut faulty);
        let (what, number) = match result {
            Ok(()) => return Err(format!("fault {fault} was not found")),
            Err(_) if done.rehearsals > 0 => ("rehearsal", done.rehearsals),
            Err(_) if done.traces > 0 => ("trace", done.traces),
            Err(_) => ("call", done.calls),
        };
        println!("fault {fault} found by {what} {number}");
    }
    Ok(())
}
