//! `writers`, `reading` and `log`: the archive's functions beside the paper's.

use super::arguments::Arguments;
use super::{told, Outcome};
use oam_tests::library::{Archive, Library};
use oam_tests::random::seed_from_clock;
use oam_tests::trial::{self, Report};

/// Messages of each kind, each into seven outputs: over a million calls of every writer.
const MESSAGES: u64 = 200_000;
/// Frames, or lines.
const TIMES: u64 = 200_000;

pub fn writers(arguments: &Arguments) -> Outcome {
    run(arguments, "--messages", MESSAGES, trial::writers)
}

pub fn reading(arguments: &Arguments) -> Outcome {
    run(arguments, "--frames", TIMES, trial::reading)
}

pub fn log(arguments: &Arguments) -> Outcome {
    run(arguments, "--lines", TIMES, trial::log)
}

fn run(
    arguments: &Arguments,
    option: &str,
    times: u64,
    trial: fn(&dyn Library, u64, usize) -> Report,
) -> Outcome {
    let seed = arguments.number("--seed").unwrap_or_else(seed_from_clock);
    let times = arguments.number(option).unwrap_or(times);
    println!("seed {seed}"); // first, so that it is known whatever the archive does
    let report = trial(&Archive, seed, times as usize);
    told(&report, &format!("seed {seed}, {option} {times}"))
}
