//! `machine` and `pair`: the archive's link machine beside the paper's, and two
//! of its ends joined. A build without it tries the paper's own, so that the
//! trials themselves can be tried.

use super::arguments::Arguments;
use super::{told, Outcome};
use oam_tests::library::machine::Machine;
use oam_tests::library::Library;
use oam_tests::random::seed_from_clock;
use oam_tests::trial::{self, Report};

const CALLS: u64 = 1_000_000;

#[cfg(feature = "archive")]
use oam_tests::library::Archive as Tried;
#[cfg(not(feature = "archive"))]
use oam_tests::library::ByPaper as Tried;

const NAME: &str = match cfg!(feature = "archive") {
    true => "the archive's machine",
    false => "the paper's own machine, not the archive's",
};
/// Its machine, and its reader and log.
const MACHINE: &dyn Machine = &Tried;
const NOTES: &dyn Library = &Tried;

pub fn machine(arguments: &Arguments) -> Outcome {
    run(arguments, |seed, calls| {
        trial::machine(MACHINE, NOTES, seed, calls)
    })
}

pub fn pair(arguments: &Arguments) -> Outcome {
    run(arguments, |seed, calls| trial::pair(MACHINE, seed, calls))
}

fn run(arguments: &Arguments, trial: fn(u64, usize) -> Report) -> Outcome {
    let seed = arguments.number("--seed").unwrap_or_else(seed_from_clock);
    let calls = arguments.number("--calls").unwrap_or(CALLS);
    println!("{NAME}, seed {seed}"); // first, so that it is known whatever comes
    let report = trial(seed, calls as usize);
    told(&report, &format!("seed {seed}, --calls {calls}"))
}
