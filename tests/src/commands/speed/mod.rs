//! `speed` and `speed_captures`: a lister's speed, its instructions and its system calls
//! beside those of the hand-written one, both run as processes on the same file, and its
//! speed beside tshark's.

mod calls;
mod form;
mod instructions;
mod tshark;

pub use form::Form;

use super::arguments::Arguments;
use super::process::{Program, TemporaryFile};
use super::Outcome;
use form::Traffic;
use oam_tests::compare::{differences, grouped};
use oam_tests::generate::TRAFFIC;
use oam_tests::random::seed_from_clock;
use std::io;
use std::path::Path;
use std::time::Duration;

const RUNS: u64 = 5;

/// How much is listed, and how often.
pub struct Extent {
    pub seed: u64,
    pub megabytes: u64,
    pub runs: u64,
}

impl Extent {
    pub fn with_seed(form: Form, seed: u64) -> Self {
        let megabytes = match form {
            Form::Lines => 120,
            Form::Captures => 200,
        };
        Extent {
            seed,
            megabytes,
            runs: RUNS,
        }
    }
}

/// A lister and the hand-written one beside it.
struct Sides<'a> {
    form: Form,
    program: &'a Program,
    own: Program,
}

impl<'a> Sides<'a> {
    fn new(form: Form, program: &'a Program) -> io::Result<Self> {
        let own = form.by_hand()?;
        Ok(Sides { form, program, own })
    }

    fn named(&self) -> [(&'static str, &Program); 2] {
        [("the program", self.program), ("hand-written", &self.own)]
    }
}

pub fn lines(arguments: &Arguments) -> Outcome {
    run(Form::Lines, arguments)
}

pub fn captures(arguments: &Arguments) -> Outcome {
    run(Form::Captures, arguments)
}

fn run(form: Form, arguments: &Arguments) -> Outcome {
    let program = arguments.program()?;
    let seed = arguments.number("--seed").unwrap_or_else(seed_from_clock);
    let usual = Extent::with_seed(form, seed);
    let extent = Extent {
        seed,
        megabytes: arguments.number("--megabytes").unwrap_or(usual.megabytes),
        runs: arguments.number("--runs").unwrap_or(usual.runs).max(1),
    };
    show(form, &program, &extent)
}

/// Prints all the tables.
pub fn show(form: Form, program: &Program, extent: &Extent) -> Outcome {
    let sides = Sides::new(form, program)?;
    compare(&sides, extent)?;
    instructions::compare(&sides, extent.seed)?;
    tshark::compare(&sides, extent.seed)
}

/// Prints both speeds and both numbers of system calls as tables.
fn compare(sides: &Sides, extent: &Extent) -> Outcome {
    println!("Seed {}:", extent.seed);
    let Traffic { input, kinds } = Traffic::with_seed(sides.form, extent.seed, extent.megabytes);
    println!("{} octets, of them\n", grouped(input.len()));
    let what = sides.form.places();
    let came = |(_, (places, _)): &(_, (usize, usize))| *places > 0;
    for (kind, (places, octets)) in TRAFFIC.iter().zip(kinds).filter(came) {
        let (octets, places) = (grouped(octets), grouped(places));
        println!("    {octets:>11} in {places:>9} {what} of {}", kind.name);
    }
    let file = TemporaryFile::holding("traffic", &input)?;
    same_output(sides, file.path())?;
    compare_times(sides, file.path(), input.len(), extent.runs)?;
    calls::compare(sides, file.path(), input.len())
}

fn compare_times(sides: &Sides, input: &Path, octets: usize, runs: u64) -> Outcome {
    let (mut times, mut own_times) = (Vec::new(), Vec::new());
    for _ in 0..runs {
        times.push(sides.program.time(input)?);
        own_times.push(sides.own.time(input)?);
    }
    let lister = sides.form.lister();
    println!("\n| {lister}, MB/s | Middle of {runs} runs | Best | Worst |\n|---|---|---|---|");
    let middle = report("the program", &mut times, octets);
    let own_middle = report("hand-written", &mut own_times, octets);
    let ratio = middle.as_secs_f64() / own_middle.as_secs_f64();
    println!("\nThe program takes {ratio:.2} times as long, middle run to middle run.");
    Ok(())
}

/// The speed of a lister that errs says nothing, so both outputs are compared
/// first. This also brings the file into memory.
fn same_output(sides: &Sides, input: &Path) -> Outcome {
    let found = sides.program.run_on_file(input)?;
    let expected = sides.own.run_on_file(input)?;
    let differing = differences(&expected.output, &found.output).count();
    if differing > 0 {
        let command = sides.form.command();
        return Err(format!("{differing} rows differ; see the command {command}").into());
    }
    Ok(())
}

/// The middle one of some times, which are then in order.
fn middle(times: &mut [Duration]) -> Duration {
    times.sort();
    times[times.len() / 2]
}

/// Shows the speeds and gives the middle run's time.
fn report(name: &str, times: &mut [Duration], octets: usize) -> Duration {
    let middle = middle(times);
    let speed = |time: Duration| octets as f64 / 1e6 / time.as_secs_f64();
    let [middle_speed, best, worst] = [middle, times[0], times[times.len() - 1]].map(speed);
    println!("| {name} | {middle_speed:.0} | {best:.0} | {worst:.0} |");
    middle
}
