//! A lister's speed beside tshark's on the same frames.

use super::{middle, Form, Sides, Traffic};
use crate::commands::process::{version, Program, TemporaryFile};
use crate::commands::Outcome;
use oam_tests::compare::grouped;
use oam_tests::paper::{decode, lines};
use std::error::Error;
use std::path::Path;
use std::time::Duration;

/// Megabytes of lines whose frames are read, and how often.
const MEGABYTES: u64 = 20;
const RUNS: usize = 3;

const TSHARK: &str = "tshark";
/// Its standard input, which it does not read.
const NOTHING: &str = "/dev/null";
/// What tshark is to show of each frame: what the lister does, but its answer.
const SHOWN: [&str; 3] = ["frame.number", "oampdu.code", "oampdu.flags"];

/// Prints both speeds, and how tshark was run. Lines that are no octets have no
/// place in a capture, so that neither side gets them.
pub fn compare(sides: &Sides, seed: u64) -> Outcome {
    let Some(version) = version(TSHARK) else {
        println!("\nNot beside tshark: it is not installed.");
        return Ok(());
    };
    let input = Traffic::with_seed(Form::Lines, seed, MEGABYTES).input;
    let frames: Vec<Vec<u8>> = lines(&input).filter_map(|line| decode(line).ok()).collect();
    let listed = TemporaryFile::holding("listed", &sides.form.holding(&frames))?;
    let captured = TemporaryFile::holding("captured", &Form::Captures.holding(&frames))?;
    let empty = TemporaryFile::holding("empty", &Form::Captures.holding(&[]))?;
    let (tshark, idle) = (tshark_on(captured.path()), tshark_on(empty.path()));
    same_count(&tshark, frames.len())?;

    let run = tshark_on(Path::new("CAPTURE"));
    println!("\n{}, run as `{run}`:\n", version.trim_end_matches('.'));
    let count = grouped(frames.len());
    println!("| On the same {count} frames of the mix | s, middle of {RUNS} runs | frames/s |");
    println!("|---|---|---|");
    let own = seconds(sides.program, listed.path())?;
    let lister = format!("the lister, from {}", sides.form.places());
    report(&lister, own, frames.len());
    let other = seconds(&tshark, NOTHING.as_ref())?;
    report("tshark, from a capture", other, frames.len());
    let start = seconds(&idle, NOTHING.as_ref())?;
    let ratio = other / own;
    println!("\ntshark takes {ratio:.0} times as long; {start:.2} s of it without any frame.");
    Ok(())
}

/// Tshark on a capture, with a row of fields for each frame.
fn tshark_on(captured: &Path) -> Program {
    let captured = captured.display().to_string();
    let fields = SHOWN.iter().flat_map(|shown| ["-e", shown]);
    let words = ["-n", "-r", &captured, "-T", "fields"].into_iter();
    let words: Vec<String> = words.chain(fields).map(String::from).collect();
    Program::new(TSHARK, &words)
}

/// The speed of what leaves out frames says nothing.
fn same_count(tshark: &Program, frames: usize) -> Outcome {
    let rows = tshark.run_on_file(NOTHING.as_ref())?.output;
    match rows.iter().filter(|&&octet| octet == b'\n').count() == frames {
        true => Ok(()),
        false => Err("tshark does not show a row for each frame".into()),
    }
}

/// The middle of the times of some runs.
fn seconds(program: &Program, input: &Path) -> Result<f64, Box<dyn Error>> {
    let times: Result<Vec<Duration>, _> = (0..RUNS).map(|_| program.time(input)).collect();
    Ok(middle(&mut times?).as_secs_f64())
}

fn report(name: &str, seconds: f64, frames: usize) {
    let speed = grouped((frames as f64 / seconds) as usize);
    println!("| {name} | {seconds:.3} | {speed} |");
}
