//! A lister's instructions beside those of the hand-written one.

use super::{Sides, Traffic};
use crate::commands::process::{version, Program, TemporaryFile};
use crate::commands::Outcome;
use oam_tests::compare::grouped;
use oam_tests::measure::callgrind::{self, VALGRIND};
use std::error::Error;
use std::path::Path;

/// Megabytes of lines or of a capture.
const MEGABYTES: u64 = 4;

/// Prints what whole runs on the mix take.
pub fn compare(sides: &Sides, seed: u64) -> Outcome {
    if version(VALGRIND).is_none() {
        println!("\nIts instructions are not counted: valgrind is not installed.");
        return Ok(());
    }
    let input = Traffic::with_seed(sides.form, seed, MEGABYTES).input;
    let file = TemporaryFile::holding("counted", &input)?;
    let (lister, octets) = (sides.form.lister(), grouped(input.len()));
    println!(
        "\n| {lister}, whole program on {octets} octets of the mix | Instructions | an octet |"
    );
    println!("|---|---|---|");
    let mut counts = Vec::new();
    for (name, program) in sides.named() {
        let count = instructions(program, file.path())?;
        let each = count as f64 / input.len() as f64;
        println!("| {name} | {} | {each:.2} |", grouped(count as usize));
        counts.push(count as f64);
    }
    let ratio = counts[0] / counts[1];
    println!("\nThe program takes {ratio:.2} times as many instructions, counted by callgrind.");
    Ok(())
}

/// The instructions of a whole run on a file.
fn instructions(program: &Program, input: &Path) -> Result<u64, Box<dyn Error>> {
    let told = TemporaryFile::holding("instructions", b"")?;
    let counting = program.under(VALGRIND, &callgrind::words(told.path()));
    counting.time(input)?; // its time says nothing
    callgrind::told(told.path())
}
