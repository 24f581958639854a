//! `figures`: the tables of docs/PERFORMANCE.md, ready to be pasted.

mod frames;
mod log;
mod machine;
mod meter;
mod stack;

use super::arguments::Arguments;
use super::process::Program;
use super::speed::{self, Extent, Form};
use super::Outcome;
use meter::{Counter, Instructions, Meter, Table};
use oam_tests::compare::grouped;
use oam_tests::library::machine::STATE_OCTETS;
use oam_tests::measure::instructions::counts;
use oam_tests::measure::{clock, emulator, objects};
use stack::{Deepest, Depths};
use std::path::Path;

const RUNS: u64 = 50;
/// The inputs are the same each time.
const SEED: u64 = 57;
/// The octets of stack that no entry should reach.
const STACK_AIM: usize = 4096;
/// The archive that this program is linked with.
const ARCHIVE: &str = concat!(env!("OAM_ARCHIVE_DIR"), "/liboam.a");

pub fn run(arguments: &Arguments) -> Outcome {
    let runs = arguments.number("--runs").unwrap_or(RUNS).max(1) as usize;
    let runs = (!emulator::emulated()).then_some(runs);
    match runs {
        Some(_) => show_listers(&arguments.programs())?,
        None => println!("No times, and no lister: under an emulator a time says nothing."),
    }
    let mut table = Table {
        runs,
        instructions: instructions()?,
    };
    if let Some(runs) = runs {
        let run = clock::RUN;
        println!("ns: the quickest of {runs} runs of about {run:?}.");
    }
    println!("\n## Writing and reading a frame\n");
    table.head();
    frames::measure(&mut table)?;
    println!("\n## The log\n");
    table.head();
    log::measure(&mut table)?;
    println!("\n## The machine\n");
    table.head();
    machine::measure(&mut table)?;
    println!("\n## Stack\n");
    show_stack(&stack::measure(SEED)?);
    println!("\n## Size\n");
    show_size(Path::new(ARCHIVE))
}

/// The lister, and the capture lister, as far as they are given.
fn show_listers(programs: &[Program]) -> Outcome {
    let titles = [
        (Form::Lines, "The lister"),
        (Form::Captures, "The capture lister"),
    ];
    if programs.len() > titles.len() {
        return Err("at most a LISTER and a CAPTURE_LISTER are measured".into());
    }
    for ((form, title), program) in titles.into_iter().zip(programs) {
        println!("## {title}\n");
        speed::show(form, program, &Extent::with_seed(form, SEED))?;
        println!();
    }
    Ok(())
}

// Instructions.

const NOTHING: &str = "nothing";

/// `counted`: makes the calls of the tables, to be counted.
pub fn counted(_: &Arguments) -> Outcome {
    Counter.row(NOTHING, || (), || ());
    frames::measure(&mut Counter)?;
    log::measure(&mut Counter)?;
    machine::measure(&mut Counter)
}

/// Those of each row, or none where nothing that counts them is installed.
fn instructions() -> Result<Instructions, Box<dyn std::error::Error>> {
    let Some(counts) = counts(&["counted"])? else {
        println!("Instructions are not counted: valgrind (or qemu-x86_64) is not installed.");
        return Ok(Instructions::new());
    };
    let sides = counts.instructions.chunks_exact(2);
    if sides.len() != counts.lines.len() {
        return Err(format!("{} did not count every call", counts.by).into());
    }
    let sides = sides.map(|sides| [sides[0], sides[1]]);
    let instructions: Instructions = counts.lines.into_iter().zip(sides).collect();
    let [own, _] = instructions[NOTHING];
    println!(
        "Instructions: by {}; a call of nothing has {own}.",
        counts.by
    );
    Ok(instructions)
}

// Stack and size.

fn show_stack(depths: &Depths) {
    println!("| Entry | Octets of stack | Calls tried |\n|---|---|---|");
    let mut rows: Vec<(&str, Deepest)> = depths.deepest.iter().map(|(n, d)| (*n, *d)).collect();
    rows.sort_by_key(|(_, deepest)| std::cmp::Reverse(deepest.octets));
    for (entry, deepest) in &rows {
        let (octets, calls) = (grouped(deepest.octets), grouped(deepest.calls));
        println!("| `{entry}` | {octets} | {calls} |");
    }
    let reaches = |(_, deepest): &&(&str, Deepest)| deepest.octets >= STACK_AIM;
    let reaching: Vec<&str> = rows.iter().filter(reaches).map(|(name, _)| *name).collect();
    let aim = grouped(STACK_AIM);
    match reaching.is_empty() {
        true => println!("\nAll {} stay below {aim}.", rows.len()),
        false => println!("\nNot below {aim}: {}.", reaching.join(", ")),
    }
}

fn show_size(archive: &Path) -> Outcome {
    println!("An end's state: {STATE_OCTETS} octets.\n");
    let (Some(sizes), Some(needed)) = (objects::sizes(archive)?, objects::needed(archive)?) else {
        println!("Not told: size and nm are not installed.");
        return Ok(());
    };
    println!("| In the archive | Octets |\n|---|---|");
    for (what, octets) in [
        ("code", sizes.code),
        ("constants", sizes.constants),
        ("variables", sizes.variables),
        ("tables for unwinding", sizes.unwinding),
    ] {
        println!("| {what} | {} |", grouped(octets as usize));
    }
    let needed: Vec<String> = needed.iter().map(|name| format!("`{name}`")).collect();
    println!("\nWhat the firmware must supply: {}.", needed.join(", "));
    Ok(())
}

#[cfg(test)]
mod tests {
    use super::*;
    use std::collections::BTreeSet;

    /// Makes each call some times: what it gives must not change, or the state
    /// drifts and the last call is not the first one's like.
    #[derive(Default)]
    struct Steady {
        names: BTreeSet<String>,
        rows: usize,
    }

    impl Meter for Steady {
        fn row<A: PartialEq, B: PartialEq>(
            &mut self,
            what: &str,
            mut archive: impl FnMut() -> A,
            mut own: impl FnMut() -> B,
        ) {
            let (first, own_first) = (archive(), own());
            for _ in 0..20 {
                assert!(archive() == first && own() == own_first, "{what} drifts");
            }
            self.names.insert(String::from(what));
            self.rows += 1;
        }
    }

    #[test]
    fn no_row_drifts_and_each_has_a_name_of_its_own() {
        let mut steady = Steady::default();
        frames::measure(&mut steady).expect("the archive is the paper's");
        log::measure(&mut steady).expect("the archive's log is the paper's");
        machine::measure(&mut steady).expect("the archive's machine is the paper's");
        assert_eq!(steady.rows, 7 + 6 + 4 + 1 + 2 + 13);
        assert_eq!(steady.names.len(), steady.rows);
    }
}
