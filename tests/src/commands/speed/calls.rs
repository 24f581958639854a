//! How often a lister asks the system to read and to write, beside the hand-written one.

use super::Sides;
use crate::commands::process::{version, Program, TemporaryFile};
use crate::commands::Outcome;
use oam_tests::compare::grouped;
use std::error::Error;
use std::fs;
use std::path::Path;

const STRACE: &str = "strace";

/// Prints what whole runs on a file take.
pub fn compare(sides: &Sides, input: &Path, octets: usize) -> Outcome {
    let lister = sides.form.lister();
    if version(STRACE).is_none() {
        println!("\nIts system calls are not counted: strace is not installed.");
        return Ok(());
    }
    let octets = grouped(octets);
    println!("\n| {lister}, whole program on {octets} octets of the mix | Reads | Writes |");
    println!("|---|---|---|");
    for (name, program) in sides.named() {
        let [reads, writes] = calls(program, input)?.map(grouped);
        println!("| {name} | {reads} | {writes} |");
    }
    Ok(())
}

/// The reads of standard input and the writes on standard output of a whole run.
fn calls(program: &Program, input: &Path) -> Result<[usize; 2], Box<dyn Error>> {
    let told = TemporaryFile::holding("calls", b"")?;
    let words = ["-f", "-e", "trace=read,write", "-o"].map(String::from);
    let file = told.path().display().to_string();
    let traced = program.under(STRACE, &[&words[..], &[file]].concat());
    traced.time(input)?; // its time says nothing
    Ok(counted(&fs::read_to_string(told.path())?))
}

/// The calls of both kinds in strace's lines, each of which begins with a process.
fn counted(lines: &str) -> [usize; 2] {
    ["read(0,", "write(1,"].map(|call| {
        let is_one = |line: &&str| line.split_whitespace().nth(1) == Some(call);
        lines.lines().filter(is_one).count()
    })
}

#[cfg(test)]
mod tests {
    use super::*;

    #[test]
    fn reads_and_writes_are_counted_by_their_lines() {
        let lines = "12 read(3, \"\\177ELF\", 832) = 832\n12 read(0, \"a\"..., 65536) = 1\n\
                     12 write(1, \"no\\tcode\"..., 30) = 30\n12 read(0, \"\", 65536) = 0\n\
                     7 write(2, \"x\", 1) = 1\n12 +++ exited with 0 +++\n";
        assert_eq!(counted(lines), [2, 1]);
    }
}
