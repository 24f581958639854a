//! Records of lengths that no memory should be taken for: those of which a part comes, and
//! the longest one, of which all comes.

use crate::commands::process::{Memory, Program};
use crate::commands::trial::as_due;
use crate::commands::Outcome;
use oam_tests::compare::grouped;
use oam_tests::generate::{capture, plain, record_header, usual_record};
use oam_tests::paper::capture::{listing, Order};
use oam_tests::paper::{answer, check, code, row, HEADER};
use oam_tests::random::Random;
use std::error::Error;

/// The usual record. It is more than a pipe holds, so that what is measured has begun to
/// read, be it an emulator.
const USUAL: u32 = 1_000_000;
/// Octets of a long record that come before the file's end, where not all do.
const PART: u32 = 100_000_000;
/// What a process may take more than with the usual record, in octets.
const LEEWAY: usize = 16_000_000;

/// Feeds such records: 18 where a part comes, else 1, and no memory for them.
pub fn long_records(program: &Program) -> Outcome {
    let usual = cut(program, USUAL, USUAL - 1)?;
    for (name, most) in [
        ("2^31 octets", cut(program, 1 << 31, PART)?),
        ("2^32 - 1 octets", cut(program, u32::MAX, PART)?),
        ("2^32 - 1 octets that are there", whole(program)?),
    ] {
        not_grown(usual, most).map_err(|fault| format!("a record of {name} takes {fault}"))?;
    }
    println!("passes over records of up to 2^32 - 1 octets without memory for them");
    Ok(())
}

/// Beside the memory that the usual record takes.
fn not_grown(usual: Memory, most: Memory) -> Result<(), String> {
    for (what, usual, most) in [
        ("addresses", usual.addressed, most.addressed),
        ("resident memory", usual.resident, most.resident),
    ] {
        if most > usual + LEEWAY {
            let [usual, most] = [usual, most].map(grouped);
            return Err(format!("{most} octets of {what}, not {usual}"));
        }
    }
    Ok(())
}

/// Runs the program on a record of which only so many zeros come.
fn cut(program: &Program, stored: u32, zeros: u32) -> Result<Memory, Box<dyn Error>> {
    let file = begun(stored);
    measured(program, [&file, &[]], zeros, &listing(&file))
}

/// Runs the program on the longest record and a frame behind it.
fn whole(program: &Program) -> Result<Memory, Box<dyn Error>> {
    let frame = plain(&mut Random::new(1), code::LOOPBACK).frame;
    let rows = row(1, Err(answer::LENGTH)) + &row(2, check(&frame));
    let expected = [HEADER, &rows].concat();
    let (file, behind) = (begun(u32::MAX), usual_record(&frame));
    measured(program, [&file, &behind], u32::MAX, expected.as_bytes())
}

/// A file up to the octets of its first record.
fn begun(stored: u32) -> Vec<u8> {
    let mut file = capture(&mut Random::new(1), Order::Little, &[]);
    file.extend(record_header(Order::Little, [0, 0], stored, stored));
    file
}

/// The memory of a run on octets, zeros and octets.
fn measured(
    program: &Program,
    [file, behind]: [&[u8]; 2],
    zeros: u32,
    expected: &[u8],
) -> Result<Memory, Box<dyn Error>> {
    let (ran, memory) = program.run_measured(file, zeros as usize, behind)?;
    as_due(
        "of a long record and what is behind it",
        expected,
        &ran.output,
    )?;
    match ran.status.success() {
        true => Ok(memory),
        false => Err(format!("behind a long record it ended with {}", ran.status).into()),
    }
}

#[cfg(test)]
mod tests {
    use super::*;

    #[test]
    fn memory_that_grows_is_found() {
        let usual = Memory {
            addressed: 4_000_000,
            resident: 1_000_000,
        };
        assert!(not_grown(usual, usual).is_ok());
        let addressed = usual.addressed + (1 << 31);
        assert!(not_grown(usual, Memory { addressed, ..usual }).is_err());
        let resident = usual.resident + PART as usize;
        assert!(not_grown(usual, Memory { resident, ..usual }).is_err());
    }

    #[test]
    fn another_answer_is_found() {
        for script in ["cat > /dev/null", "printf x; cat > /dev/null"] {
            let program = Program::new("sh", &["-c", script].map(String::from));
            assert!(cut(&program, 1, 0).is_err());
        }
    }
}
