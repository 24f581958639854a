//! A lister under trial: it is fed in several ways, and its whole output is compared with
//! the paper's listing, byte for byte.

use super::process::{Program, Ran, TemporaryFile};
use super::Outcome;
use oam_tests::compare::{differences, from_difference, grouped, shortened, Difference};
use oam_tests::paper::HEADER;
use oam_tests::random::Random;
use std::error::Error;
use std::path::Path;
use std::time::Duration;

const LONGEST_PIECE: usize = 70_000;
/// Differing rows that are shown.
const SHOWN: usize = 5;
/// How long a row may take that is awaited before the next octets are fed.
const PATIENCE: Duration = Duration::from_secs(20);
/// Can be opened, and not be read.
const DIRECTORY: &str = "/";
/// Can be opened, and takes no octet.
const FULL: &str = "/dev/full";

/// A program under trial, what it is to list, and the seed to repeat it.
pub struct Trial {
    pub program: Program,
    pub seed: u64,
    /// What the paper's lister writes for an input.
    pub listing: fn(&[u8]) -> Vec<u8>,
    /// What has the row of this number in an input, for people.
    pub listed: fn(&[u8], usize) -> String,
}

impl Trial {
    pub fn on_file(&self, feeding: &str, input: &[u8]) -> Result<Ran, Box<dyn Error>> {
        let file = TemporaryFile::holding("listed", input)?;
        let ran = self.program.run_on_file(file.path())?;
        self.judge(feeding, input, &ran)?;
        Ok(ran)
    }

    pub fn by_one_write(&self, input: &[u8]) -> Outcome {
        let ran = self.program.run_on_pipe(input, || usize::MAX)?;
        self.judge("by one write", input, &ran)
    }

    /// In pieces of odd sizes.
    pub fn in_pieces(&self, feeding: &str, input: &[u8], random: &mut Random) -> Outcome {
        let piece = || random.between(1, LONGEST_PIECE);
        let ran = self.program.run_on_pipe(input, piece)?;
        self.judge(feeding, input, &ran)
    }

    pub fn octet_by_octet(&self, input: &[u8]) -> Outcome {
        let ran = self.program.run_on_pipe(input, || 1)?;
        self.judge("octet by octet", input, &ran)
    }

    /// Inputs that are fed by one write each, with a name for each.
    pub fn each<'a>(
        &self,
        what: &str,
        inputs: impl IntoIterator<Item = (String, &'a [u8])>,
    ) -> Outcome {
        let mut count = 0;
        for (name, input) in inputs {
            let ran = self.program.run_on_pipe(input, || usize::MAX)?;
            self.compare(&name, input, &ran)?;
            count += 1;
        }
        println!("agrees on {} {what}", grouped(count));
        Ok(())
    }

    /// What is `due` for the pieces fed so far is written before the next one is fed, and
    /// before the input's end.
    pub fn live(&self, pieces: &[&[u8]], due: impl Fn(&[u8]) -> Vec<u8>) -> Outcome {
        let due = |fed: usize| due(&pieces[..fed].concat());
        let ran = self
            .program
            .run_live(pieces, |fed| due(fed).len(), PATIENCE)?;
        as_due("before the input's end", &due(pieces.len()), &ran.output)?;
        match faults(&ran).as_slice() {
            [] => Ok(()),
            faults => Err(format!("fed live, {}", faults.join("; ")).into()),
        }
    }

    /// Where reading fails, what was `due` of the octets before is written, and nothing
    /// more: an error is no end. The program says so on standard error.
    pub fn failing(&self, inputs: &[&[u8]], due: impl Fn(&[u8]) -> Vec<u8>) -> Outcome {
        let directory = self.program.run_on_unreadable(Path::new(DIRECTORY))?;
        self.judge_failed("is a directory", HEADER.as_bytes(), &directory)?;
        for input in inputs {
            let ran = self.program.run_on_failing(input, PATIENCE)?;
            let name = format!("fails behind {} octets", input.len());
            self.judge_failed(&name, &due(input), &ran)?;
        }
        println!("writes what waits where an input cannot be read on");
        Ok(())
    }

    /// Where writing fails the program says so, too.
    pub fn unwritable(&self) -> Outcome {
        told(
            "where standard output is full",
            &self.program.run_unwritable(Path::new(FULL))?,
        )?;
        println!("tells that an output cannot be written");
        Ok(())
    }

    fn judge_failed(&self, name: &str, expected: &[u8], heard: &(Ran, String)) -> Outcome {
        let when = format!("where standard input {name}");
        as_due(&when, expected, &heard.0.output)?;
        told(&when, heard)
    }

    pub fn judge(&self, feeding: &str, input: &[u8], ran: &Ran) -> Outcome {
        self.compare(feeding, input, ran)?;
        println!("agrees on {} octets fed {feeding}", grouped(input.len()));
        Ok(())
    }

    /// Fails with all that is needed to see and to repeat a difference.
    pub fn compare(&self, feeding: &str, input: &[u8], ran: &Ran) -> Outcome {
        let expected = (self.listing)(input);
        let differences: Vec<Difference> = differences(&expected, &ran.output).collect();
        let mut found: Vec<String> = differences
            .iter()
            .take(SHOWN)
            .map(|difference| self.describe(difference, input))
            .collect();
        if differences.len() > SHOWN {
            found.push(format!("{} rows differ in all", grouped(differences.len())));
        }
        found.extend(faults(ran));
        if found.is_empty() {
            return Ok(());
        }
        let (seed, found) = (self.seed, found.join("\n  "));
        Err(format!("differs when fed {feeding} (seed {seed})\n  {found}").into())
    }

    fn describe(&self, difference: &Difference, input: &[u8]) -> String {
        let shown = |row: Option<&[u8]>| row.map_or(String::from("(no row)"), shortened);
        let listed = match difference.line {
            0 => String::from("(the header)"),
            number => (self.listed)(input, number),
        };
        format!(
            "row {}: {listed}\n    expected {}\n    found    {}",
            difference.line,
            shown(difference.expected),
            shown(difference.found)
        )
    }
}

/// Fails where a run that failed says nothing, or ends with a status other than 1.
fn told(when: &str, (ran, said): &(Ran, String)) -> Outcome {
    if said.is_empty() {
        return Err(format!("{when} nothing is said").into());
    }
    match ran.status.code() {
        Some(1) => Ok(()),
        _ => Err(format!("{when} it ended with {}", ran.status).into()),
    }
}

/// Fails where something else came than was due.
pub fn as_due(when: &str, due: &[u8], came: &[u8]) -> Outcome {
    if due == came {
        return Ok(());
    }
    let [due, came] = [due, came].map(String::from_utf8_lossy);
    let [due, came] = from_difference(&due, &came);
    Err(format!("{when} was due\n  {due}\nand came\n  {came}").into())
}

/// What is wrong with a run, whatever it wrote.
fn faults(ran: &Ran) -> Vec<String> {
    let mut faults = Vec::new();
    if !ran.status.success() {
        faults.push(format!("the program ended with {}", ran.status));
    }
    if let Some(error) = &ran.unfed {
        faults.push(format!("not all input could be written: {error}"));
    }
    faults
}

#[cfg(test)]
mod tests {
    use super::*;

    /// A header and the input as it came.
    fn copied(input: &[u8]) -> Vec<u8> {
        [HEADER.as_bytes(), input].concat()
    }

    /// A script for what comes behind the header.
    fn trial(script: &str) -> Trial {
        let script = format!("printf '{}'; {script}", HEADER.escape_default());
        Trial {
            program: Program::new("sh", &["-c", &script].map(String::from)),
            seed: 5,
            listing: copied,
            listed: |_, number| number.to_string(),
        }
    }

    #[test]
    fn a_live_input_is_listed_and_taken_to_its_end() {
        let pieces = [&b"one\n"[..], &[b'a'; 100_000]];
        assert!(trial("cat").live(&pieces, copied).is_ok());
        let first = |fed: &[u8]| copied(&fed[..fed.len().min(4)]);
        assert!(trial("head -n 1").live(&pieces, first).is_err());
        assert!(trial("head -n 1; cat > /dev/null")
            .live(&pieces, first)
            .is_ok());
        assert!(trial("cat; exit 1").live(&pieces, copied).is_err());
    }

    #[test]
    fn where_reading_fails_what_waits_is_written_and_something_said() {
        let inputs = [&b""[..], b"one\n"];
        assert!(trial("cat").failing(&inputs, copied).is_ok());
        assert!(trial("cat 2> /dev/null").failing(&inputs, copied).is_err());
        assert!(trial("cat; echo end").failing(&inputs, copied).is_err());
        assert!(trial("cat; kill $$").failing(&inputs, copied).is_err());
        assert!(trial("cat; exit 0").failing(&inputs, copied).is_err());
        assert!(trial("cat; exit 2").failing(&inputs, copied).is_err());
        let without_header = Trial {
            program: Program::new("cat", &[]),
            ..trial("")
        };
        assert!(without_header.failing(&inputs, copied).is_err());
    }

    #[test]
    fn where_writing_fails_something_is_said() {
        assert!(trial("exit 1").unwritable().is_ok());
        assert!(trial("exit 0").unwritable().is_err());
        let silent = Trial {
            program: Program::new("false", &[]),
            ..trial("")
        };
        assert!(silent.unwritable().is_err());
    }

    #[test]
    fn what_is_due_is_shown_beside_what_came() {
        assert!(as_due("now", b"one\n", b"one\n").is_ok());
        let failure = as_due("now", b"one\n", b"one").expect_err("a newline lacks");
        assert_eq!(
            failure.to_string(),
            "now was due\n  one\\n\nand came\n  one"
        );
    }

    #[test]
    fn what_differs_is_shown_with_its_row() {
        let trial = trial("");
        let ran = Ran::of(copied(b"one\nother\n"));
        let failure = trial.compare("at once", b"one\ntwo\n", &ran);
        let failure = failure.expect_err("a row differs").to_string();
        assert!(failure.contains("fed at once (seed 5)"));
        assert!(failure.contains("row 2: 2\n    expected two\\n\n    found    other\\n"));
        assert!(trial.compare("at once", b"one\nother\n", &ran).is_ok());
    }
}
