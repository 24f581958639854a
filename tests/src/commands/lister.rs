//! `lister`: compares a lister's whole output with the paper's listing, byte
//! for byte, over many frames and bad lines and several ways of feeding it.

use super::arguments::Arguments;
use super::process::Program;
use super::trial::Trial;
use super::{skipped, Outcome};
use oam_tests::compare::{grouped, shortened};
use oam_tests::generate::{any_frame, mixed_lines, of_frame, spoilt, Line};
use oam_tests::paper::{answer, answers, code, lines, listing};
use oam_tests::random::{seed_from_clock, Random};
use std::collections::BTreeMap;

#[cfg(test)]
mod tests;

const FRAMES: u64 = 200_000;
/// Frames that are also fed octet by octet.
const FEW_FRAMES: usize = 300;
/// Empty lines, whose rows are many times longer than they are.
const EMPTY_LINES: usize = 50_000;

pub fn run(arguments: &Arguments) -> Outcome {
    let program = arguments.program()?;
    let seed = arguments.number("--seed").unwrap_or_else(seed_from_clock);
    let frames = arguments.number("--frames").unwrap_or(FRAMES) as usize;
    println!("seed {seed}");
    let mut random = Random::new(seed);
    let many = mixed_lines(&mut random, frames);
    let few = few_lines(&mut random);
    check_claims(&many)?;
    check_claims(&few)?;
    let (many, few) = (joined(&many), joined(&few));
    Tally::of(&many).report()?;
    let trial = trial(program, seed);
    whole_input(&trial, &many, &mut random)?;
    trial.octet_by_octet(&few)?;
    // Far more rows than an output of the input's length has room for.
    trial.on_file("as empty lines", &[b'\n'; EMPTY_LINES])?;
    let tiny = tiny_inputs();
    let named = tiny
        .iter()
        .map(|input| (format!("{input:?}"), input.as_bytes()));
    trial.each("tiny inputs", named)?;
    live(&trial)?;
    failing(&trial)?;
    trial.unwritable()?;
    println!("no difference");
    Ok(())
}

fn trial(program: Program, seed: u64) -> Trial {
    Trial {
        program,
        seed,
        listing,
        listed,
    }
}

/// Short lines of all kinds, for the feeding in single octets.
fn few_lines(random: &mut Random) -> Vec<Line> {
    let mut lines = Vec::new();
    for _ in 0..FEW_FRAMES {
        let made = any_frame(random);
        if random.one_in(4) {
            lines.push(spoilt(random, &made.frame));
        }
        lines.push(of_frame(made));
    }
    lines
}

/// The generators and the decoder of this package must agree before anything
/// is said about the program.
fn check_claims(lines: &[Line]) -> Outcome {
    match lines.iter().find(|line| !line.holds()) {
        None => Ok(()),
        Some(Line { text, claim }) => {
            let text = shortened(text);
            Err(format!("this package errs: {text} does not read as {claim:?}").into())
        }
    }
}

fn joined(lines: &[Line]) -> Vec<u8> {
    let mut input = Vec::new();
    for line in lines {
        input.extend_from_slice(&line.text);
        input.push(b'\n');
    }
    input
}

/// How often each answer was due, each code accepted, and such numbers of TLVs skipped.
struct Tally {
    lines: usize,
    answers: BTreeMap<u8, usize>,
    codes: BTreeMap<u8, usize>,
    skipped: [usize; skipped::KINDS.len()],
}

impl Tally {
    fn of(input: &[u8]) -> Self {
        let mut tally = Tally {
            lines: 0,
            answers: answer::ALL.map(|answer| (answer, 0)).into(),
            codes: code::ALL.map(|code| (code, 0)).into(),
            skipped: [0; skipped::KINDS.len()],
        };
        for answer in answers(input) {
            tally.lines += 1;
            let number = answer.err().unwrap_or(answer::ACCEPTED);
            *tally.answers.entry(number).or_default() += 1;
            if let Ok(heading) = answer {
                *tally.codes.entry(heading.code).or_default() += 1;
                skipped::kinds(&heading).for_each(|kind| tally.skipped[kind] += 1);
            }
        }
        tally
    }

    /// Shows the counts; one that is 0 is a failure.
    fn report(&self) -> Outcome {
        println!("{} lines, of them", grouped(self.lines));
        for (answer, count) in &self.answers {
            println!("  {:>9} answered {answer}", grouped(*count));
        }
        println!("and of those answered 0");
        for (code, count) in &self.codes {
            println!("  {:>9} of code {code:02X}", grouped(*count));
        }
        for (kind, count) in self.skipped.iter().enumerate() {
            println!("  {:>9} {}", grouped(*count), skipped::name(kind));
        }
        let counts = self.answers.values().chain(self.codes.values());
        if counts.chain(&self.skipped).any(|&count| count == 0) {
            return Err("an answer, a code or a number of skipped TLVs was never reached".into());
        }
        Ok(())
    }
}

/// The whole input: from a file, by one write, and in pieces of odd sizes; the last time
/// without its last newline.
fn whole_input(trial: &Trial, input: &[u8], random: &mut Random) -> Outcome {
    trial.on_file("from a file", input)?;
    trial.by_one_write(input)?;
    let cut = input.strip_suffix(b"\n").unwrap_or(input);
    trial.in_pieces("in pieces, without the last newline", cut, random)
}

/// A line's row is written before the next line is asked for, and the header before the
/// first.
fn live(trial: &Trial) -> Outcome {
    let lines = paper_lines().map(|line| format!("{line}\n"));
    trial.live(&lines.each_ref().map(|line| line.as_bytes()), listing)?;
    println!("lists a live input as it comes");
    Ok(())
}

/// A line that has not ended has no row where reading fails.
fn failing(trial: &Trial) -> Outcome {
    let [enable, other] = paper_lines();
    let inputs = [
        String::new(),
        format!("{enable}\n"),
        format!("{enable}\n{other}"),
    ];
    let ended = |input: &[u8]| {
        let end = input.iter().rposition(|&octet| octet == b'\n');
        listing(&input[..end.map_or(0, |end| end + 1)])
    };
    trial.failing(&inputs.each_ref().map(|input| input.as_bytes()), ended)
}

fn listed(input: &[u8], number: usize) -> String {
    let line = lines(input).nth(number - 1);
    line.map_or(String::from("(no line)"), shortened)
}

/// The paper's two lines: an enable, and a command that is none.
fn paper_lines() -> [String; 2] {
    ["01", "03"].map(|command| {
        let zeros = "00".repeat(41);
        format!(
            "0180c2000002{}{}{command}{zeros}",
            "020000000001", "880903005004"
        )
    })
}

/// Inputs of a few lines, with and without their last newline.
fn tiny_inputs() -> Vec<String> {
    let [enable, other] = paper_lines();
    let mut inputs = vec![String::new()];
    for lines in [
        String::new(),
        String::from("\n"),
        String::from("\n\n"),
        String::from("0"),
        String::from("00"),
        String::from("g"),
        String::from("\r"),
        String::from("0\n0"),
        format!("{enable}\n{other}"),
        enable.clone(),
        other.clone(),
        format!("\n{enable}"),
        format!("{enable}\n"),
        format!("{enable}0"),
        format!("{enable}\r"),
    ] {
        inputs.push(format!("{lines}\n"));
        inputs.push(lines);
    }
    inputs
}
