//! The commands: their names, their forms, and the choice among them.

#[cfg(feature = "archive")]
mod archive;
mod arguments;
mod captures;
#[cfg(feature = "archive")]
mod figures;
mod list;
mod lister;
mod machine;
mod process;
mod skipped;
mod speed;
mod trial;

use arguments::Arguments;
use oam_tests::trial::Report;
use std::error::Error;

/// A command's end: what it had to say is printed, or it failed for a reason.
type Outcome = Result<(), Box<dyn Error>>;

struct Command {
    name: &'static str,
    /// What stands behind the name.
    form: &'static str,
    purpose: &'static str,
    /// The options that take a number.
    options: &'static [&'static str],
    run: fn(&Arguments) -> Outcome,
}

const ALL: &[Command] = &[
    Command {
        name: "lister",
        form: "PROGRAM [WORD ...] [--seed N] [--frames N]",
        purpose: "compare a lister's whole output with the paper's",
        options: &["--seed", "--frames"],
        run: lister::run,
    },
    Command {
        name: "captures",
        form: "PROGRAM [WORD ...] [--seed N] [--records N]",
        purpose: "compare a capture lister's whole output with the paper's",
        options: &["--seed", "--records"],
        run: captures::run,
    },
    Command {
        name: "list",
        form: "",
        purpose: "list standard input with the hand-written lister",
        options: &[],
        run: list::lines,
    },
    Command {
        name: "list_captures",
        form: "",
        purpose: "list a capture on standard input with the hand-written capture lister",
        options: &[],
        run: list::captures,
    },
    Command {
        name: "speed",
        form: "PROGRAM [WORD ...] [--seed N] [--megabytes N] [--runs N]",
        purpose: "compare a lister's speed with the hand-written one's and with tshark's",
        options: &["--seed", "--megabytes", "--runs"],
        run: speed::lines,
    },
    Command {
        name: "speed_captures",
        form: "PROGRAM [WORD ...] [--seed N] [--megabytes N] [--runs N]",
        purpose: "the same of a capture lister",
        options: &["--seed", "--megabytes", "--runs"],
        run: speed::captures,
    },
    Command {
        name: "machine",
        form: "[--seed N] [--calls N]",
        purpose: "compare the archive's link machine with the paper's",
        options: &["--seed", "--calls"],
        run: machine::machine,
    },
    Command {
        name: "pair",
        form: "[--seed N] [--calls N]",
        purpose: "join two ends of the archive and test the third demand throughout",
        options: &["--seed", "--calls"],
        run: machine::pair,
    },
    #[cfg(feature = "archive")]
    Command {
        name: "writers",
        form: "[--seed N] [--messages N]",
        purpose: "compare the archive's frame writers with the paper's",
        options: &["--seed", "--messages"],
        run: archive::writers,
    },
    #[cfg(feature = "archive")]
    Command {
        name: "reading",
        form: "[--seed N] [--frames N]",
        purpose: "compare the archive's frame reader with the paper's",
        options: &["--seed", "--frames"],
        run: archive::reading,
    },
    #[cfg(feature = "archive")]
    Command {
        name: "log",
        form: "[--seed N] [--lines N]",
        purpose: "compare the archive's log reader and writer with the paper's",
        options: &["--seed", "--lines"],
        run: archive::log,
    },
    #[cfg(feature = "archive")]
    Command {
        name: "figures",
        form: "[LISTER [CAPTURE_LISTER]] [--runs N]",
        purpose:
            "print the tables of docs/PERFORMANCE.md: the archive beside hand-written functions",
        options: &["--runs"],
        run: figures::run,
    },
    #[cfg(feature = "archive")]
    Command {
        name: "counted",
        form: "",
        purpose: "make each call of figures once, to be counted; figures runs it",
        options: &[],
        run: figures::counted,
    },
];

/// What a build without the archive says of the commands it lacks.
const WITHOUT_ARCHIVE: &str = "
writers, reading, log and figures need the feature archive;
machine and pair try this package's own machine without it";

/// Runs the command that the arguments name.
pub fn run(mut given: impl Iterator<Item = String>) -> Outcome {
    let name = given.next().ok_or_else(usage)?;
    let command = ALL
        .iter()
        .find(|command| command.name == name)
        .ok_or_else(usage)?;
    let arguments = Arguments::parse(given, command.options)
        .map_err(|fault| format!("{name}: {fault}\n{}", usage()))?;
    (command.run)(&arguments).map_err(|failure| format!("{name}: {failure}").into())
}

/// Shows a trial's counts; what was wrong is a failure, with `how` to repeat it.
fn told(report: &Report, how: &str) -> Outcome {
    counted(report, how)?;
    println!("no difference");
    Ok(())
}

/// The same of counts that are not yet a trial's end.
fn counted(report: &Report, how: &str) -> Outcome {
    for line in &report.counts {
        println!("{line}");
    }
    if report.faults.is_empty() {
        return Ok(());
    }
    let faults = report.faults.join("\n  ");
    Err(format!("fails ({how})\n  {faults}").into())
}

fn usage() -> String {
    let mut text = String::from("usage:");
    for command in ALL {
        text += &format!(
            "\n  oam-tests {} {}\n      {}",
            command.name, command.form, command.purpose
        );
    }
    if cfg!(not(feature = "archive")) {
        text += WITHOUT_ARCHIVE;
    }
    text
}

#[cfg(test)]
mod tests {
    use super::*;

    #[test]
    fn no_command_or_an_unknown_one_shows_the_usage() {
        for words in [vec![], vec!["lsit"], vec!["lister", "--sed", "1"]] {
            let failure = run(words.into_iter().map(String::from)).expect_err("not a command");
            assert!(failure.to_string().contains("oam-tests lister PROGRAM"));
        }
    }
}
