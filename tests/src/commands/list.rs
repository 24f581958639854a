//! `list` and `list_captures`: the hand-written listers as programs of their own.

use super::arguments::Arguments;
use super::Outcome;
use oam_tests::streaming::{self, Captures, Lines, Listing};
use std::io;

pub fn lines(_: &Arguments) -> Outcome {
    run(Lines::default())
}

pub fn captures(_: &Arguments) -> Outcome {
    run(Captures::default())
}

fn run(lister: impl Listing) -> Outcome {
    // Standard output flushes at each newline; the rows come in large pieces
    // already, each of which ends with one.
    streaming::list(lister, io::stdin().lock(), io::stdout().lock())?;
    Ok(())
}
