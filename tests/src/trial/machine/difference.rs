//! What differs between two calls, in words.

use crate::library::machine::{Call, Outcome, SHOWN_NUMBERS};
use crate::trial::contest::place_told;
use crate::trial::lent::Lent;
use std::fmt::{Display, LowerHex};

/// Names of a state's numbers.
const NAMES: [&str; SHOWN_NUMBERS] = [
    "configuration",
    "size",
    "OUI",
    "vendor",
    "source",
    "required",
    "link up",
    "lost-link count",
    "kept field",
    "record held",
    "record's version",
    "record's revision",
    "record's state",
    "record's configuration",
    "record's OAMPDU configuration",
    "record's OUI",
    "record's vendor",
    "event number held",
    "last event number",
    "role",
    "ticks",
    "frames written",
    "revision",
    "next event number",
    "dying gasp",
    "critical event",
    "owed",
    "discovery",
    "intervals",
    "frame window",
    "frame threshold",
    "seconds window",
    "seconds threshold",
    "ticks of the frame window",
    "errors of the frame window",
    "error total of frames",
    "event total of frames",
    "ticks of the seconds window",
    "errors of the seconds window",
    "error total of seconds",
    "event total of seconds",
    "timestamp",
    "bad frame in this second",
];

#[derive(Default)]
pub struct Differences(Vec<String>);

impl Differences {
    pub fn are_none(&self) -> bool {
        self.0.is_empty()
    }

    /// The differences as one text that begins with what was called.
    pub fn none_or(self, called: impl FnOnce() -> String) -> Result<(), String> {
        match self.0.is_empty() {
            true => Ok(()),
            false => Err(format!("{}\n    {}", called(), self.0.join("\n    "))),
        }
    }

    pub fn number(&mut self, what: &str, expected: u64, found: u64) {
        if expected != found {
            let text =
                format!("{what}: expected {expected} ({expected:#x}), found {found} ({found:#x})");
            self.0.push(text);
        }
    }

    pub fn outcome(&mut self, expected: u64, found: u64) {
        if expected != found {
            let (expected, found) = (Outcome::of(expected), Outcome::of(found));
            self.0.push(format!("expected {expected:?}"));
            self.0.push(format!("found    {found:?}"));
        }
    }

    pub fn memory<T>(&mut self, what: &str, expected: &Lent<T>, found: &Lent<T>)
    where
        T: Copy + PartialEq + Display + LowerHex,
    {
        if let Some(stray) = expected.stray(found) {
            let place = place_told(&stray, expected.len());
            self.0.push(format!("{what} {place}"));
        }
    }

    /// What was lent to be read stays as it was.
    pub fn given(&mut self, before: &Call, after: &Call) {
        if before != after {
            self.0.push(format!("what was to be read is now {after}"));
        }
    }

    /// The octets of a state, and what is beside them. The numbers tell better where
    /// an end is another.
    pub fn state(&mut self, expected: &Lent<u8>, found: &Lent<u8>) {
        if self.0.is_empty() {
            self.memory("the state", expected, found);
        }
    }

    /// Numbers that were shown, or memory that had to stay.
    pub fn shown(&mut self, expected: &Lent<u64>, found: &Lent<u64>) {
        let pairs = expected.slice().iter().zip(found.slice());
        for ((expected, found), name) in pairs.zip(NAMES) {
            self.number(name, *expected, *found);
        }
        if self.0.is_empty() {
            self.memory("the numbers", expected, found);
        }
    }
}
