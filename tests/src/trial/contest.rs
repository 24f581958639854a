//! The same call of two libraries, and what differs.

use super::lent::{Lent, Stray};
use crate::compare::grouped;
use crate::library::{answer_of, length_of, ByPaper, Library};
use std::collections::BTreeMap;
use std::fmt::{Display, LowerHex};

/// Differences that are shown of each function.
const SHOWN: usize = 3;

/// A library beside the paper's.
pub struct Contest<'a> {
    pub library: &'a dyn Library,
    differing: BTreeMap<&'static str, Differing>,
}

/// How often a function differs, and its first differences.
#[derive(Default)]
struct Differing {
    count: usize,
    shown: Vec<String>,
}

/// What came of a call to which `N` slices were lent.
pub struct Called<T, const N: usize> {
    /// By the paper.
    pub outcome: u64,
    /// The library gave the same outcome and left the same memory.
    pub agreed: bool,
    /// The memory as the library left it.
    pub lent: [Lent<T>; N],
}

impl<'a> Contest<'a> {
    pub fn new(library: &'a dyn Library) -> Self {
        Contest {
            library,
            differing: BTreeMap::new(),
        }
    }

    /// Makes a call of the library and of the paper's, on equal memory. `what`
    /// tells with which values it was made.
    pub fn call<T: Copy + PartialEq + Display + LowerHex, const N: usize>(
        &mut self,
        function: &'static str,
        lent: [Lent<T>; N],
        what: impl FnOnce() -> String,
        call: impl Fn(&dyn Library, [&mut [T]; N]) -> u64,
    ) -> Called<T, N> {
        let (mut expected_lent, mut found_lent) = (lent.clone(), lent);
        let expected = call(&ByPaper, expected_lent.each_mut().map(Lent::slice_mut));
        let found = call(self.library, found_lent.each_mut().map(Lent::slice_mut));
        let pairs = expected_lent.iter().zip(&found_lent);
        let strays: Vec<String> = pairs.filter_map(stray_told).collect();
        let agreed = expected == found && strays.is_empty();
        if !agreed {
            let lengths = found_lent.each_ref().map(|lent| lent.len().to_string());
            self.note(function, || {
                let mut text = format!("{}, lent {}", what(), lengths.join(" and "));
                if expected != found {
                    text += &format!("\n      expected {}", told(expected));
                    text += &format!("\n      found    {}", told(found));
                }
                for stray in strays {
                    text += &format!("\n      {stray}");
                }
                text
            });
        }
        Called {
            outcome: expected,
            agreed,
            lent: found_lent,
        }
    }

    /// Notes a difference; its text is only made if it will be shown.
    pub fn note(&mut self, function: &'static str, text: impl FnOnce() -> String) {
        let differing = self.differing.entry(function).or_default();
        differing.count += 1;
        if differing.shown.len() < SHOWN {
            differing.shown.push(text());
        }
    }

    /// A text for each function that differs.
    pub fn faults(&self) -> Vec<String> {
        let told = |(function, differing): (&&str, &Differing)| {
            let count = grouped(differing.count);
            let shown = differing.shown.join("\n    ");
            format!("{function}: {count} times, first\n    {shown}")
        };
        self.differing.iter().map(told).collect()
    }
}

fn told(outcome: u64) -> String {
    let (answer, length) = (answer_of(outcome), length_of(outcome));
    format!("answer {answer}, length {length}")
}

/// Where one lent memory differs from the other.
fn stray_told<T>((expected, found): (&Lent<T>, &Lent<T>)) -> Option<String>
where
    T: Copy + PartialEq + Display + LowerHex,
{
    let stray = expected.stray(found)?;
    Some(place_told(&stray, found.len()))
}

pub fn place_told<T: Display + LowerHex>(stray: &Stray<T>, length: usize) -> String {
    let (place, expected, found) = (stray.place, &stray.expected, &stray.found);
    let side = match usize::try_from(place) {
        Err(_) => ", before what was lent",
        Ok(place) if place >= length => ", behind what was lent",
        Ok(_) => "",
    };
    format!("at {place}{side}: expected {expected} ({expected:#x}), found {found} ({found:#x})")
}

#[cfg(test)]
mod tests {
    use super::*;
    use crate::random::Random;

    fn numbers() -> Lent<u64> {
        Lent::numbers(&mut Random::new(1), 4)
    }

    #[test]
    fn equal_calls_agree() {
        let mut contest = Contest::new(&ByPaper);
        let called = contest.call("call", [numbers()], String::new, |_, [slice]| {
            slice[1] = 7;
            0x3C00
        });
        assert!(called.agreed && called.outcome == 0x3C00);
        assert_eq!(called.lent[0].slice()[1], 7);
        assert!(contest.faults().is_empty());
    }

    /// Calls that go by what the slice holds are alike; these are not.
    #[test]
    fn another_outcome_or_another_store_is_told() {
        let mut contest = Contest::new(&ByPaper);
        let times = std::cell::Cell::new(0);
        for _ in 0..5 {
            let called = contest.call(
                "call",
                [numbers(), numbers()],
                || "with 3".into(),
                |_, [_, slice]| {
                    times.set(times.get() + 1);
                    slice[2] = times.get() % 2;
                    times.get() % 2
                },
            );
            assert!(!called.agreed);
        }
        let faults = contest.faults();
        assert_eq!(faults.len(), 1);
        assert!(faults[0].starts_with("call: 5 times, first\n    with 3, lent 4 and 4\n"));
        assert!(faults[0].contains("expected answer 1, length 0\n      found    answer 0"));
        assert!(faults[0].contains("at 2: expected 1 (0x1), found 0 (0x0)"));
        assert_eq!(faults[0].matches("with 3").count(), SHOWN);
    }

    #[test]
    fn places_outside_are_told_so() {
        let stray = |place| Stray {
            place,
            expected: 1_u8,
            found: 10,
        };
        assert_eq!(
            place_told(&stray(3), 4),
            "at 3: expected 1 (0x1), found 10 (0xa)"
        );
        assert!(place_told(&stray(4), 4).contains("behind what was lent"));
        assert!(place_told(&stray(-1), 4).contains("before what was lent"));
    }
}
