//! What the walk of a frame skips, and what stands where it would be miscounted, told
//! by the paper from the frame.

use super::report::{least, Tally};
use crate::paper::{answer, check, code, list, list_start, Heading, Listed};

#[derive(Clone, Copy, Debug, PartialEq, Eq, PartialOrd, Ord)]
pub enum Skipping {
    OneToFive,
    MoreThan100,
    /// As many as a frame of code 00 holds.
    All748,
    /// As many as one of code 01 does.
    All747,
    /// An unknown TLV stands behind type 00.
    UnknownBehindEnd,
    /// 6 is answered behind a TLV that was skipped.
    BrokenBehindOne,
    /// 7 is.
    SecondBehindOne,
}

impl Skipping {
    /// How often each must come in 200,000 frames.
    const ALL: [(Skipping, usize); 7] = [
        (Skipping::OneToFive, 20_000),
        (Skipping::MoreThan100, 200),
        (Skipping::All748, 1),
        (Skipping::All747, 1),
        (Skipping::UnknownBehindEnd, 1_000),
        (Skipping::BrokenBehindOne, 1_000),
        (Skipping::SecondBehindOne, 200),
    ];

    /// What must come of so many frames.
    pub fn tally(frames: usize) -> Tally<Skipping> {
        let each = Skipping::ALL.map(|(skipping, times)| (skipping, least(times, frames)));
        Tally::expecting_each(each)
    }

    /// All that a frame is an example of.
    pub fn of(frame: &[u8]) -> Vec<Skipping> {
        let mut holding = match check(frame) {
            Ok(heading) => of_accepted(&heading, frame),
            Err(refusal) => of_refused(refusal, frame),
        };
        holding.retain(|(_, holds)| *holds);
        holding.into_iter().map(|(skipping, _)| skipping).collect()
    }
}

fn of_accepted(heading: &Heading, frame: &[u8]) -> Vec<(Skipping, bool)> {
    let (code, skipped) = (heading.code, heading.skipped);
    let events = code == code::NOTIFICATION;
    vec![
        (Skipping::OneToFive, (1..=5).contains(&skipped)),
        (Skipping::MoreThan100, skipped > 100),
        (Skipping::All748, skipped == 748),
        (Skipping::All747, skipped == 747 && events),
        (
            Skipping::UnknownBehindEnd,
            begins_with_unknown(code, &without_end(code, frame)),
        ),
    ]
}

fn of_refused(refusal: u8, frame: &[u8]) -> Vec<(Skipping, bool)> {
    let behind_one = |wanted| refusal == wanted && begins_with_unknown(frame[17], frame);
    vec![
        (Skipping::BrokenBehindOne, behind_one(answer::BROKEN)),
        (Skipping::SecondBehindOne, behind_one(answer::SECOND)),
    ]
}

fn begins_with_unknown(code: u8, frame: &[u8]) -> bool {
    let list = list(code, frame);
    list.first().is_some_and(|tlv| tlv.part == Listed::Skipped)
}

/// The frame without its list, and without the zero that ends it: the list is then what
/// stands behind them.
pub fn without_end(code: u8, frame: &[u8]) -> Vec<u8> {
    let start = list_start(code).unwrap_or(frame.len());
    let end = list(code, frame).last().map_or(start, |last| last.next);
    let behind = frame.get(end + 1..).unwrap_or_default();
    [&frame[..start], behind].concat()
}

#[cfg(test)]
mod tests {
    use super::*;
    use crate::paper::tests::{frame, LOCAL};

    #[test]
    fn a_frame_shows_what_it_is_an_example_of() {
        let many = "03 02".repeat(101);
        for (body, expected) in [
            ("00 03 02", vec![Skipping::OneToFive]),
            ("01 0000 05 02", vec![Skipping::OneToFive]),
            (
                &format!("00 {}", "03 02".repeat(5)),
                vec![Skipping::OneToFive],
            ),
            (&format!("00 {}", "03 02".repeat(6)), vec![]),
            (&format!("00 {}", &many[5..]), vec![]),
            (&format!("00 {many}"), vec![Skipping::MoreThan100]),
            ("00 00 03 02", vec![Skipping::UnknownBehindEnd]),
            (
                &format!("00 {LOCAL} 00 03 02"),
                vec![Skipping::UnknownBehindEnd],
            ),
            (&format!("00 {LOCAL} 00 02 02"), vec![]),
            ("00 03 02 04 01", vec![Skipping::BrokenBehindOne]),
            ("00 04 01", vec![]),
            (
                &format!("00 03 02 {LOCAL} {LOCAL}"),
                vec![Skipping::SecondBehindOne],
            ),
            (&format!("00 {LOCAL} {LOCAL}"), vec![]),
            ("02 03 0200 00 03 02", vec![]),
            ("04 01 03 02", vec![]),
            ("05 03 02", vec![]),
        ] {
            assert_eq!(Skipping::of(&frame(body)), expected, "{body}");
        }
        for (start, most, which) in [
            ("00", 748, Skipping::All748),
            ("01 0000", 747, Skipping::All747),
        ] {
            let full = frame(&format!("{start} {}", "05 02".repeat(most)));
            assert_eq!(Skipping::of(&full), [Skipping::MoreThan100, which]);
        }
    }
}
