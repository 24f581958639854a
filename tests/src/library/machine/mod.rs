//! The archive's functions for the link machine, with slices in the place of
//! pointers and lengths. A state lives in octets that the caller lends, the end's
//! numbers one after another and the watch's behind them (docs/DECISIONS.md).

#[cfg(feature = "archive")]
mod archive;
mod by_paper;
mod call;
mod state;
mod turn;

pub use call::{Call, Response};
pub use state::{pack_watch, packed, watch_in, State, SHOWN_NUMBERS};
pub use turn::Turn;

use crate::library::HEADER;
use crate::paper::machine::Settings;
use crate::paper::windows::Windows;
use crate::paper::NUMBERS;

/// Octets of a state: an end's, and those of the watch behind them.
pub const STATE_OCTETS: usize = END_OCTETS + 43;
pub const END_OCTETS: usize = 53;
/// Values that an accepted frame stores: those of a header that is read, but that no
/// number stands at the fourth place unless it is one of new events.
pub const RECEIVED: usize = HEADER;
/// Values of the most events that arise at a tick: one of each window.
pub const ARISEN: usize = 2 * NUMBERS;

/// What a fresh end is given; it need not be in range.
#[derive(Clone, Copy, Debug, PartialEq, Eq)]
pub struct Setup {
    pub settings: Settings,
    pub windows: Windows,
}

/// A library's link machine. What was lent stays as it was on every refusal.
pub trait Machine {
    /// Stores the state of a fresh end: 0, or 10 for settings or windows out of range
    /// or a state of another length.
    fn fresh(&self, setup: &Setup, state: &mut [u8]) -> u64;

    /// Makes a call, and gives its outcome. A state that is none is 10 alone; then
    /// a report that is none is 10, and too few numbers, for a frame's header or for
    /// a tick's events, are 9. The other calls are lent no numbers.
    fn call(&self, call: &Call, numbers: &mut [u64], state: &mut [u8], out: &mut [u8]) -> u64;

    /// Stores a state's numbers: 0, or 10 for a state that is none, then 9 for too
    /// little room.
    fn show(&self, state: &[u8], numbers: &mut [u64]) -> u64;
}

/// A call's outcome taken apart.
#[derive(Clone, Copy, Debug, PartialEq, Eq)]
pub struct Outcome {
    pub answer: u8,
    /// Octets written.
    pub length: usize,
    /// The State octet after the call.
    pub octet: u8,
    /// What is shown: nothing, the frame, or new events.
    pub shown: u8,
    /// Events that have arisen.
    pub arisen: usize,
    /// Bits that have no meaning.
    pub above: u64,
}

impl Outcome {
    pub fn of(number: u64) -> Self {
        Outcome {
            answer: number as u8,
            length: (number >> 8) as u32 as usize,
            octet: (number >> 40) as u8,
            shown: (number >> 48 & 0b11) as u8,
            arisen: (number >> 50 & 0b11) as usize,
            above: number >> 52,
        }
    }
}

#[cfg(test)]
mod tests {
    use super::*;

    #[test]
    fn an_outcome_has_its_fields_at_their_bits() {
        let outcome = Outcome {
            answer: 0x0D,
            length: 0x0102_0304,
            octet: 0x06,
            shown: 2,
            arisen: 1,
            above: 0xFFF,
        };
        assert_eq!(Outcome::of(0xFFF6_0601_0203_040D), outcome);
    }
}
