//! The two windows over bad frames (change request (iii)): errored frames, and
//! errored frame seconds. A watch keeps every count that it was given, and what it
//! shows is summed over that list.

mod numbers;
mod series;

#[cfg(test)]
mod tests;

pub use numbers::{WatchNumbers, WindowNumbers, WATCH_NUMBERS};

use super::answer;
use super::message::Event;
use super::walk::EVENTS;
use super::write::fits;
use series::Series;
use std::ops::RangeInclusive;

/// The types of the two events.
pub const FRAME: u8 = 2;
pub const FRAME_SECONDS: u8 = 4;

/// "errored frames (10 to 600 ticks)".
pub const FRAME_WINDOWS: RangeInclusive<u64> = 10..=600;
/// "errored frame seconds (100 to 9,000 ticks, a multiple of 10)".
pub const SECONDS_WINDOWS: RangeInclusive<u64> = 100..=9_000;
/// The ticks of a second.
const SECOND: u64 = 10;

/// Windows and thresholds as a caller gives them; they need not be in range.
#[derive(Clone, Copy, Debug, PartialEq, Eq)]
pub struct Windows {
    /// In ticks, as both windows are.
    pub frame_window: u64,
    pub frame_threshold: u64,
    pub seconds_window: u64,
    pub seconds_threshold: u64,
}

impl Windows {
    /// "another window, or a threshold of 0 or beyond its field, is 10".
    pub fn are_in_range(&self) -> bool {
        let is_threshold = |number: u64, kind: u8| {
            let (_, [_, _, width, ..]) = row(kind);
            number > 0 && fits(number, 8 * width as u32)
        };
        FRAME_WINDOWS.contains(&self.frame_window)
            && is_threshold(self.frame_threshold, FRAME)
            && SECONDS_WINDOWS.contains(&self.seconds_window)
            && self.seconds_window.is_multiple_of(SECOND)
            && is_threshold(self.seconds_threshold, FRAME_SECONDS)
    }
}

/// The counts of an end's ticks, and what they come to.
#[derive(Clone, Debug)]
pub struct Watch {
    /// What stood before the first count: at a fresh end nothing.
    given: WatchNumbers,
    /// The counts, one a tick.
    frames: Series,
    /// The seconds that have ended: 1 where one was errored, else 0.
    seconds: Series,
}

impl Watch {
    /// The watch of a fresh end, or 10 for windows out of range.
    pub fn fresh(windows: &Windows) -> Result<Self, u8> {
        match windows.are_in_range() {
            true => Ok(Watch::given(&WatchNumbers::fresh(windows))),
            false => Err(answer::VALUES),
        }
    }

    /// A watch that stands so, whatever may have led to it.
    pub fn given(numbers: &WatchNumbers) -> Self {
        let WatchNumbers {
            frames, seconds, ..
        } = *numbers;
        let in_seconds = WindowNumbers {
            length: seconds.length / SECOND,
            at: seconds.at / SECOND,
            ..seconds
        };
        Watch {
            given: *numbers,
            frames: Series::behind(frames),
            seconds: Series::behind(in_seconds),
        }
    }

    /// Takes a tick's count, and gives the events that arise, frames first.
    pub fn take(&mut self, count: u64) -> Vec<Event> {
        let mut arisen = Vec::new();
        if let Some(errors) = self.frames.push(count) {
            let length = self.given.frames.length;
            arisen.push(self.event(FRAME, &self.frames, length, errors));
        }
        if self.phase() == 0 {
            let errored = self.has_bad_frame(SECOND);
            if let Some(errors) = self.seconds.push(errored.into()) {
                let length = self.given.seconds.length;
                arisen.push(self.event(FRAME_SECONDS, &self.seconds, length, errors));
            }
        }
        arisen
    }

    /// An event of the window that has just ended.
    fn event(&self, kind: u8, series: &Series, length: u64, errors: u128) -> Event {
        let (_, [timestamp, .., event_total]) = row(kind);
        Event {
            kind,
            values: [
                wrapped(self.ticks(), timestamp),
                length,
                series.threshold(),
                errors_shown(kind, errors),
                total_shown(kind, series.total()),
                wrapped(series.events(), event_total),
            ],
        }
    }

    /// Ticks since fresh, or since a multiple of 65,536 of them.
    fn ticks(&self) -> u128 {
        u128::from(self.given.stamp) + self.frames.len() as u128
    }

    /// Ticks of the second that has not ended.
    fn phase(&self) -> u64 {
        (self.given.seconds.at + self.frames.len()) % SECOND
    }

    /// "Seconds run from fresh, and one with a bad frame is errored": whether one of
    /// the last ticks, all of one second, had a bad frame.
    fn has_bad_frame(&self, ticks: u64) -> bool {
        let bad_before = ticks > self.frames.len() && self.given.bad == 1;
        let mut counts = self.frames.last(ticks).iter();
        bad_before || counts.any(|&count| count > 0)
    }

    /// All that the watch stands at.
    pub fn numbers(&self) -> WatchNumbers {
        let WatchNumbers {
            frames, seconds, ..
        } = self.given;
        let ticks = self.frames.len();
        let (_, [timestamp, ..]) = row(FRAME);
        WatchNumbers {
            frames: WindowNumbers {
                at: (frames.at + ticks) % frames.length,
                ..summed(FRAME, &self.frames, frames)
            },
            seconds: WindowNumbers {
                at: (seconds.at + ticks) % seconds.length,
                ..summed(FRAME_SECONDS, &self.seconds, seconds)
            },
            stamp: wrapped(self.ticks(), timestamp),
            bad: self.has_bad_frame(self.phase()).into(),
        }
    }
}

/// A window's sums, beside what of it does not change.
fn summed(kind: u8, series: &Series, given: WindowNumbers) -> WindowNumbers {
    let (_, [.., event_total]) = row(kind);
    WindowNumbers {
        errors: errors_shown(kind, series.errors()),
        total: total_shown(kind, series.total()),
        events: wrapped(series.events(), event_total),
        ..given
    }
}

/// The row of an event type in the paper's table.
fn row(kind: u8) -> (usize, [usize; 6]) {
    EVENTS[usize::from(kind) - 1]
}

/// "errors too many for theirs show its largest value".
fn errors_shown(kind: u8, errors: u128) -> u64 {
    let (_, [_, _, _, width, ..]) = row(kind);
    errors.min(u128::from(largest(width))) as u64
}

fn total_shown(kind: u8, total: u128) -> u64 {
    let (_, [.., width, _]) = row(kind);
    wrapped(total, width)
}

/// "They wrap at their field's width".
fn wrapped(number: u128, width: usize) -> u64 {
    number as u64 & largest(width)
}

/// The largest number of so many octets.
fn largest(width: usize) -> u64 {
    u64::MAX >> (64 - 8 * width)
}
