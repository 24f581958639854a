//! The two windows with running sums, as one writes them by hand: what a tick's count
//! costs is measured beside it. No count is kept.

use crate::paper::windows::{WatchNumbers, WindowNumbers, FRAME, FRAME_SECONDS};
use crate::paper::NUMBERS;

const SECOND: u16 = 10;

#[derive(Clone, Copy, Debug, PartialEq, Eq)]
pub struct Watch {
    frames: Window,
    seconds: Window,
    stamp: u16,
    /// The second that has not ended has a bad frame.
    bad: bool,
}

#[derive(Clone, Copy, Debug, PartialEq, Eq)]
struct Window {
    length: u16,
    threshold: u32,
    at: u16,
    errors: u32,
    total: u64,
    events: u32,
}

impl Watch {
    /// A watch that stands at numbers in range.
    pub fn at(numbers: &WatchNumbers) -> Self {
        Watch {
            frames: Window::at(&numbers.frames),
            seconds: Window::at(&numbers.seconds),
            stamp: numbers.stamp as u16,
            bad: numbers.bad == 1,
        }
    }

    /// Takes a tick's count, stores the events that arise from the start of `events`,
    /// and gives their number.
    pub fn take(&mut self, count: u64, events: &mut [u64; 2 * NUMBERS]) -> usize {
        self.stamp = self.stamp.wrapping_add(1);
        self.bad |= count > 0;
        let closes = (self.seconds.at + 1).is_multiple_of(SECOND);
        let errored = closes && self.bad;
        self.bad &= !closes;
        let frames = self.frames.add(count, u64::MAX);
        let seconds = self.seconds.add(errored.into(), u32::MAX.into());
        let mut arisen = 0;
        for (kind, values) in [(FRAME, frames), (FRAME_SECONDS, seconds)] {
            if let Some([window, threshold, errors, error_total, event_total]) = values {
                events[NUMBERS * arisen..][..NUMBERS].copy_from_slice(&[
                    kind.into(),
                    self.stamp.into(),
                    window,
                    threshold,
                    errors,
                    error_total,
                    event_total,
                ]);
                arisen += 1;
            }
        }
        arisen
    }
}

impl Window {
    fn at(numbers: &WindowNumbers) -> Self {
        Window {
            length: numbers.length as u16,
            threshold: numbers.threshold as u32,
            at: numbers.at as u16,
            errors: numbers.errors as u32,
            total: numbers.total,
            events: numbers.events as u32,
        }
    }

    /// Adds a tick's errors, the total within `field`. Where that ends the window and
    /// the threshold is reached, the event's numbers behind its timestamp.
    #[inline(always)]
    fn add(&mut self, errors: u64, field: u64) -> Option<[u64; 5]> {
        let most = u32::try_from(errors).unwrap_or(u32::MAX);
        self.errors = self.errors.saturating_add(most);
        self.total = self.total.wrapping_add(errors) & field;
        self.at += 1;
        if self.at < self.length {
            return None;
        }
        let errors = self.errors;
        (self.at, self.errors) = (0, 0);
        if errors < self.threshold {
            return None;
        }
        self.events = self.events.wrapping_add(1);
        Some([
            self.length.into(),
            self.threshold.into(),
            errors.into(),
            self.total,
            self.events.into(),
        ])
    }
}

#[cfg(test)]
mod tests {
    use super::*;
    use crate::generate::machine::{windows_of_every_sort, Counts};
    use crate::paper::windows;
    use crate::random::Random;

    #[test]
    fn running_sums_are_those_of_the_whole_history() {
        let mut random = Random::new(6);
        for windows in windows_of_every_sort(&mut random, 100) {
            let mut paper = windows::Watch::fresh(&windows).expect("in range");
            let mut watch = Watch::at(&paper.numbers());
            let mut counts = Counts::default();
            for _ in 0..1_000 {
                let count = counts.next(&mut random);
                let mut events = [0; 2 * NUMBERS];
                let arisen = watch.take(count, &mut events);
                let expected = paper.take(count);
                let expected: Vec<u64> = expected.iter().flat_map(|e| e.numbers()).collect();
                assert_eq!(events[..NUMBERS * arisen], expected);
                assert_eq!(watch, Watch::at(&paper.numbers()));
            }
        }
    }
}
