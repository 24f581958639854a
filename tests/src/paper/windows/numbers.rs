//! The numbers in which a watch is packed and shown, and those that calls can lead
//! to.

use super::{fits, Windows, SECOND};

/// How many they are.
pub const WATCH_NUMBERS: usize = 14;

/// Where one of the two windows stands.
#[derive(Clone, Copy, Debug, PartialEq, Eq)]
pub struct WindowNumbers {
    pub length: u64,
    pub threshold: u64,
    /// Ticks of the window that has not ended.
    pub at: u64,
    /// Its errors so far, or the most that are shown.
    pub errors: u64,
    /// The error total.
    pub total: u64,
    /// The event total.
    pub events: u64,
}

#[derive(Clone, Copy, Debug, PartialEq, Eq)]
pub struct WatchNumbers {
    pub frames: WindowNumbers,
    pub seconds: WindowNumbers,
    /// Ticks since fresh modulo 65,536.
    pub stamp: u64,
    /// 1 where the second that has not ended has a bad frame.
    pub bad: u64,
}

impl WindowNumbers {
    fn fresh(length: u64, threshold: u64) -> Self {
        WindowNumbers::from_list([length, threshold, 0, 0, 0, 0])
    }

    /// As they are packed.
    fn listed(&self) -> [u64; 6] {
        let WindowNumbers {
            length,
            threshold,
            at,
            errors,
            total,
            events,
        } = *self;
        [length, threshold, at, errors, total, events]
    }

    fn from_list([length, threshold, at, errors, total, events]: [u64; 6]) -> Self {
        WindowNumbers {
            length,
            threshold,
            at,
            errors,
            total,
            events,
        }
    }
}

impl WatchNumbers {
    pub fn fresh(windows: &Windows) -> Self {
        WatchNumbers {
            frames: WindowNumbers::fresh(windows.frame_window, windows.frame_threshold),
            seconds: WindowNumbers::fresh(windows.seconds_window, windows.seconds_threshold),
            stamp: 0,
            bad: 0,
        }
    }

    pub fn windows(&self) -> Windows {
        Windows {
            frame_window: self.frames.length,
            frame_threshold: self.frames.threshold,
            seconds_window: self.seconds.length,
            seconds_threshold: self.seconds.threshold,
        }
    }

    /// Ticks of the second that has not ended.
    pub fn phase(&self) -> u64 {
        self.seconds.at % SECOND
    }

    /// Each within its width, the windows in range, and the rest such that calls can
    /// lead to it: a window that has just begun has no errors, a second is errored
    /// once it has ended, and one that has just begun has no bad frame.
    pub fn are_in_range(&self) -> bool {
        let WatchNumbers {
            frames, seconds, ..
        } = self;
        let within_widths = fits(frames.errors, 32)
            && fits(frames.events, 32)
            && fits(seconds.total, 32)
            && fits(seconds.events, 32)
            && fits(self.stamp, 16)
            && fits(self.bad, 1);
        within_widths
            && self.windows().are_in_range()
            && frames.at < frames.length
            && (frames.at > 0 || frames.errors == 0)
            && seconds.at < seconds.length
            && seconds.errors <= seconds.at / SECOND
            && (self.phase() > 0 || self.bad == 0)
    }

    /// The order in which they are packed: the frames' window, the seconds', stamp
    /// and bad.
    pub fn packed(&self) -> [u64; WATCH_NUMBERS] {
        let [a, b, c, d, e, f] = self.frames.listed();
        let [g, h, i, j, k, l] = self.seconds.listed();
        [a, b, c, d, e, f, g, h, i, j, k, l, self.stamp, self.bad]
    }

    pub fn from_packed(numbers: &[u64; WATCH_NUMBERS]) -> Self {
        let [a, b, c, d, e, f, g, h, i, j, k, l, stamp, bad] = *numbers;
        WatchNumbers {
            frames: WindowNumbers::from_list([a, b, c, d, e, f]),
            seconds: WindowNumbers::from_list([g, h, i, j, k, l]),
            stamp,
            bad,
        }
    }

    /// The order in which they are shown: the four settings, then what is left of
    /// the frames' window and of the seconds', stamp and bad.
    pub fn shown(&self) -> [u64; WATCH_NUMBERS] {
        let packed = self.packed();
        SHOWN.map(|place| packed[place])
    }

    pub fn from_shown(shown: &[u64; WATCH_NUMBERS]) -> Self {
        let mut packed = [0; WATCH_NUMBERS];
        for (place, number) in SHOWN.into_iter().zip(shown) {
            packed[place] = *number;
        }
        WatchNumbers::from_packed(&packed)
    }
}

/// For each number that is shown, its place among those that are packed.
const SHOWN: [usize; WATCH_NUMBERS] = [0, 1, 6, 7, 2, 3, 4, 5, 8, 9, 10, 11, 12, 13];
