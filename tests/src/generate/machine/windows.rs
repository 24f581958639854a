//! Windows in range, and scripts of windows: sums just below, at and above their
//! threshold, a bad frame at each tick of two seconds, both windows ending at one
//! tick, more errors than a field holds, refused ticks, and a link that is down or up.

use super::directed::{reported, settings, with_room, Directed};
use crate::library::machine::{Call, Setup, Turn, ARISEN};
use crate::paper::machine::{configuration, Report};
use crate::paper::windows::{Windows, FRAME_WINDOWS, SECONDS_WINDOWS};
use crate::paper::SHORTEST;
use crate::random::Random;
use std::ops::RangeInclusive;

/// The largest thresholds.
const MOST_FRAMES: u64 = u32::MAX as u64;
const MOST_SECONDS: u64 = u16::MAX as u64;
/// The ticks of a second.
const SECOND: u64 = 10;

/// Windows in range, often the shortest or the longest.
pub fn any_windows(random: &mut Random) -> Windows {
    let frames = random.below(4);
    let seconds = random.below(4);
    let thresholds = (random.below(4), random.below(4));
    windows_of(random, (frames, thresholds.0), (seconds, thresholds.1))
}

/// As many windows, of every sort in turn.
pub fn windows_of_every_sort(random: &mut Random, count: usize) -> Vec<Windows> {
    let each = |place: usize| {
        let sorts = [place, place / 4, place / 16, place / 64].map(|sort| sort % 4);
        windows_of(random, (sorts[0], sorts[1]), (sorts[2], sorts[3]))
    };
    (0..count).map(each).collect()
}

/// The sorts, 0 to 3, of a window and of its threshold, first of frames.
fn windows_of(random: &mut Random, frames: (usize, usize), seconds: (usize, usize)) -> Windows {
    let in_seconds = SECONDS_WINDOWS.start() / SECOND..=SECONDS_WINDOWS.end() / SECOND;
    Windows {
        frame_window: match frames.0 {
            0 => *FRAME_WINDOWS.start(),
            1 => *FRAME_WINDOWS.end(),
            2 => random.pick(&[11, 20, 25, 50, 100]),
            _ => within(random, FRAME_WINDOWS),
        },
        frame_threshold: match frames.1 {
            0 => 1,
            1 => MOST_FRAMES,
            2 => within(random, 2..=20),
            _ => within(random, 1..=MOST_FRAMES),
        },
        seconds_window: match seconds.0 {
            0 => *SECONDS_WINDOWS.start(),
            1 => SECONDS_WINDOWS.start() + SECOND,
            2 => *SECONDS_WINDOWS.end(),
            _ => SECOND * within(random, in_seconds),
        },
        seconds_threshold: match seconds.1 {
            0 => 1,
            1 => within(random, 2..=9),
            2 => MOST_SECONDS,
            _ => within(random, 1..=MOST_SECONDS),
        },
    }
}

fn within(random: &mut Random, range: RangeInclusive<u64>) -> u64 {
    random.between(*range.start() as usize, *range.end() as usize) as u64
}

pub fn windows_scripts() -> Vec<Directed> {
    let mut scripts = Vec::new();
    for sum in [2, 3, 4] {
        let counts = [&[1, 0, 0, 0, 0, 0, 0, 0, 0, sum - 1][..], &[0; 10]].concat();
        scripts.push(script((10, 3), (100, 1), &counts));
    }
    for tick in 0..2 * SECOND as usize {
        let mut counts = [0; 100];
        counts[tick] = 1;
        scripts.push(script((10, 1), (100, 1), &counts));
        scripts.push(script((600, 1), (100, 2), &[counts, [1; 100]].concat()));
    }
    scripts.push(script((10, 1), (100, 1), &[1; 200]));
    scripts.push(script((11, 11), (110, 11), &[1; 220]));
    for count in [MOST_FRAMES - 1, MOST_FRAMES, MOST_FRAMES + 1, u64::MAX] {
        for threshold in [1, MOST_FRAMES] {
            let counts = [&[count, 1, 0][..], &[0; 7], &[0, 0, count], &[0; 7]].concat();
            scripts.push(script((10, threshold), (100, 1), &counts));
        }
    }
    scripts.push(with_refused_ticks());
    scripts.push(with_the_link_down_and_up());
    scripts
}

/// Windows and thresholds, first of frames, and a tick for each count.
fn script(frames: (u64, u64), seconds: (u64, u64), counts: &[u64]) -> Directed {
    let ticks = counts.iter().map(|&count| Call::Tick(count)).collect();
    (setup(frames, seconds), with_room(ticks))
}

fn setup(frames: (u64, u64), seconds: (u64, u64)) -> Setup {
    Setup {
        settings: settings(configuration::ACTIVE),
        windows: Windows {
            frame_window: frames.0,
            frame_threshold: frames.1,
            seconds_window: seconds.0,
            seconds_threshold: seconds.1,
        },
    }
}

/// Before each tick some that are refused for their room, with counts of their own.
fn with_refused_ticks() -> Directed {
    let refused = |numbers, out| Turn {
        call: Call::Tick(7),
        numbers,
        out,
    };
    let each = |_| {
        [
            refused(ARISEN - 1, SHORTEST),
            refused(ARISEN, SHORTEST - 1),
            refused(0, 0),
            Turn::with_room(Call::Tick(1)),
        ]
    };
    (
        setup((10, 10), (100, 10)),
        (0..100).flat_map(each).collect(),
    )
}

/// The link changes within windows and seconds.
fn with_the_link_down_and_up() -> Directed {
    let mut calls = Vec::new();
    for (place, count) in (0..200).zip([0, 1, 2].into_iter().cycle()) {
        match place % 46 {
            7 => calls.push(reported(Report::LinkUp)),
            30 => calls.push(reported(Report::LinkDown)),
            _ => {}
        }
        calls.push(Call::Tick(count));
    }
    (setup((10, 1), (100, 1)), with_room(calls))
}
