//! Slips in the limit of ten frames over eleven tick intervals.

use super::Slip;
use crate::library::machine::{self, Call, STATE_OCTETS};
use crate::paper::machine::{End, MOST_FRAMES, SECOND, STRETCH};
use crate::paper::windows::WatchNumbers;
use crate::trial::machine::damaged::{BIT_44, INTERVALS_AT, TICKS_AT};

type Intervals = [u8; STRETCH];

/// Alters what the paper's machine is given. Of twelve intervals the oldest has
/// `twelfth` frames.
pub fn prepare(slip: Slip, twelfth: u8, call: &Call, end: &mut End) {
    let requested = |written| call.is_request() && end.written() == written;
    match slip {
        Slip::NineFrames if requested(MOST_FRAMES - 1) => end.intervals[0] += 1,
        Slip::ElevenFrames if requested(MOST_FRAMES) => take_one(&mut end.intervals),
        _ if call.is_tick() && is_in_limit(slip) => gather(slip, end),
        Slip::TwelveIntervals => {
            end.intervals[STRETCH - 1] += twelfth.min(MOST_FRAMES - end.written());
        }
        _ => {}
    }
}

/// Puts as many frames in one interval as the slip counts beside a tick's own.
fn gather(slip: Slip, end: &mut End) {
    let mut counted = sum(&opened(slip, end));
    if slip == Slip::TwelveIntervals {
        counted += oldest(end);
    }
    end.intervals = [0; STRETCH];
    end.intervals[0] = counted;
}

/// Alters what an accepted call of an end that was given so leaves.
pub fn accepted(slip: Slip, before: &End, given: &End, call: &Call, after: &mut End) {
    if call.is_tick() && is_in_limit(slip) {
        ticked(slip, before, after);
    } else if slip == Slip::TwelveIntervals {
        after.intervals[STRETCH - 1] -= oldest(given) - oldest(before);
    }
}

fn ticked(slip: Slip, before: &End, after: &mut End) {
    let wrote = after.intervals[0];
    after.intervals = match slip {
        Slip::DueWrittenAsEleventh if wrote == 0 => turned(&before.intervals),
        _ => opened(slip, before),
    };
    let place = usize::from(slip == Slip::TicksFrameInTheIntervalBefore);
    after.intervals[place] += wrote;
    if slip == Slip::DueLostWhereFull && after.ticks == 0 && wrote == 0 {
        after.owed = before.owed && after.owed;
    }
}

fn is_in_limit(slip: Slip) -> bool {
    Slip::in_limit().any(|other| other == slip)
}

/// The intervals that a tick opens, without its own frame.
fn opened(slip: Slip, before: &End) -> Intervals {
    let mut intervals = turned(&before.intervals);
    let due = before.ticks + 1 == SECOND;
    match slip {
        Slip::TimerSecond if due => [0; STRETCH],
        Slip::TenIntervals => {
            intervals[STRETCH - 1] = 0;
            intervals
        }
        Slip::LinkDownTicksOpenNone if !before.link_up => before.intervals,
        Slip::DueWrittenAsEleventh if due && sum(&intervals) == MOST_FRAMES => {
            take_one(&mut intervals);
            intervals
        }
        _ => intervals,
    }
}

/// The intervals behind a tick that writes nothing.
pub fn turned(intervals: &Intervals) -> Intervals {
    let mut turned = *intervals;
    turned.rotate_right(1);
    turned[0] = 0;
    turned
}

/// Takes away one of the oldest frames.
fn take_one(intervals: &mut Intervals) {
    if let Some(frames) = intervals.iter_mut().rfind(|frames| **frames > 0) {
        *frames -= 1;
    }
}

/// Makes a state of octets that the slip takes for one.
pub fn mend(slip: Slip, state: &mut [u8]) {
    match slip {
        Slip::TakesTenTicks if state[TICKS_AT] == SECOND => state[TICKS_AT] -= 1,
        Slip::TakesElevenFrames => mend_eleven(&mut state[INTERVALS_AT]),
        Slip::TakesBit44 => state[INTERVALS_AT.start] &= !BIT_44,
        Slip::IntervalsLittleEndian => state[INTERVALS_AT].reverse(),
        _ => {}
    }
}

/// The octets in which an end is stored, and a watch.
pub fn packed(slip: Slip, end: &End, watch: &WatchNumbers) -> [u8; STATE_OCTETS] {
    let mut state = machine::packed(end, watch);
    if slip == Slip::IntervalsLittleEndian {
        state[INTERVALS_AT].reverse();
    }
    state
}

/// Takes one frame away from intervals that have eleven.
fn mend_eleven(packed: &mut [u8]) {
    let frames: u8 = packed.iter().map(|two| two / 16 + two % 16).sum();
    if frames == MOST_FRAMES + 1 {
        let two = packed.iter_mut().find(|two| **two > 0);
        let two = two.expect("an octet with frames");
        *two -= if *two % 16 == 0 { 16 } else { 1 };
    }
}

pub fn oldest(end: &End) -> u8 {
    end.intervals[STRETCH - 1]
}

fn sum(intervals: &Intervals) -> u8 {
    intervals.iter().sum()
}
