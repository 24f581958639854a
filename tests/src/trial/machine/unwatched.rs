//! States of watches that no calls make, made on purpose: every entry refuses each
//! of them, and takes it once its one fault is mended.

use super::played::Played;
use super::unmade::{all_refuse, lent, takes};
use crate::library::machine::{packed, Call, State};
use crate::paper::windows::{WatchNumbers, WindowNumbers};
use crate::random::Random;
use crate::trial::report::{Report, Tally};
use crate::trial::THIS_PACKAGE;

/// What is wrong with a watch, or with the end beside it.
#[derive(Clone, Copy, Debug, PartialEq, Eq, PartialOrd, Ord)]
pub enum WatchFault {
    FrameWindow9,
    FrameWindow601,
    FrameThreshold0,
    FrameWindowPast,
    FrameErrorsAtTheStart,
    SecondsWindow90,
    SecondsWindow9010,
    SecondsWindow105,
    SecondsThreshold0,
    SecondsWindowPast,
    SecondsErroredBeforeTheirEnd,
    BadIs2,
    BadBetweenSeconds,
    AnotherPhase,
}

impl WatchFault {
    const ALL: [WatchFault; 14] = [
        WatchFault::FrameWindow9,
        WatchFault::FrameWindow601,
        WatchFault::FrameThreshold0,
        WatchFault::FrameWindowPast,
        WatchFault::FrameErrorsAtTheStart,
        WatchFault::SecondsWindow90,
        WatchFault::SecondsWindow9010,
        WatchFault::SecondsWindow105,
        WatchFault::SecondsThreshold0,
        WatchFault::SecondsWindowPast,
        WatchFault::SecondsErroredBeforeTheirEnd,
        WatchFault::BadIs2,
        WatchFault::BadBetweenSeconds,
        WatchFault::AnotherPhase,
    ];

    /// Whether a watch at this phase of its second can have it, and no other.
    fn is_alone_at(self, phase: u64) -> bool {
        match self {
            WatchFault::BadIs2 => phase > 0,
            WatchFault::BadBetweenSeconds => phase == 0,
            _ => true,
        }
    }

    /// A watch like this one that has the fault, and the same with it mended: at the
    /// very edge of its range.
    fn befall(self, random: &mut Random, watch: &WatchNumbers) -> [WatchNumbers; 2] {
        let (mut faulty, mut mended) = (*watch, *watch);
        let phase = watch.phase();
        let last = watch.seconds.length - 10 + phase;
        let (frames, seconds) = (&mut faulty.frames, &mut faulty.seconds);
        let (right_frames, right_seconds) = (&mut mended.frames, &mut mended.seconds);
        match self {
            WatchFault::FrameWindow9 => {
                let at = random.below(9) as u64;
                *frames = within(watch.frames, 9, at);
                *right_frames = within(watch.frames, 10, at);
            }
            WatchFault::FrameWindow601 => (frames.length, right_frames.length) = (601, 600),
            WatchFault::FrameThreshold0 => (frames.threshold, right_frames.threshold) = (0, 1),
            WatchFault::FrameWindowPast => {
                (frames.at, right_frames.at) = (frames.length, frames.length - 1);
            }
            WatchFault::FrameErrorsAtTheStart => {
                (frames.at, right_frames.at) = (0, 0);
                (frames.errors, right_frames.errors) = (1, 0);
            }
            WatchFault::SecondsWindow90 => {
                let at = phase + 10 * random.below(9) as u64;
                *seconds = within(watch.seconds, 90, at);
                *right_seconds = within(watch.seconds, 100, at);
            }
            WatchFault::SecondsWindow9010 => {
                (seconds.length, right_seconds.length) = (9_010, 9_000)
            }
            WatchFault::SecondsWindow105 => {
                let at = phase + 10 * random.below(10) as u64;
                *seconds = within(watch.seconds, 105, at);
                *right_seconds = within(watch.seconds, 110, at);
            }
            WatchFault::SecondsThreshold0 => (seconds.threshold, right_seconds.threshold) = (0, 1),
            WatchFault::SecondsWindowPast => (seconds.at, right_seconds.at) = (last + 10, last),
            WatchFault::SecondsErroredBeforeTheirEnd => {
                let most = seconds.at / 10;
                (seconds.errors, right_seconds.errors) = (most + 1, most);
            }
            WatchFault::BadIs2 => (faulty.bad, mended.bad) = (2, 1),
            WatchFault::BadBetweenSeconds => (faulty.bad, mended.bad) = (1, 0),
            WatchFault::AnotherPhase => {
                let other = (phase + random.between(1, 9) as u64) % 10;
                seconds.at = seconds.at - phase + other;
                (faulty.bad, mended.bad) = (0, 0);
            }
        }
        [faulty, mended]
    }
}

/// A window of another length that has had no errors.
fn within(window: WindowNumbers, length: u64, at: u64) -> WindowNumbers {
    WindowNumbers {
        length,
        at,
        errors: 0,
        ..window
    }
}

pub struct Unwatched {
    states: Tally<WatchFault>,
    calls: Tally<&'static str>,
}

impl Unwatched {
    pub fn new() -> Self {
        Unwatched {
            states: Tally::expecting(WatchFault::ALL),
            calls: Tally::expecting(Call::NAMES),
        }
    }

    /// Gives the watch that a script has left two of the faults: between two seconds, which
    /// is seldom, the one that it can have only there.
    pub fn try_some(&mut self, random: &mut Random, played: &Played) -> Result<(), String> {
        let phase = played.bout.paper().watch.numbers().phase();
        let alone = |fault: &WatchFault| fault.is_alone_at(phase);
        let possible: Vec<WatchFault> = WatchFault::ALL.into_iter().filter(alone).collect();
        let first = match phase {
            0 => WatchFault::BadBetweenSeconds,
            _ => random.pick(&possible),
        };
        for fault in [first, random.pick(&possible)] {
            self.try_one(random, played, fault)?;
        }
        Ok(())
    }

    fn try_one(
        &mut self,
        random: &mut Random,
        played: &Played,
        fault: WatchFault,
    ) -> Result<(), String> {
        let State { end, watch } = played.bout.paper();
        let states = fault.befall(random, &watch.numbers());
        let [faulty, mended] = states.map(|watch| packed(end, &watch));
        let told = |difference: &str| format!("of {fault:?}, {:?}\n  {difference}", states[0]);
        if State::from_octets(&faulty).is_some() || State::from_octets(&mended).is_none() {
            return Err(told(THIS_PACKAGE));
        }
        self.states.count(fault);
        let faulty = lent(random, &faulty);
        all_refuse(played.library(), random, &faulty, &mut self.calls)
            .and_then(|()| takes(played.library(), random, &mended))
            .map_err(|difference| told(&difference))
    }

    pub fn report(&self, report: &mut Report) {
        report.add("watches that no calls make", &self.states, |fault| {
            format!("{fault:?}")
        });
        report.add("calls of those", &self.calls, |name| name.to_string());
    }
}
