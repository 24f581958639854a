//! Slips in the windows over bad frames.

use super::Slip;
use crate::library::machine::{pack_watch, watch_in, Call, Outcome, State, ARISEN, STATE_OCTETS};
use crate::paper::machine::Report;
use crate::paper::windows::{
    Watch, WatchNumbers, WindowNumbers, Windows, FRAME, FRAME_SECONDS, FRAME_WINDOWS,
};
use crate::paper::{answer, NUMBERS};
use crate::trial::machine::damaged::TICKS_AT;

/// The largest number of a frame window's errors.
const MOST_ERRORS: u64 = u32::MAX as u64;

/// A tick that was accepted: the watch before and after it, and what arose.
struct Ticked {
    before: WatchNumbers,
    after: WatchNumbers,
    count: u64,
    events: Vec<[u64; NUMBERS]>,
}

/// Makes windows in range of those that the slip takes.
pub fn set_up(slip: Slip, windows: &mut Windows) {
    let thresholds = [
        (&mut windows.frame_threshold, u64::from(u32::MAX)),
        (&mut windows.seconds_threshold, u64::from(u16::MAX)),
    ];
    for (threshold, largest) in thresholds {
        match slip {
            Slip::TakesThreshold0 if *threshold == 0 => *threshold = 1,
            Slip::TakesThresholdsBeyond if *threshold > largest => *threshold = largest,
            _ => {}
        }
    }
    match slip {
        Slip::TakesWindow9 if windows.frame_window == 9 => windows.frame_window += 1,
        Slip::TakesWindow601 if windows.frame_window == FRAME_WINDOWS.end() + 1 => {
            windows.frame_window -= 1;
        }
        Slip::TakesWindow105 if windows.seconds_window == 105 => windows.seconds_window = 100,
        _ => {}
    }
}

/// Makes a state of octets that the slip takes for one.
pub fn mend(slip: Slip, state: &mut [u8; STATE_OCTETS]) {
    let mut watch = watch_in(state);
    let (frames, seconds) = (&mut watch.frames, &mut watch.seconds);
    match slip {
        Slip::TakesFullWindows if frames.at == frames.length => frames.at -= 1,
        Slip::TakesErrorsAtTheStart if frames.at == 0 => frames.errors = 0,
        Slip::TakesBadBetweenSeconds if seconds.at % 10 == 0 => watch.bad &= !1,
        Slip::TakesAnotherPhase => {
            seconds.at = seconds.at / 10 * 10 + u64::from(state[TICKS_AT]);
        }
        _ => return,
    }
    pack_watch(&watch, state);
}

/// Makes a call of the paper's machine, and alters what becomes of its watch.
pub fn called(
    slip: Slip,
    state: &mut State,
    call: &Call,
    numbers: &mut [u64],
    out: &mut [u8],
    watch: &mut WatchNumbers,
) -> u64 {
    let link_up = state.end.link_up;
    let mut stored = numbers.to_vec();
    if slip == Slip::ThirteenNumbersTaken && stored.len() == ARISEN - 1 {
        stored.push(0);
    }
    let outcome = state.call(call, &mut stored, out);
    let Outcome { answer, arisen, .. } = Outcome::of(outcome);
    match (call, answer) {
        (Call::Tick(count), answer::ACCEPTED) => {
            let events = stored[..NUMBERS * arisen].chunks_exact(NUMBERS);
            let mut ticked = Ticked {
                before: *watch,
                after: state.watch.numbers(),
                count: *count,
                events: events
                    .map(|event| event.try_into().expect("seven"))
                    .collect(),
            };
            ticked.alter(slip, link_up);
            ticked.store(slip, numbers);
            *watch = ticked.after;
            outcome & !(0b11 << 50) | ticked.told(slip) << 50
        }
        (Call::Tick(count), _) => {
            if slip == Slip::RefusedTickTakesItsCount {
                watch.frames.total = watch.frames.total.wrapping_add(*count);
            }
            if slip == Slip::RefusalStoresEvents {
                numbers.fill(0);
            }
            outcome
        }
        (Call::Report(report), answer::ACCEPTED) if slip == Slip::LinkUpBeginsWindowsAnew => {
            if !link_up && *report == Report::LinkUp as u8 {
                watch.frames = WatchNumbers::fresh(&watch.windows()).frames;
            }
            outcome
        }
        _ => {
            let count = numbers.len();
            numbers.copy_from_slice(&stored[..count]);
            outcome
        }
    }
}

/// What the paper's watch makes of a count.
fn taken(watch: &WatchNumbers, count: u64) -> (WatchNumbers, Vec<[u64; NUMBERS]>) {
    let mut watch = Watch::given(watch);
    let events = watch.take(count);
    let events = events.iter().map(|event| event.numbers());
    (watch.numbers(), events.collect())
}

impl Ticked {
    fn alter(&mut self, slip: Slip, link_up: bool) {
        match slip {
            Slip::AboveThresholdOnly => {
                self.keep(|[_, _, _, threshold, errors, ..]| errors > threshold)
            }
            Slip::TotalNotGrown => self.set_totals(|before, _, _| before.total),
            Slip::TotalsOfEventsOnly => self.set_totals(|before, _, event| {
                let errors = event.map_or(0, |event| event[4]);
                before.total.wrapping_add(errors)
            }),
            Slip::ErrorTotalsStop => self.set_totals(|before, after, _| {
                let wrapped = after.total < before.total;
                if wrapped {
                    before.total
                } else {
                    after.total
                }
            }),
            Slip::ItselfNotCounted => self.each(|event| event[6] = event[6].wrapping_sub(1)),
            Slip::TimestampBeforeTheTick => self.each(|event| event[1] = event[1].wrapping_sub(1)),
            Slip::EventTotalsStop => self.stop_event_totals(),
            Slip::SecondFromNextTick => self.close_second_without_its_tick(),
            Slip::CutOneLess => self.set_errors(|errors| errors.min(MOST_ERRORS - 1)),
            Slip::ErrorsThatWrap => self.wrap_errors(),
            Slip::WindowOneLonger => self.lengthen(),
            Slip::WindowsStopWithTheLinkDown if !link_up => {
                self.keep(|[kind, ..]| kind != FRAME.into());
                self.after.frames = self.before.frames;
            }
            Slip::Type4First => self.events.reverse(),
            _ => {}
        }
    }

    /// Leaves out events, which are not counted then.
    fn keep(&mut self, keeps: impl Fn([u64; NUMBERS]) -> bool) {
        for event in std::mem::take(&mut self.events) {
            if keeps(event) {
                self.events.push(event);
            } else {
                let (before, after) = self.window(event[0]);
                after.events = before.events;
            }
        }
    }

    /// Where the window of an event type stood before, and stands.
    fn window(&mut self, kind: u64) -> (WindowNumbers, &mut WindowNumbers) {
        match kind == u64::from(FRAME) {
            true => (self.before.frames, &mut self.after.frames),
            false => (self.before.seconds, &mut self.after.seconds),
        }
    }

    fn each(&mut self, alter: impl Fn(&mut [u64; NUMBERS])) {
        self.events.iter_mut().for_each(alter);
    }

    /// Gives both windows another error total.
    fn set_totals(
        &mut self,
        total: impl Fn(&WindowNumbers, &WindowNumbers, Option<[u64; NUMBERS]>) -> u64,
    ) {
        for kind in [FRAME, FRAME_SECONDS].map(u64::from) {
            let place = self.events.iter().position(|event| event[0] == kind);
            let event = place.map(|place| self.events[place]);
            let (before, after) = self.window(kind);
            let total = total(&before, after, event);
            after.total = total;
            if let Some(place) = place {
                self.events[place][5] = total;
            }
        }
    }

    fn stop_event_totals(&mut self) {
        for event in &mut self.events {
            if event[6] == 0 {
                event[6] = u32::MAX.into();
            }
        }
        for kind in [FRAME, FRAME_SECONDS].map(u64::from) {
            let (before, after) = self.window(kind);
            after.events = after.events.max(before.events);
        }
    }

    /// Alters the frame window's errors, as they are kept and shown.
    fn set_errors(&mut self, errors: impl Fn(u64) -> u64) {
        self.after.frames.errors = errors(self.after.frames.errors);
        for event in &mut self.events {
            if event[0] == FRAME.into() {
                event[4] = errors(event[4]);
            }
        }
    }

    fn wrap_errors(&mut self) {
        let sum = self.before.frames.errors.wrapping_add(self.count) & MOST_ERRORS;
        match self.after.frames.at {
            0 => self.set_errors(|errors| if errors == 0 { 0 } else { sum }),
            _ => self.set_errors(|_| sum),
        }
        self.keep(|[_, _, _, threshold, errors, ..]| errors >= threshold);
    }

    /// The tick that closes a second is not looked at for it.
    fn close_second_without_its_tick(&mut self) {
        if self.before.phase() != 9 {
            return;
        }
        let (after, events) = taken(&self.before, 0);
        self.after.seconds = after.seconds;
        self.events.retain(|event| event[0] == FRAME.into());
        let of_seconds = |event: &[u64; NUMBERS]| event[0] == FRAME_SECONDS.into();
        self.events.extend(events.into_iter().filter(of_seconds));
    }

    fn lengthen(&mut self) {
        let mut longer = self.before;
        longer.frames.length += 1;
        let (after, _) = taken(&longer, self.count);
        self.after.frames = WindowNumbers {
            length: self.before.frames.length,
            ..after.frames
        };
        self.events.retain(|event| event[0] != FRAME.into());
    }

    /// Stores the events, and with one slip zeros behind them.
    fn store(&self, slip: Slip, numbers: &mut [u64]) {
        let events = self.events.concat();
        let room = numbers.len().min(events.len());
        numbers[..room].copy_from_slice(&events[..room]);
        if slip == Slip::ClearsNumbersBehindEvents {
            numbers[room..].fill(0);
        }
    }

    /// How many have arisen, as the outcome tells.
    fn told(&self, slip: Slip) -> u64 {
        match slip {
            Slip::ArisenNotTold => 0,
            _ => self.events.len() as u64,
        }
    }
}
