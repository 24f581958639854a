//! The windows over many ticks: each tick is compared as every call is, and what
//! arises is sent by a notification, read back and logged. The counts that change
//! request (iii) asks for are for a million calls, and grow with the calls.

use super::bout::{Bout, Made};
use super::notifying::Notifying;
use super::played::Played;
use super::unmade::lent;
use crate::compare::hex;
use crate::generate::machine::{good_settings, windows_of_every_sort, Counts, WRAPPING};
use crate::library::machine::{
    packed, Call, Machine, Outcome, Setup, State, Turn, ARISEN, STATE_OCTETS,
};
use crate::library::Library;
use crate::paper::machine::Report as LinkReport;
use crate::paper::windows::{WatchNumbers, Windows, FRAME, FRAME_SECONDS};
use crate::paper::{answer, NUMBERS, SHORTEST};
use crate::random::Random;
use crate::trial::report::{Report, Tally};

/// Settings and windows, and the ticks of them all for each call of a trial.
const SETUPS: usize = 200;
const TICKS_A_CALL: usize = 2;
/// In so many calls one event of each type arises, and one tick with both.
const CALLS_A_FRAME_EVENT: usize = 1_000_000 / 10_000;
const CALLS_A_SECONDS_EVENT: usize = 1_000_000 / 2_000;
const CALLS_A_PAIR: usize = 1_000_000 / 500;

/// The ticks of one run, in which the timestamp wraps twice.
const LONG_RUN: usize = 140_000;
/// Ticks from a given state, and such states.
const GIVEN_RUN: usize = 250;
const GIVEN_STATES: usize = 20;

/// Types and lengths of windows of which events must arise.
const LENGTHS_OF_NOTE: [(u8, u64); 5] = [
    (FRAME, 10),
    (FRAME, 600),
    (FRAME_SECONDS, 100),
    (FRAME_SECONDS, 110),
    (FRAME_SECONDS, 9_000),
];

/// Ticks that are refused before one that is not, one in so many.
const REFUSED: usize = 64;

/// What must come of ticks at least once.
#[derive(Clone, Copy, Debug, PartialEq, Eq, PartialOrd, Ord)]
enum Sort {
    RefusedForEvents,
    RefusedForOutput,
    ThresholdJustReached,
    LargestThresholdReached,
    ErrorsCut,
    TimestampWrapped,
    FrameTotalWrapped,
    FrameEventsWrapped,
    SecondsTotalWrapped,
    SecondsEventsWrapped,
}

impl Sort {
    const ALL: [Sort; 10] = [
        Sort::RefusedForEvents,
        Sort::RefusedForOutput,
        Sort::ThresholdJustReached,
        Sort::LargestThresholdReached,
        Sort::ErrorsCut,
        Sort::TimestampWrapped,
        Sort::FrameTotalWrapped,
        Sort::FrameEventsWrapped,
        Sort::SecondsTotalWrapped,
        Sort::SecondsEventsWrapped,
    ];
}

pub struct Watching<'a> {
    library: &'a dyn Machine,
    notifying: Notifying<'a>,
    ticks: usize,
    setups: usize,
    frames: Tally<u8>,
    seconds: Tally<u8>,
    /// Ticks at which an event of each type arose.
    pairs: Tally<()>,
    /// The windows of events, by their type and length.
    lengths: Tally<(u8, u64)>,
    sorts: Tally<Sort>,
}

impl<'a> Watching<'a> {
    pub fn new(library: &'a dyn Machine, notes: &'a dyn Library, calls: usize) -> Self {
        let least = |a_time: usize| (calls / a_time).max(1);
        Watching {
            library,
            notifying: Notifying::new(notes),
            ticks: 0,
            setups: 0,
            frames: Tally::expecting_often([FRAME], least(CALLS_A_FRAME_EVENT)),
            seconds: Tally::expecting_often([FRAME_SECONDS], least(CALLS_A_SECONDS_EVENT)),
            pairs: Tally::expecting_often([()], least(CALLS_A_PAIR)),
            lengths: Tally::expecting(lengths_of_note(ticks_a_setup(calls))),
            sorts: Tally::expecting(Sort::ALL),
        }
    }

    /// Windows of every sort, a long run, and given states.
    pub fn run(&mut self, random: &mut Random, calls: usize) -> Result<(), String> {
        self.notifying.begin(self.library, random)?;
        self.given_states(random)?;
        for windows in windows_of_every_sort(random, SETUPS) {
            self.ticks_of(random, windows, ticks_a_setup(calls))?;
        }
        self.ticks_of(random, WRAPPING.windows, LONG_RUN)
    }

    /// Ticks of a fresh end, its link down or up, with these windows.
    fn ticks_of(
        &mut self,
        random: &mut Random,
        windows: Windows,
        ticks: usize,
    ) -> Result<(), String> {
        let settings = good_settings(random);
        let setup = Setup { settings, windows };
        let bout = Bout::fresh(self.library, random, &setup, STATE_OCTETS)?;
        let bout = bout.ok_or("windows of every sort are refused")?;
        let mut played = Played::new(self.library, setup, bout);
        if random.one_in(2) {
            let up = Call::Report(LinkReport::LinkUp as u8);
            played.turn(random, Turn::with_room(up))?;
        }
        self.setups += 1;
        let mut counts = Counts::default();
        for _ in 0..ticks {
            let before = played.bout.paper().watch.numbers();
            for turn in next_ticks(random, &mut counts) {
                let made = played.turn(random, turn)?;
                self.note(random, &before, &made, &played.bout)?;
            }
        }
        Ok(())
    }

    /// Ticks from states whose totals are about to wrap.
    fn given_states(&mut self, random: &mut Random) -> Result<(), String> {
        for _ in 0..GIVEN_STATES {
            let paper = about_to_wrap(random);
            let octets = paper.octets();
            let mut bout = Bout::at(self.library, lent(random, &octets), paper);
            let mut counts = Counts::default();
            for _ in 0..GIVEN_RUN {
                let before = bout.paper().watch.numbers();
                for turn in next_ticks(random, &mut counts) {
                    let told = |fault| format!("from the state {}\n  {fault}", hex(&octets));
                    let made = bout.turn(random, &turn).map_err(told)?;
                    self.note(random, &before, &made, &bout)?;
                }
            }
        }
        Ok(())
    }

    /// Notes what came of a tick, and sends the events that have arisen.
    fn note(
        &mut self,
        random: &mut Random,
        before: &WatchNumbers,
        made: &Made,
        bout: &Bout,
    ) -> Result<(), String> {
        let Outcome { answer, arisen, .. } = Outcome::of(made.outcome);
        if answer != answer::ACCEPTED {
            self.sorts.count(match made.numbers.len() < ARISEN {
                true => Sort::RefusedForEvents,
                false => Sort::RefusedForOutput,
            });
            return Ok(());
        }
        self.ticks += 1;
        self.note_wraps(before, &bout.paper().watch.numbers());
        if arisen == 0 {
            return Ok(());
        }
        let events = &made.numbers.slice()[..arisen * NUMBERS];
        for event in events.chunks_exact(NUMBERS) {
            self.note_event(event);
        }
        if arisen == 2 {
            self.pairs.count(());
        }
        self.notifying.send(random, events)
    }

    fn note_event(&mut self, event: &[u64]) {
        let (kind, threshold, errors) = (event[0] as u8, event[3], event[4]);
        match kind {
            FRAME => self.frames.count(kind),
            _ => self.seconds.count(kind),
        }
        if LENGTHS_OF_NOTE.contains(&(kind, event[2])) {
            self.lengths.count((kind, event[2]));
        }
        let largest = u64::from(u32::MAX);
        self.note_sorts([
            (Sort::ThresholdJustReached, errors == threshold),
            (Sort::LargestThresholdReached, threshold == largest),
            (Sort::ErrorsCut, errors == largest),
        ]);
    }

    fn note_wraps(&mut self, before: &WatchNumbers, after: &WatchNumbers) {
        let (frames, seconds) = (&before.frames, &before.seconds);
        self.note_sorts([
            (Sort::TimestampWrapped, after.stamp < before.stamp),
            (Sort::FrameTotalWrapped, after.frames.total < frames.total),
            (
                Sort::FrameEventsWrapped,
                after.frames.events < frames.events,
            ),
            (
                Sort::SecondsTotalWrapped,
                after.seconds.total < seconds.total,
            ),
            (
                Sort::SecondsEventsWrapped,
                after.seconds.events < seconds.events,
            ),
        ]);
    }

    fn note_sorts<const N: usize>(&mut self, sorts: [(Sort, bool); N]) {
        for (sort, holds) in sorts {
            if holds {
                self.sorts.count(sort);
            }
        }
    }

    pub fn report(&self, report: &mut Report) {
        report.count(self.setups, "settings with windows of every sort");
        report.count(self.ticks, "ticks of those and of given states");
        let typed = |kind: &u8| format!("of type {kind}");
        report.add("events that arose", &self.frames, typed);
        report.add("events that arose", &self.seconds, typed);
        report.add("ticks", &self.pairs, |()| String::from("with both"));
        report.add(
            "windows of those events",
            &self.lengths,
            |(kind, length)| format!("of type {kind}, {length} ticks"),
        );
        report.add("what came of those ticks", &self.sorts, |sort| {
            format!("{sort:?}")
        });
        self.notifying.report(report);
    }
}

fn ticks_a_setup(calls: usize) -> usize {
    TICKS_A_CALL * calls / SETUPS
}

/// Those of note that can have ended by so many ticks.
fn lengths_of_note(ticks: usize) -> impl Iterator<Item = (u8, u64)> {
    let ends = move |(_, length): &(u8, u64)| *length <= ticks as u64;
    LENGTHS_OF_NOTE.into_iter().filter(ends)
}

/// A tick with the next count; now and then one that is refused before it.
fn next_ticks(random: &mut Random, counts: &mut Counts) -> Vec<Turn> {
    let count = counts.next(random);
    let tick = |numbers, out| Turn {
        call: Call::Tick(count),
        numbers,
        out,
    };
    let more = match random.below(16) {
        0 => random.between(1, ARISEN),
        _ => 0,
    };
    let taken = tick(ARISEN + more, SHORTEST);
    if !random.one_in(REFUSED) {
        return vec![taken];
    }
    let refused = match random.one_in(2) {
        true => tick(random.below(ARISEN), SHORTEST),
        false => tick(ARISEN, random.pick(&[0, SHORTEST - 1])),
    };
    vec![refused, taken]
}

/// A fresh state, but for the totals and the timestamp, which are near their largest
/// values.
fn about_to_wrap(random: &mut Random) -> State {
    let windows = Windows {
        frame_window: 10,
        frame_threshold: 1,
        seconds_window: 100,
        seconds_threshold: 1,
    };
    let setup = Setup {
        windows,
        ..WRAPPING
    };
    let fresh = State::fresh(&setup).expect("in range");
    let mut watch = fresh.watch.numbers();
    let mut near = |largest: u64| largest - random.below(3) as u64;
    watch.frames.total = near(u64::MAX);
    watch.frames.events = near(u32::MAX.into());
    watch.seconds.total = near(u32::MAX.into());
    watch.seconds.events = near(u32::MAX.into());
    watch.stamp = near(u16::MAX.into());
    State::from_octets(&packed(&fresh.end, &watch)).expect("in range")
}
