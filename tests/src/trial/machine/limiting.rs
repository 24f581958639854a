//! What came of the limit of ten, told from the paper's ends before and after each
//! call of a script, and from what is known of the frame that is owed. Each
//! must come 200 times in a million calls, and in fewer calls as much less.

use super::happening::Seen;
use crate::library::machine::Call;
use crate::paper::answer;
use crate::paper::machine::{End, Report};
use crate::trial::report::Tally;

/// Each once or more in so many calls.
const CALLS_A_TIME: usize = 1_000_000 / 200;

#[derive(Clone, Copy, Debug, PartialEq, Eq, PartialOrd, Ord)]
pub enum Limiting {
    /// A tenth tick finds ten frames in its stretch, and the frame that is due waits.
    DueWaits,
    WaitingWrittenByTick,
    WaitingDroppedByLinkDown,
    /// One frame for the one that waits and for another reason.
    WaitingAndOwedSettled,
    OwedByRequestWrittenByReceive,
    OwedByRequestWrittenByReport,
    /// Fewer than ten of the frames were written since the tenth tick.
    ThirteenAcrossTenthTick,
}

impl Limiting {
    const ALL: [Limiting; 7] = [
        Limiting::DueWaits,
        Limiting::WaitingWrittenByTick,
        Limiting::WaitingDroppedByLinkDown,
        Limiting::WaitingAndOwedSettled,
        Limiting::OwedByRequestWrittenByReceive,
        Limiting::OwedByRequestWrittenByReport,
        Limiting::ThirteenAcrossTenthTick,
    ];

    /// What must come of so many calls.
    pub fn tally(calls: usize) -> Tally<Limiting> {
        Tally::expecting_often(Limiting::ALL, (calls / CALLS_A_TIME).max(1))
    }
}

/// Why an Information frame is owed: for no reason where none is.
#[derive(Clone, Copy, Default)]
pub struct Owing {
    /// It was due at a tenth tick, and waits.
    waits: bool,
    /// For a change, or a command that was obeyed.
    otherwise: bool,
    /// A request owed it first.
    by_request: bool,
}

impl Owing {
    /// What is known behind a call, and what came of it.
    pub fn after(self, seen: &Seen) -> (Owing, Vec<Limiting>) {
        let mut came = self.came_of(seen);
        came.retain(|(_, holds)| *holds);
        let came = came.into_iter().map(|(limiting, _)| limiting).collect();
        (self.next(seen), came)
    }

    fn next(self, seen: &Seen) -> Owing {
        let (before, after) = (seen.before, seen.after);
        if !after.owed {
            return Owing::default();
        }
        let due = seen.is_tenth_tick();
        let first = !before.owed && !due;
        Owing {
            waits: self.waits || due,
            otherwise: self.otherwise || first || sends(before) != sends(after),
            by_request: self.by_request || first && seen.call.is_request(),
        }
    }

    fn came_of(self, seen: &Seen) -> Vec<(Limiting, bool)> {
        let (before, after, call) = (seen.before, seen.after, seen.call);
        let settled = before.owed && !after.owed && seen.outcome.length > 0;
        let dropped = before.owed && !after.owed && seen.outcome.length == 0;
        let received = matches!(call, Call::Receive(_));
        let reported = matches!(call, Call::Report(_));
        let down = *call == Call::Report(Report::LinkDown as u8);
        vec![
            (Limiting::DueWaits, seen.is_tenth_tick() && after.owed),
            (
                Limiting::WaitingWrittenByTick,
                self.waits && settled && call.is_tick(),
            ),
            (
                Limiting::WaitingDroppedByLinkDown,
                self.waits && dropped && down,
            ),
            (
                Limiting::WaitingAndOwedSettled,
                self.waits && self.otherwise && settled,
            ),
            (
                Limiting::OwedByRequestWrittenByReceive,
                self.by_request && settled && received,
            ),
            (
                Limiting::OwedByRequestWrittenByReport,
                self.by_request && settled && reported,
            ),
            (
                Limiting::ThirteenAcrossTenthTick,
                seen.outcome.answer == answer::LIMIT && since_tenth_tick(before) < before.written(),
            ),
        ]
    }
}

/// What an Information frame says whose change owes one.
fn sends(end: &End) -> (u16, u8) {
    (end.flags(), end.role.octet())
}

/// Frames written in the interval that the last tenth tick opened, or that began
/// fresh, and in those after it.
fn since_tenth_tick(end: &End) -> u8 {
    end.intervals[..=usize::from(end.ticks)].iter().sum()
}
