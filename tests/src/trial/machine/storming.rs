//! Requests to notify of more events than four, which change request (vi) allows. Each
//! must come 500 times in a million calls, and in fewer calls as much less.

use super::happening::Seen;
use crate::library::machine::Call;
use crate::paper::machine::End;
use crate::paper::{answer, LONGEST, NUMBERS, PLAIN_EVENTS};
use crate::trial::report::Tally;

/// Each once or more in so many calls.
const CALLS_A_TIME: usize = 1_000_000 / 500;

/// Answers that must come.
const ANSWERS: [u8; 4] = [
    answer::ACCEPTED,
    answer::VALUES,
    answer::SIZE,
    answer::LIMIT,
];

#[derive(Clone, Copy, Debug, PartialEq, Eq, PartialOrd, Ord)]
pub enum Storming {
    Of(usize),
    Answered(u8),
    /// 10 is answered for too many events, the first of which alone would be 12.
    TenBefore12,
}

impl Storming {
    /// What must come of so many calls.
    pub fn tally(calls: usize) -> Tally<Storming> {
        let events = (5..=PLAIN_EVENTS + 1).map(Storming::Of);
        let answers = ANSWERS.into_iter().map(Storming::Answered);
        let all = events.chain(answers).chain([Storming::TenBefore12]);
        Tally::expecting_often(all, (calls / CALLS_A_TIME).max(1))
    }

    /// All that a call is an example of; it has whole events, and not far too many.
    pub fn of(seen: &Seen) -> Vec<Storming> {
        let Call::Notify(events) = seen.call else {
            return Vec::new();
        };
        let (count, answer) = (events.len() / NUMBERS, seen.outcome.answer);
        if events.len() % NUMBERS > 0 || !(5..=PLAIN_EVENTS + 1).contains(&count) {
            return Vec::new();
        }
        let mut of = vec![Storming::Of(count), Storming::Answered(answer)];
        if answer == answer::VALUES && first_are_12(seen.before, events) {
            of.push(Storming::TenBefore12);
        }
        of
    }
}

/// Whether as many of the events as there may be are answered 12.
pub fn first_are_12(end: &End, events: &[u64]) -> bool {
    let first = &events[..events.len().min(NUMBERS * PLAIN_EVENTS)];
    end.notify(first, &mut [0; LONGEST]) == Err(answer::SIZE)
}
