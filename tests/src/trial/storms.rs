//! Notifications by their number of events, which change request (vi) raised to 16:
//! written, refused, and read and written again. How often each must come is said for
//! 200,000 of them.

use super::lent::Room;
use super::report::{least, Report, Tally};
use crate::library::{answer_of, length_of};
use crate::paper::{answer, code, list, Listed, PLAIN_EVENTS, SHORTEST};
use std::ops::RangeInclusive;

const WRITTEN: usize = 2_000;
const REFUSED: usize = 500;
const OF_BOTH_LENGTHS: usize = 500;
const AGAIN: usize = 500;

/// Numbers of events for which a notification must have been refused.
const TOO_MANY: RangeInclusive<usize> = PLAIN_EVENTS + 1..=PLAIN_EVENTS + 2;
/// Numbers of events with which a frame must have been written again, not plain and, where
/// there are not too many, plain.
const MANY: RangeInclusive<usize> = 5..=20;
/// Octets of a notification of sixteen symbol period events.
const LONGEST: usize = 660;

pub struct Storms {
    /// By events and answer: 0 in outputs that just hold the frame, 9 in those that are
    /// an octet shorter.
    written: Tally<(usize, u8)>,
    refused: Tally<usize>,
    lengths: Tally<usize>,
    /// By events, plain or not.
    again: Tally<(usize, bool)>,
}

impl Storms {
    pub fn new(messages: usize) -> Self {
        let least = |times| least(times, messages);
        let answers = [answer::ACCEPTED, answer::OUTPUT];
        let written = (1..=PLAIN_EVENTS).flat_map(|events| answers.map(|one| (events, one)));
        let again = MANY.flat_map(|events| [(events, true), (events, false)]);
        let possible = again.filter(|&(events, plain)| !plain || events <= PLAIN_EVENTS);
        Storms {
            written: Tally::expecting_often(written, least(WRITTEN)),
            refused: Tally::expecting_often(TOO_MANY, least(REFUSED)),
            lengths: Tally::expecting_often([SHORTEST, LONGEST], least(OF_BOTH_LENGTHS)),
            again: Tally::expecting_often(possible, least(AGAIN)),
        }
    }

    /// Notes what came of writing so many events.
    pub fn note(&mut self, events: usize, room: Room, outcome: u64) {
        match (room, answer_of(outcome)) {
            (Room::Exact, answer::ACCEPTED) => {
                self.written.count((events, answer::ACCEPTED));
                self.lengths.count(length_of(outcome));
            }
            (Room::OneLess, answer::OUTPUT) => self.written.count((events, answer::OUTPUT)),
            (Room::Exact, answer::VALUES) if TOO_MANY.contains(&events) => {
                self.refused.count(events);
            }
            _ => {}
        }
    }

    /// Notes a notification that is read and written again.
    pub fn note_again(&mut self, frame: &[u8], plain: bool) {
        let list = list(code::NOTIFICATION, frame);
        let events = list.iter().filter(|tlv| tlv.part != Listed::Skipped);
        let events = events.count();
        if MANY.contains(&events) {
            self.again.count((events, plain));
        }
    }

    pub fn report(&self, report: &mut Report) {
        let title = "numbers of events in notifications, written and an octet short";
        report.add_many(title, &self.written, |(events, answer)| {
            format!("{events}, answered {answer}")
        });
        report.add(
            "notifications of too many events",
            &self.refused,
            |events| format!("of {events}, answered 10"),
        );
        report.add_many("octets of notifications", &self.lengths, usize::to_string);
        let title = "numbers of events in notifications read and written again";
        report.add_many(title, &self.again, |(events, plain)| {
            let not = if *plain { "" } else { "not " };
            format!("{events}, {not}plain")
        });
    }
}
