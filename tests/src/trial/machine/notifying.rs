//! Events that have arisen, handed to a notification: what an end in SEND_ANY writes
//! for them is read back and logged, by the library as by the paper.

use super::bout::Bout;
use crate::generate::machine::{wrapping_start, WRAPPING};
use crate::library::machine::{Call, Machine, Outcome, Turn, STATE_OCTETS};
use crate::library::{answer_of, length_of, message, Library, HEADER, ROW};
use crate::paper::{answer, log, Body, Event, BODY, EVENTS, NUMBERS, SHORTEST};
use crate::random::Random;
use crate::trial::contest::Contest;
use crate::trial::lent::Lent;
use crate::trial::report::Report;

/// Octets of a notification before its events.
const HEADING: usize = BODY + 2;

pub struct Notifying<'a> {
    contest: Contest<'a>,
    /// Ends in SEND_ANY, of the library that arisen events come from.
    ends: Option<Bout<'a>>,
    sent: usize,
    logged: usize,
}

impl<'a> Notifying<'a> {
    pub fn new(notes: &'a dyn Library) -> Self {
        Notifying {
            contest: Contest::new(notes),
            ends: None,
            sent: 0,
            logged: 0,
        }
    }

    /// Brings ends to SEND_ANY.
    pub fn begin(&mut self, library: &'a dyn Machine, random: &mut Random) -> Result<(), String> {
        let ends = Bout::fresh(library, random, &WRAPPING, STATE_OCTETS)?;
        let mut ends = ends.ok_or("the ends that notify are refused")?;
        for call in wrapping_start() {
            ends.turn(random, &Turn::with_room(call))?;
        }
        self.ends = Some(ends);
        Ok(())
    }

    /// Sends events, seven numbers each. The ends stand as before each time, so that
    /// no limit is met.
    pub fn send(&mut self, random: &mut Random, events: &[u64]) -> Result<(), String> {
        let mut ends = self
            .ends
            .clone()
            .ok_or("no ends were brought to SEND_ANY")?;
        let number = ends.end().event_number;
        let turn = Turn {
            call: Call::Notify(events.to_vec()),
            numbers: 0,
            out: frame_length(events),
        };
        let made = ends.turn(random, &turn)?;
        let Outcome { answer, length, .. } = Outcome::of(made.outcome);
        if answer != answer::ACCEPTED {
            return Err(format!("{turn} is answered {answer}"));
        }
        self.sent += 1;
        self.read_back(random, &made.out.slice()[..length], number, events);
        for (event, position) in events.chunks_exact(NUMBERS).zip(1..) {
            self.log(random, number.into(), position, event);
        }
        Ok(())
    }

    /// The frame is read as these events.
    fn read_back(&mut self, random: &mut Random, frame: &[u8], number: u16, events: &[u64]) {
        let count = events.len() / NUMBERS;
        let lent = [HEADER, ROW * count].map(|room| Lent::numbers(random, room));
        let what = || format!("of the events {events:?}");
        self.contest
            .call("oam_read_all", lent, what, |library, [header, rows]| {
                library.read_all(frame, 0, header, rows)
            });
        let found = message(self.contest.library, frame).map(|message| message.body);
        let parts = events.chunks_exact(NUMBERS);
        let meant = Body::Notification {
            number,
            events: parts.filter_map(event_of).collect(),
        };
        if found.as_ref() != Ok(&meant) {
            self.contest.note("a notification, read back", || {
                format!("{events:?}\n      found {found:?}")
            });
        }
    }

    /// The event's line is written, and read as it was meant.
    fn log(&mut self, random: &mut Random, number: u64, position: u64, event: &[u64]) {
        self.logged += 1;
        let what = || format!("number {number}, position {position}, event {event:?}");
        let lent = [Lent::octets(random, log::LONGEST_LINE)];
        let written = self
            .contest
            .call("oam_log_write", lent, what, |library, [line]| {
                library.log_write(number, position, event, line)
            });
        let line = written.lent[0].slice();
        let line = line.get(..length_of(written.outcome)).unwrap_or(line);
        let lent = [Lent::numbers(random, log::FIELDS)];
        let read = self
            .contest
            .call("oam_log_read", lent, what, |library, [values]| {
                library.log_read(line, values)
            });
        let meant = [&[number, position], event].concat();
        let accepted = [written.outcome, read.outcome].map(answer_of) == [answer::ACCEPTED; 2];
        if !accepted || read.lent[0].slice() != meant {
            self.contest.note("a logged event, read back", what);
        }
    }

    pub fn report(&self, report: &mut Report) {
        report.count(self.sent, "notifications of those events, read back");
        report.count(self.logged, "of those events logged and read back");
        report.faults.extend(self.contest.faults());
    }
}

fn event_of(numbers: &[u64]) -> Option<Event> {
    Event::from_numbers(numbers.first_chunk()?)
}

/// The octets of the frame that holds these events.
fn frame_length(events: &[u64]) -> usize {
    let length = |event: &[u64]| EVENTS[event[0] as usize - 1].0;
    let lengths = events.chunks_exact(NUMBERS).map(length);
    (HEADING + lengths.sum::<usize>()).max(SHORTEST)
}
