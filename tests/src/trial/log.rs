//! The sent-event log: lines good, bad and edited are read, also as the build before
//! change request (vi) did, entries good and bad are written, and what was written is
//! read back.

use super::contest::Contest;
use super::lent::{Lent, Room};
use super::report::{least, Report, Tally};
use super::THIS_PACKAGE;
use crate::generate::{
    any_log_entry, any_log_line, EntryFault, LineClaim, LineFault, LogEntry, LogLine,
};
use crate::library::{answer_of, length_of, Library};
use crate::paper::{answer, log as paper, PLAIN_EVENTS};
use crate::random::Random;

/// How often each position, and each fault, must come in 200,000 lines.
const A_POSITION: usize = 1_000;
const A_FAULT: usize = 500;

/// Reads `lines` lines and writes as many entries.
pub fn log(library: &dyn Library, seed: u64, lines: usize) -> Report {
    let mut trial = Trial::new(library, seed, lines);
    for _ in 0..lines {
        let line = any_log_line(&mut trial.random);
        trial.read(&line);
        let entry = any_log_entry(&mut trial.random);
        trial.write(&entry);
    }
    trial.report()
}

struct Trial<'a> {
    contest: Contest<'a>,
    random: Random,
    read: Tally<u8>,
    /// Edited lines, by their answer.
    edited: Tally<u8>,
    line_faults: Tally<LineFault>,
    /// Positions of good lines.
    read_at: Tally<u64>,
    /// Lines that are read, by what the old build answers.
    old: Tally<u8>,
    short: Tally<usize>,
    written: Tally<u8>,
    entry_faults: Tally<EntryFault>,
    /// Positions of good entries.
    written_at: Tally<u64>,
    read_back: usize,
}

impl<'a> Trial<'a> {
    fn new(library: &'a dyn Library, seed: u64, lines: usize) -> Self {
        let (fault, position) = (least(A_FAULT, lines), least(A_POSITION, lines));
        let positions = 1..=PLAIN_EVENTS as u64;
        Trial {
            contest: Contest::new(library),
            random: Random::new(seed),
            read: Tally::expecting([answer::ACCEPTED, answer::OUTPUT, answer::TEXT]),
            edited: Tally::expecting([answer::ACCEPTED, answer::TEXT]),
            line_faults: Tally::expecting_often(LineFault::ALL, fault),
            read_at: Tally::expecting_often(positions.clone(), position),
            old: Tally::expecting([answer::ACCEPTED, answer::TEXT]),
            short: Tally::expecting(0..paper::FIELDS),
            written: Tally::expecting([answer::ACCEPTED, answer::OUTPUT, answer::VALUES]),
            entry_faults: Tally::expecting_often(EntryFault::ALL, fault),
            written_at: Tally::expecting_often(positions, position),
            read_back: 0,
        }
    }

    /// Reads a line into a slice that just holds its values, into a longer one,
    /// and into one that is too short.
    fn read(&mut self, line: &LogLine) {
        if !line.holds() {
            self.contest.note(THIS_PACKAGE, || format!("{line:?}"));
        }
        let short = self.random.below(paper::FIELDS);
        self.short.count(short);
        let longer = paper::FIELDS + self.random.between(1, 4);
        for room in [paper::FIELDS, longer, short] {
            let answer = self.read_into(&line.text, room);
            self.read.count(answer);
        }
        match line.claim {
            LineClaim::Read(fields) => self.read_at.count(fields[1]),
            LineClaim::Refused(fault) => self.line_faults.count(fault),
            LineClaim::Edited => {
                let answer = paper::read(&line.text).err();
                self.edited.count(answer.unwrap_or(answer::ACCEPTED));
            }
        }
        self.read_as_before(&line.text);
    }

    /// The old build reads what the library reads with a position up to 4, to the same
    /// values, and answers 14 to all else.
    fn read_as_before(&mut self, text: &[u8]) {
        let mut values = [0; paper::FIELDS];
        let is_read = self.contest.library.log_read(text, &mut values) == answer::ACCEPTED.into();
        let is_old = is_read && values[1] <= paper::OLD_LAST_POSITION as u64;
        let old = paper::read_up_to(paper::OLD_LAST_POSITION, text);
        if is_read {
            self.old.count(old.err().unwrap_or(answer::ACCEPTED));
        }
        if old != is_old.then_some(values).ok_or(answer::TEXT) {
            self.contest.note("a line, as the old build reads it", || {
                let line = text.escape_ascii();
                format!("\"{line}\"\n      is {old:?}, found {is_read}, values {values:?}")
            });
        }
    }

    /// The paper's answer.
    fn read_into(&mut self, text: &[u8], room: usize) -> u8 {
        let lent = Lent::numbers(&mut self.random, room);
        let what = || format!("\"{}\"", text.escape_ascii());
        let called = self
            .contest
            .call("oam_log_read", [lent], what, |library, [values]| {
                library.log_read(text, values)
            });
        answer_of(called.outcome)
    }

    /// Writes an entry into outputs of every kind of length.
    fn write(&mut self, entry: &LogEntry) {
        if !entry.holds() {
            self.contest.note(THIS_PACKAGE, || format!("{entry:?}"));
        }
        match entry.fault {
            None => self.written_at.count(entry.position),
            Some(fault) => self.entry_faults.count(fault),
        }
        let LogEntry {
            number,
            position,
            ref event,
            ..
        } = *entry;
        for room in Room::BY_LENGTH {
            let length = room.of(&mut self.random, length(entry));
            let lent = Lent::octets(&mut self.random, length);
            let what = || format!("number {number}, position {position}, event {event:?}");
            let called = self
                .contest
                .call("oam_log_write", [lent], what, |library, [out]| {
                    library.log_write(number, position, event, out)
                });
            let answer = answer_of(called.outcome);
            self.written.count(answer);
            if !called.agreed {
                return; // the same entry would only differ again
            }
            if answer == answer::ACCEPTED {
                let line = &called.lent[0].slice()[..length_of(called.outcome)];
                self.read_back(line, entry);
            }
        }
    }

    /// A written line must be read as the entry it was written for.
    fn read_back(&mut self, line: &[u8], entry: &LogEntry) {
        self.read_back += 1;
        let meant = [&[entry.number, entry.position], &entry.event[..]].concat();
        let mut values = [0; paper::FIELDS];
        let outcome = self.contest.library.log_read(line, &mut values);
        if outcome != answer::ACCEPTED.into() || values[..] != meant {
            self.contest.note("what was written, read back", || {
                let line = line.escape_ascii();
                format!("\"{line}\"\n      found answer {outcome}, values {values:?}")
            });
        }
    }

    fn report(self) -> Report {
        let mut report = Report::of(&self.contest);
        let answered = |answer: &u8| format!("answered {answer}");
        report.add("calls of oam_log_read", &self.read, answered);
        report.add("edited lines among them", &self.edited, answered);
        report.add_many("ways not to be a line", &self.line_faults, |fault| {
            format!("{fault:?}")
        });
        report.add_many("positions of good lines", &self.read_at, u64::to_string);
        report.add("lines that are read", &self.old, |answer| {
            format!("by the old build answered {answer}")
        });
        let title = "lengths too short for the values";
        report.add_many(title, &self.short, usize::to_string);
        report.add("calls of oam_log_write", &self.written, answered);
        report.add_many("ways not to be an entry", &self.entry_faults, |fault| {
            format!("{fault:?}")
        });
        let title = "positions of good entries";
        report.add_many(title, &self.written_at, u64::to_string);
        report.count(self.read_back, "written lines read back");
        report
    }
}

/// Octets of the entry's line; of a bad one, of a line that it might have had.
fn length(entry: &LogEntry) -> usize {
    let mut line = [0; paper::LONGEST_LINE];
    let written = paper::write(entry.number, entry.position, &entry.event, &mut line);
    written.unwrap_or(paper::LONGEST_LINE)
}
