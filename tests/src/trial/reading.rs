//! Reading: frames of all makers, each by its header, by its header and all its
//! parts, by some of its parts into slices of other lengths, and by its descriptors
//! alone.

use super::contest::{Called, Contest};
use super::lent::{Lent, Room};
use super::report::{Report, Tally};
use super::skipping::Skipping;
use super::THIS_PACKAGE;
use crate::compare::{from_difference, hex};
use crate::generate::{any_frame, every_frame, Made};
use crate::library::{
    answer_of, kind, length_of, message, ByPaper, Library, Unread, HEADER, ROW, ROW_SKIPPED,
};
use crate::paper::{answer, asked, code, read};
use crate::random::Random;

/// Tries `frames` frames, or more where the sets that are gone through to the
/// last one hold more.
pub fn reading(library: &dyn Library, seed: u64, frames: usize) -> Report {
    let mut trial = Trial::new(library, seed, frames);
    let every = every_frame(&mut trial.random);
    for made in &every {
        trial.frame(made);
    }
    for _ in every.len()..frames {
        let made = any_frame(&mut trial.random);
        trial.frame(&made);
    }
    trial.report()
}

/// The first part that is asked for.
#[derive(Clone, Copy, Debug, PartialEq, Eq, PartialOrd, Ord)]
enum First {
    Zero,
    One,
    Any,
    Last,
    BehindLast,
    Greatest,
}

impl First {
    const ALL: [First; 6] = [
        First::Zero,
        First::One,
        First::Any,
        First::Last,
        First::BehindLast,
        First::Greatest,
    ];

    /// Its number in a frame of so many parts.
    fn of(self, random: &mut Random, count: usize) -> usize {
        match self {
            First::Zero => 0,
            First::One => 1,
            First::Any => random.below(count + 1),
            First::Last => count.saturating_sub(1),
            First::BehindLast => count + random.below(3),
            First::Greatest => usize::MAX,
        }
    }
}

/// Numbers that are lent for rows. `None` stands for all rows' numbers and up to
/// two rows' more.
const ROOMS: [Option<usize>; 7] = [
    Some(0),
    Some(ROW - 1),
    Some(ROW),
    Some(ROW + 1),
    Some(2 * ROW - 1),
    Some(2 * ROW),
    None,
];

/// Only frames with so many parts count as asked for their rows in some way.
const SOME_PARTS: usize = 3;

struct Trial<'a> {
    contest: Contest<'a>,
    random: Random,
    answers: Tally<u8>,
    codes: Tally<u8>,
    answers_of_all: Tally<u8>,
    kinds: Tally<u64>,
    /// Rows with TLVs skipped before them, by kind, parts passed over or not.
    behind_skipped: Tally<(u64, bool)>,
    skipping: Tally<Skipping>,
    rooms: Tally<(First, Option<usize>)>,
    /// Slices for a header, too short for `read`, and all lengths for `read_all`.
    short_headers: Tally<usize>,
    headers: Tally<usize>,
    answers_of_descriptors: Tally<u8>,
    /// Lengths for the descriptors of requests that have some, and the answers.
    descriptor_rooms: Tally<(Room, u8)>,
}

impl<'a> Trial<'a> {
    fn new(library: &'a dyn Library, seed: u64, frames: usize) -> Self {
        let pairs = |first| ROOMS.map(|room| (first, room));
        let answers = answer::ACCEPTED..=answer::OUTPUT;
        Trial {
            contest: Contest::new(library),
            random: Random::new(seed),
            answers: Tally::expecting(answers.clone()),
            codes: Tally::expecting(code::ALL),
            answers_of_all: Tally::expecting(answers),
            kinds: Tally::expecting(kind::ALL),
            behind_skipped: Tally::expecting(possible_behind_skipped()),
            skipping: Skipping::tally(frames),
            rooms: Tally::expecting(First::ALL.into_iter().flat_map(pairs)),
            short_headers: Tally::expecting(0..HEADER),
            headers: Tally::expecting(0..=HEADER + 1),
            answers_of_descriptors: Tally::expecting(answer::ACCEPTED..=answer::VALUES),
            descriptor_rooms: Tally::expecting(possible_rooms()),
        }
    }

    fn frame(&mut self, made: &Made) {
        if !made.holds() {
            self.contest.note(THIS_PACKAGE, || format!("{made:02x?}"));
        }
        let frame = &made.frame;
        self.header(frame);
        self.rows(frame);
        self.descriptors(frame);
        self.message(frame);
        if let Ok(message) = read(frame) {
            self.codes.count(message.body.code());
        }
        for skipping in Skipping::of(frame) {
            self.skipping.count(skipping);
        }
    }

    /// The header into a slice that just holds it, into a longer one, and into
    /// one that is too short.
    fn header(&mut self, frame: &[u8]) {
        let short = self.random.below(HEADER);
        self.short_headers.count(short);
        for room in [HEADER, HEADER + self.random.between(1, 4), short] {
            let lent = Lent::numbers(&mut self.random, room);
            let what = || format!("{} octets {}", frame.len(), hex(frame));
            let called = self
                .contest
                .call("oam_read", [lent], what, |library, [header]| {
                    library.read(frame, header)
                });
            self.answers.count(answer_of(called.outcome));
        }
    }

    /// All rows, a header of any length, and rows from each first part on into any
    /// room. A frame without parts is asked from two places only.
    fn rows(&mut self, frame: &[u8]) {
        let count = self.all_rows(frame);
        let header = self.random.below(HEADER + 2);
        self.headers.count(header);
        let (_, length) = self.room(count);
        self.read_all(frame, 0, [header, length]);
        let firsts: &[First] = match count {
            0 => &[First::Any, First::Greatest],
            _ => &First::ALL,
        };
        for &first in firsts {
            let (room, length) = self.room(count);
            let header = HEADER + self.random.below(2);
            let number = first.of(&mut self.random, count);
            self.read_all(frame, number, [header, length]);
            if count >= SOME_PARTS {
                self.rooms.count((first, room));
            }
        }
    }

    /// A room for rows of so many parts, and its length.
    fn room(&mut self, count: usize) -> (Option<usize>, usize) {
        let room = self.random.pick(&ROOMS);
        let all = ROW * count + self.random.below(2 * ROW + 1);
        (room, room.unwrap_or(all))
    }

    /// Stores all rows in as much room as they take, and gives their count, by the
    /// paper.
    fn all_rows(&mut self, frame: &[u8]) -> usize {
        let count = length_of(ByPaper.read_all(frame, 0, &mut [0; HEADER], &mut []));
        let called = self.read_all(frame, 0, [HEADER, ROW * count]);
        if called.agreed {
            let rows = called.lent[1].slice().chunks(ROW);
            rows.for_each(|row| self.kinds.count(row[0]));
        }
        count
    }

    /// Rows from a first part on, with slices of these lengths for header and rows.
    fn read_all(&mut self, frame: &[u8], first: usize, lengths: [usize; 2]) -> Called<u64, 2> {
        let lent = lengths.map(|length| Lent::numbers(&mut self.random, length));
        let what = || format!("from part {first} of {} octets {}", frame.len(), hex(frame));
        let called = self
            .contest
            .call("oam_read_all", lent, what, |library, [header, rows]| {
                library.read_all(frame, first, header, rows)
            });
        self.answers_of_all.count(answer_of(called.outcome));
        let stored = length_of(called.outcome).saturating_sub(first);
        let rows = called.lent[1].slice().chunks_exact(ROW).take(stored);
        for row in rows.filter(|row| row[ROW_SKIPPED] > 0) {
            self.behind_skipped.count((row[0], first > 0));
        }
        called
    }

    /// The descriptors into slices of every kind of length. A frame without any is
    /// treated as if it had one.
    fn descriptors(&mut self, frame: &[u8]) {
        let count = asked(frame).map_or(0, |asked| asked.len());
        for room in Room::BY_LENGTH {
            let length = room.of(&mut self.random, count.max(1));
            let lent = Lent::descriptors(&mut self.random, length);
            let what = || format!("{} octets {}", frame.len(), hex(frame));
            let called = self
                .contest
                .call("oam_descriptors", [lent], what, |library, [room]| {
                    library.descriptors(frame, room)
                });
            let answer = answer_of(called.outcome);
            self.answers_of_descriptors.count(answer);
            if count > 0 {
                self.descriptor_rooms.count((room, answer));
            }
        }
    }

    /// The whole frame through the library alone, beside `paper::read`.
    fn message(&mut self, frame: &[u8]) {
        let expected = read(frame).map_err(Unread::Refused);
        let found = message(self.contest.library, frame);
        if expected != found {
            self.contest.note("a frame's whole reading", || {
                let (expected, found) = (format!("{expected:?}"), format!("{found:?}"));
                let [expected, found] = from_difference(&expected, &found);
                format!(
                    "{}\n      expected {expected}\n      found    {found}",
                    hex(frame)
                )
            });
        }
    }

    fn report(self) -> Report {
        let mut report = Report::of(&self.contest);
        let answered = |answer: &u8| format!("answered {answer}");
        report.add("calls of oam_read", &self.answers, answered);
        report.add("accepted frames", &self.codes, |code| {
            format!("of code {code:02X}")
        });
        report.add("frames by what is skipped", &self.skipping, |skipping| {
            format!("{skipping:?}")
        });
        report.add("calls of oam_read_all", &self.answers_of_all, answered);
        self.report_rows(&mut report);
        let title = "lengths too short for a header";
        report.add_many(title, &self.short_headers, usize::to_string);
        let title = "lengths of a header beside rows";
        report.add_many(title, &self.headers, usize::to_string);
        let title = "calls of oam_descriptors";
        report.add(title, &self.answers_of_descriptors, answered);
        let title = "lengths for descriptors of requests that have some";
        report.add(title, &self.descriptor_rooms, |(room, answer)| {
            format!("{room:?}, answered {answer}")
        });
        report
    }

    fn report_rows(&self, report: &mut Report) {
        report.add("rows", &self.kinds, |kind| format!("of kind {kind}"));
        let title = "rows behind TLVs that are skipped";
        report.add(title, &self.behind_skipped, |(kind, passed)| {
            let parts = if *passed { "some" } else { "no" };
            format!("of kind {kind}, {parts} parts passed over")
        });
        let title = "ways to ask for rows of frames with three parts or more";
        report.add_many(title, &self.rooms, |pair| format!("{pair:?}"));
    }
}

/// Enough room is 0, too little 9.
fn possible_rooms() -> Vec<(Room, u8)> {
    vec![
        (Room::Exact, answer::ACCEPTED),
        (Room::More, answer::ACCEPTED),
        (Room::OneLess, answer::OUTPUT),
        (Room::None, answer::OUTPUT),
        (Room::Any, answer::ACCEPTED),
        (Room::Any, answer::OUTPUT),
    ]
}

/// Only TLVs stand behind others that are skipped.
fn possible_behind_skipped() -> Vec<(u64, bool)> {
    let tlvs = [kind::LOCAL, kind::REMOTE, kind::EVENT].into_iter();
    tlvs.flat_map(|kind| [(kind, false), (kind, true)])
        .collect()
}
