//! Writing: drafts good and bad into outputs of every length, what was written
//! read back, and plain frames read and written again.

use super::contest::Contest;
use super::lent::{Lent, Room};
use super::report::{Report, Tally};
use super::storms::Storms;
use super::THIS_PACKAGE;
use crate::compare::{from_difference, hex};
use crate::generate::{any_draft, faults, near_plain, DraftClaim, Fault, MadeDraft};
use crate::library::{answer_of, length_of, message, writer_name, Library, Unread};
use crate::paper::{
    answer, check, code, is_plain, list, read, Draft, DraftBody, Message, BODY, LONGEST, NUMBERS,
    SHORTEST,
};
use crate::random::Random;

/// Tries `messages` drafts of every code, and as many frames of every code.
pub fn writers(library: &dyn Library, seed: u64, messages: usize) -> Report {
    let mut trial = Trial::new(library, seed, messages);
    for code in code::ALL {
        for _ in 0..messages {
            let made = any_draft(&mut trial.random, code);
            trial.write(&made);
        }
    }
    for code in code::ALL {
        for _ in 0..messages {
            let frame = near_plain(&mut trial.random, code);
            trial.write_again(&frame);
        }
    }
    trial.report()
}

struct Trial<'a> {
    contest: Contest<'a>,
    random: Random,
    answers: Tally<(u8, u8)>,
    faults: Tally<(u8, Fault)>,
    rooms: Tally<(Room, u8)>,
    /// The shortest frames in the longest outputs.
    short_in_long: Tally<u8>,
    read_back: Tally<u8>,
    /// Frames by the code of those that are accepted, plain or not.
    written_again: Tally<(Option<u8>, bool)>,
    storms: Storms,
}

impl<'a> Trial<'a> {
    fn new(library: &'a dyn Library, seed: u64, messages: usize) -> Self {
        Trial {
            contest: Contest::new(library),
            random: Random::new(seed),
            answers: Tally::expecting(each_with(&code::ALL, &ANSWERS)),
            faults: Tally::expecting(every_fault()),
            rooms: Tally::expecting(possible_rooms()),
            short_in_long: Tally::expecting(code::ALL),
            read_back: Tally::expecting(code::ALL),
            written_again: Tally::expecting(plain_or_not()),
            storms: Storms::new(messages),
        }
    }

    /// Writes a draft into outputs of every kind of length.
    fn write(&mut self, made: &MadeDraft) {
        if !made.holds() {
            self.contest.note(THIS_PACKAGE, || format!("{made:?}"));
        }
        let code = made.draft.body.code();
        if let DraftClaim::Refused(fault) = made.claim {
            self.faults.count((code, fault));
        }
        for room in Room::for_frames() {
            let length = room.of(&mut self.random, made.length);
            let lent = Lent::octets(&mut self.random, length);
            let called = self.contest.call(
                writer_name(code),
                [lent],
                || made.draft.to_string(),
                |library, [out]| library.write(&made.draft, out),
            );
            let answer = answer_of(called.outcome);
            self.answers.count((code, answer));
            self.rooms.count((room, answer));
            if let DraftBody::Notification { events, .. } = &made.draft.body {
                self.storms
                    .note(events.len() / NUMBERS, room, called.outcome);
            }
            if (room, length_of(called.outcome)) == (Room::Longest, SHORTEST) {
                self.short_in_long.count(code);
            }
            if !called.agreed {
                return; // the same draft would only differ again
            }
            if let (Room::Exact, DraftClaim::Written(meant)) = (room, &made.claim) {
                self.read_back(called.lent[0].slice(), meant);
                if code == code::RESPONSE {
                    self.write_again(called.lent[0].slice());
                }
            }
        }
    }

    /// A written frame must be plain, and say what was meant both to the paper's
    /// reader and to the library's.
    fn read_back(&mut self, frame: &[u8], meant: &Message) {
        self.read_back.count(meant.body.code());
        if read(frame).as_ref() != Ok(meant) || !is_plain(frame) {
            self.contest
                .note(THIS_PACKAGE, || format!("{meant:?} is not {}", hex(frame)));
        }
        let found = message(self.contest.library, frame);
        if found.as_ref() != Ok(meant) {
            self.contest.note("what was written, read back", || {
                let meant = Ok::<_, Unread>(meant);
                let [meant, found] = from_difference(&format!("{meant:?}"), &format!("{found:?}"));
                format!("{}\n      meant {meant}\n      found {found}", hex(frame))
            });
        }
    }

    /// Reads and writes through the library alone: the same octets must come
    /// exactly of a plain frame.
    fn write_again(&mut self, frame: &[u8]) {
        let plain = is_plain(frame);
        let code = check(frame).ok().map(|heading| heading.code);
        self.written_again.count((code, plain));
        if code == Some(code::NOTIFICATION) {
            self.storms.note_again(frame, plain);
        }
        let mut out = [0xEE; LONGEST]; // no zeros, which a frame may end with
        let again = written_again(self.contest.library, frame, &mut out);
        if (again == Ok(frame)) != plain {
            self.contest.note("a frame, read and written again", || {
                let expected = if plain { "plain" } else { "not plain" };
                let found = again.map(hex);
                format!("{}\n      is {expected}, found {found:?}", hex(frame))
            });
        }
    }

    fn report(self) -> Report {
        let mut report = Report::of(&self.contest);
        report.add("calls", &self.answers, |&(code, answer)| {
            format!("{}, answered {answer}", writer_name(code))
        });
        report.add("outputs", &self.rooms, |(room, answer)| {
            format!("of the length {room:?}, answered {answer}")
        });
        let title = "frames of 60 octets in outputs of 1,514";
        report.add(title, &self.short_in_long, |&code| {
            writer_name(code).to_string()
        });
        let title = "ways to have no plain form";
        report.add_many(title, &self.faults, |(code, fault)| {
            format!("code {code:02X}, {fault:?}")
        });
        report.add("written frames read back", &self.read_back, |code| {
            format!("of code {code:02X}")
        });
        let title = "frames read and written again";
        report.add(title, &self.written_again, |&(code, plain)| {
            let not = if plain { "" } else { "not " };
            match code {
                None => String::from("refused"),
                Some(code) => format!("of code {code:02X}, {not}plain"),
            }
        });
        self.storms.report(&mut report);
        report
    }
}

/// Why there is no frame written again.
#[derive(Debug, PartialEq, Eq)]
enum NotAgain {
    /// Reading it was refused, or made no sense.
    Unread(Unread),
    /// A response's containers are not those that stand in the frame.
    OtherContainers,
    /// Writing was refused.
    Refused(u8),
    /// A length beyond the output.
    Length(usize),
}

/// The octets of a frame that is read and written through a library.
fn written_again<'a>(
    library: &dyn Library,
    frame: &[u8],
    out: &'a mut [u8],
) -> Result<&'a [u8], NotAgain> {
    let message = message(library, frame).map_err(NotAgain::Unread)?;
    let draft = Draft::of(&message);
    if let DraftBody::Response { containers } = &draft.body {
        if is_plain(frame) && containers != containers_in(frame) {
            return Err(NotAgain::OtherContainers);
        }
    }
    let outcome = library.write(&draft, out);
    match (answer_of(outcome), length_of(outcome)) {
        (answer::ACCEPTED, length) => out.get(..length).ok_or(NotAgain::Length(length)),
        (refusal, _) => Err(NotAgain::Refused(refusal)),
    }
}

/// What a caller hands to the writer of a plain response: the octets from 18 to the
/// end of the last container.
fn containers_in(frame: &[u8]) -> &[u8] {
    let list = list(code::RESPONSE, frame);
    let end = list.last().map_or(BODY, |last| last.next);
    &frame[BODY..end]
}

/// What a writer answers.
const ANSWERS: [u8; 3] = [answer::ACCEPTED, answer::OUTPUT, answer::VALUES];

fn each_with<A: Copy, B: Copy>(first: &[A], second: &[B]) -> Vec<(A, B)> {
    let pairs = |&one: &A| second.iter().map(move |&other| (one, other));
    first.iter().flat_map(pairs).collect()
}

fn every_fault() -> Vec<(u8, Fault)> {
    let of_code = |code| faults(code).into_iter().map(move |fault| (code, fault));
    code::ALL.into_iter().flat_map(of_code).collect()
}

/// Enough room is never answered 9, too little never 0.
fn possible_rooms() -> Vec<(Room, u8)> {
    let impossible = |&(room, answer): &(Room, u8)| match room {
        Room::Exact | Room::More | Room::Longest => answer == answer::OUTPUT,
        Room::OneLess | Room::None => answer == answer::ACCEPTED,
        Room::Any => false,
    };
    let rooms: Vec<Room> = Room::for_frames().collect();
    let mut rooms = each_with(&rooms, &ANSWERS);
    rooms.retain(|room| !impossible(room));
    rooms
}

/// Every code plain and not plain, and refused ones.
fn plain_or_not() -> Vec<(Option<u8>, bool)> {
    let mut wanted = each_with(&code::ALL.map(Some), &[false, true]);
    wanted.push((None, false));
    wanted
}
