//! Lines of the sent-event log and entries for it: good ones, and such as are
//! wrong for a reason that is known without reading or writing them.

use super::beyond::{beyond, narrow_fields, no_event_type};
use super::messages::event;
use crate::paper::{answer, log, NUMBERS, PLAIN_EVENTS};
use crate::random::Random;

/// A text and what its maker claims of it.
#[derive(Clone, Debug)]
pub struct LogLine {
    pub text: Vec<u8>,
    pub claim: LineClaim,
}

#[derive(Clone, Debug)]
pub enum LineClaim {
    /// It is a line of these values.
    Read([u64; log::FIELDS]),
    Refused(LineFault),
    /// A good line was edited; the maker cannot tell what it is now.
    Edited,
}

impl LogLine {
    /// Whether the paper's reader answers as claimed.
    pub fn holds(&self) -> bool {
        let read = log::read(&self.text);
        match &self.claim {
            LineClaim::Read(fields) => read == Ok(*fields),
            LineClaim::Refused(_) => read == Err(answer::TEXT),
            LineClaim::Edited => true,
        }
    }
}

/// A way not to be a line of the log.
#[derive(Clone, Copy, Debug, PartialEq, Eq, PartialOrd, Ord)]
pub enum LineFault {
    LeadingZero,
    Sign,
    CarriageReturn,
    NoNewline,
    SecondNewline,
    SecondLine,
    EightFields,
    TenFields,
    EmptyField,
    NoTab,
    ForeignCharacter,
    Nothing,
    NumberBeyond16Bits,
    Position0,
    PositionBehindLast,
    PositionBeyond,
    FirstPositionWithZero,
    LastPositionWithZero,
    NoEventType,
    ValueBeyondItsWidth,
    ValueBeyond64Bits,
}

impl LineFault {
    pub const ALL: [LineFault; 21] = [
        LineFault::LeadingZero,
        LineFault::Sign,
        LineFault::CarriageReturn,
        LineFault::NoNewline,
        LineFault::SecondNewline,
        LineFault::SecondLine,
        LineFault::EightFields,
        LineFault::TenFields,
        LineFault::EmptyField,
        LineFault::NoTab,
        LineFault::ForeignCharacter,
        LineFault::Nothing,
        LineFault::NumberBeyond16Bits,
        LineFault::Position0,
        LineFault::PositionBehindLast,
        LineFault::PositionBeyond,
        LineFault::FirstPositionWithZero,
        LineFault::LastPositionWithZero,
        LineFault::NoEventType,
        LineFault::ValueBeyondItsWidth,
        LineFault::ValueBeyond64Bits,
    ];
}

/// A line: good, wrong, or edited, in about equal parts.
pub fn any_log_line(random: &mut Random) -> LogLine {
    let fields = good_fields(random);
    match random.below(3) {
        0 => LogLine {
            text: line_of(fields.map(|field| field.to_string())),
            claim: LineClaim::Read(fields),
        },
        1 => {
            let fault = random.pick(&LineFault::ALL);
            LogLine {
                text: fault.text(random, fields),
                claim: LineClaim::Refused(fault),
            }
        }
        _ => {
            let mut text = line_of(fields.map(|field| field.to_string()));
            for _ in 0..random.between(1, 3) {
                edit(random, &mut text);
            }
            LogLine {
                text,
                claim: LineClaim::Edited,
            }
        }
    }
}

/// The nine values of a good line.
fn good_fields(random: &mut Random) -> [u64; log::FIELDS] {
    let kind = random.octet_between(1, 4);
    let mut fields = [0; log::FIELDS];
    fields[2..].copy_from_slice(&event(random, kind).numbers());
    fields[0] = random.value(2);
    fields[1] = random.between(1, PLAIN_EVENTS) as u64;
    fields
}

fn line_of(fields: impl IntoIterator<Item = String>) -> Vec<u8> {
    let fields: Vec<String> = fields.into_iter().collect();
    (fields.join("\t") + "\n").into_bytes()
}

impl LineFault {
    /// A text that has this fault and would be a line without it.
    fn text(self, random: &mut Random, mut values: [u64; log::FIELDS]) -> Vec<u8> {
        self.spoil_values(random, &mut values);
        let mut fields = values.map(|value| value.to_string()).to_vec();
        self.spoil_fields(random, &mut fields);
        let mut text = line_of(fields);
        self.spoil_text(random, &mut text);
        text
    }

    fn spoil_values(self, random: &mut Random, values: &mut [u64; log::FIELDS]) {
        match self {
            LineFault::NumberBeyond16Bits => values[0] = beyond(random, 16, 64),
            LineFault::Position0 => values[1] = 0,
            LineFault::PositionBehindLast => values[1] = BEHIND_LAST,
            LineFault::PositionBeyond => values[1] = position_beyond(random),
            LineFault::NoEventType => values[2] = no_event_type(random),
            LineFault::ValueBeyondItsWidth => {
                let (place, bits) = random.pick(&narrow_fields(values[2] as u8));
                values[2 + place] = beyond(random, bits, 64);
            }
            _ => {}
        }
    }

    fn spoil_fields(self, random: &mut Random, fields: &mut Vec<String>) {
        let place = random.below(fields.len());
        let field = &mut fields[place];
        match self {
            LineFault::LeadingZero => {
                let zeros = if random.one_in(4) { 20 } else { 1 };
                *field = "0".repeat(zeros) + field;
            }
            LineFault::FirstPositionWithZero => fields[1] = String::from("01"),
            LineFault::LastPositionWithZero => fields[1] = format!("0{PLAIN_EVENTS}"),
            LineFault::Sign => field.insert(0, if random.one_in(2) { '+' } else { '-' }),
            LineFault::EmptyField => field.clear(),
            LineFault::ForeignCharacter => {
                let at = random.between(0, field.len());
                field.insert(
                    at,
                    random.pick(&[' ', '\0', ',', '.', '/', ':', 'a', 'x', '\r']),
                );
            }
            LineFault::ValueBeyond64Bits => *field = beyond_64_bits(random, field),
            LineFault::EightFields => drop(fields.remove(place)),
            LineFault::TenFields => fields.insert(place, String::from("1")),
            _ => {}
        }
    }

    fn spoil_text(self, random: &mut Random, text: &mut Vec<u8>) {
        match self {
            LineFault::CarriageReturn => text.insert(text.len() - 1, b'\r'),
            LineFault::NoNewline => drop(text.pop()),
            LineFault::SecondNewline => {
                let at = if random.one_in(2) { 0 } else { text.len() };
                text.insert(at, b'\n');
            }
            LineFault::SecondLine => text.extend_from_within(..),
            LineFault::NoTab => {
                let tabs: Vec<usize> = (0..text.len()).filter(|&at| text[at] == b'\t').collect();
                text[random.pick(&tabs)] = random.pick(b" ,\n\x0B");
            }
            LineFault::Nothing => text.clear(),
            _ => {}
        }
    }
}

/// The first position that is too great.
const BEHIND_LAST: u64 = PLAIN_EVENTS as u64 + 1;

fn position_beyond(random: &mut Random) -> u64 {
    if random.one_in(2) {
        BEHIND_LAST + random.below(20) as u64
    } else {
        beyond(random, 8, 64)
    }
}

/// A decimal beyond 64 bits; taken modulo 2^64 it may be the old one.
fn beyond_64_bits(random: &mut Random, old: &str) -> String {
    let round = 1 << 64;
    let value: u128 = match random.below(4) {
        0 => round,
        1 => round + u128::from(random.number()),
        2 => return "9".repeat(random.between(21, 60)),
        _ => round + old.parse::<u128>().expect("a decimal"),
    };
    value.to_string()
}

/// Changes one character, takes it out, doubles it or puts another before it.
fn edit(random: &mut Random, text: &mut Vec<u8>) {
    let at = random.below(text.len());
    match random.below(4) {
        0 => text[at] = character(random),
        1 if text.len() > 1 => drop(text.remove(at)),
        2 => text.insert(at, text[at]),
        _ => text.insert(at, character(random)),
    }
}

/// Any character, most often one that a line holds.
fn character(random: &mut Random) -> u8 {
    match random.below(8) {
        0 => random.octet(),
        1 => random.pick(b"\r +-\0:/"),
        _ => random.pick(b"0123456789\t\n"),
    }
}

/// An entry for the log, and the fault its maker gave it.
#[derive(Clone, Debug)]
pub struct LogEntry {
    pub number: u64,
    pub position: u64,
    /// Seven numbers, if it is a good one.
    pub event: Vec<u64>,
    pub fault: Option<EntryFault>,
}

/// A way not to be an entry for the log.
#[derive(Clone, Copy, Debug, PartialEq, Eq, PartialOrd, Ord)]
pub enum EntryFault {
    NumberBeyond16Bits,
    Position0,
    PositionBehindLast,
    PositionBeyond,
    NotSevenNumbers,
    NoEventType,
    ValueBeyondItsWidth,
}

impl EntryFault {
    pub const ALL: [EntryFault; 7] = [
        EntryFault::NumberBeyond16Bits,
        EntryFault::Position0,
        EntryFault::PositionBehindLast,
        EntryFault::PositionBeyond,
        EntryFault::NotSevenNumbers,
        EntryFault::NoEventType,
        EntryFault::ValueBeyondItsWidth,
    ];
}

impl LogEntry {
    /// Whether the paper's writer answers as claimed.
    pub fn holds(&self) -> bool {
        let mut out = [0; log::LONGEST_LINE];
        let written = log::write(self.number, self.position, &self.event, &mut out);
        match self.fault {
            None => {
                let fields = [&[self.number, self.position], &self.event[..]].concat();
                let line = line_of(fields.iter().map(u64::to_string));
                written == Ok(line.len()) && out[..line.len()] == line
            }
            Some(_) => written == Err(answer::VALUES),
        }
    }
}

/// An entry; every other one is wrong.
pub fn any_log_entry(random: &mut Random) -> LogEntry {
    let [number, position, event @ ..] = good_fields(random);
    let mut entry = LogEntry {
        number,
        position,
        event: event.to_vec(),
        fault: random.one_in(2).then(|| random.pick(&EntryFault::ALL)),
    };
    match entry.fault {
        None => {}
        Some(EntryFault::NumberBeyond16Bits) => entry.number = beyond(random, 16, 64),
        Some(EntryFault::Position0) => entry.position = 0,
        Some(EntryFault::PositionBehindLast) => entry.position = BEHIND_LAST,
        Some(EntryFault::PositionBeyond) => entry.position = position_beyond(random),
        Some(EntryFault::NotSevenNumbers) => {
            let length = random.pick(&[0, 1, NUMBERS - 1, NUMBERS + 1, 2 * NUMBERS]);
            entry.event = event.iter().cycle().take(length).copied().collect();
        }
        Some(EntryFault::NoEventType) => entry.event[0] = no_event_type(random),
        Some(EntryFault::ValueBeyondItsWidth) => {
            let (place, bits) = random.pick(&narrow_fields(event[0] as u8));
            entry.event[place] = beyond(random, bits, 64);
        }
    }
    entry
}
