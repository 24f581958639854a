//! Records of captures: frames of all makers, records cut short by the capture, and
//! records that are too long to be read.

use super::captures::record_header;
use super::messages::any_code;
use super::valid::plain_or_loose;
use super::{any_frame, every_frame, Claim, Made};
use crate::paper::capture::{Order, Record};
use crate::paper::{answer, check, code, read, LONGEST, SHORTEST};
use crate::random::Random;
use std::collections::BTreeMap;

/// A record, and what its row must show. Its stored length is that of its octets.
#[derive(Clone, Debug)]
pub struct MadeRecord {
    pub times: [u32; 2],
    pub original: u32,
    pub octets: Vec<u8>,
    pub claim: Claim,
}

impl MadeRecord {
    /// A record at any time.
    fn new(random: &mut Random, original: u32, octets: Vec<u8>, claim: Claim) -> Self {
        MadeRecord {
            times: [(); 2].map(|()| random.value(4) as u32),
            original,
            octets,
            claim,
        }
    }

    /// A record that was stored as a whole: as long as on the link or, which no capture
    /// should hold, longer.
    fn whole(random: &mut Random, octets: Vec<u8>, claim: Claim) -> Self {
        let stored = octets.len();
        let original = match random.below(16) {
            0 => random.below(stored.max(1)),
            1 => stored.saturating_sub(1),
            _ => stored,
        };
        MadeRecord::new(random, original as u32, octets, claim)
    }

    /// Its octets in a file of this order, the header first.
    pub fn in_file(&self, order: Order) -> Vec<u8> {
        let stored = self.octets.len() as u32;
        let header = record_header(order, self.times, stored, self.original);
        [&header[..], &self.octets].concat()
    }

    /// Whether the record reads as claimed.
    pub fn holds(&self) -> bool {
        self.claim.fits(&self.record().frame().and_then(read))
    }

    /// The record as a file's reader finds it.
    pub fn record(&self) -> Record<'_> {
        Record {
            original: self.original,
            octets: &self.octets,
        }
    }
}

/// The kinds of rows that a record whose octets are all there can have.
#[derive(Clone, Copy, Debug, PartialEq, Eq, PartialOrd, Ord)]
pub enum Row {
    CutShort,
    /// 1 for more than 1,514 octets, which are not read.
    TooLong,
    /// By the reader.
    Refused(u8),
    /// With its code.
    Accepted(u8),
}

impl Row {
    pub fn all() -> Vec<Row> {
        let mut rows = vec![Row::CutShort, Row::TooLong];
        rows.extend((answer::LENGTH..=answer::COMMAND).map(Row::Refused));
        rows.extend(code::ALL.map(Row::Accepted));
        rows
    }

    pub fn of(record: &Record) -> Self {
        match record.frame() {
            Err(answer::CUT_SHORT) => Row::CutShort,
            Err(_) => Row::TooLong,
            Ok(frame) => match check(frame) {
                Err(answer) => Row::Refused(answer),
                Ok(heading) => Row::Accepted(heading.code),
            },
        }
    }
}

/// So many records or more: all the sets of frames that are gone through, then records of
/// any kind, and behind them what each row still lacks to come `least` times.
pub fn mixed_records(random: &mut Random, count: usize, least: usize) -> Vec<MadeRecord> {
    let every = every_frame(random).into_iter();
    let mut records: Vec<MadeRecord> = every.map(|made| of_frame(random, made)).collect();
    while records.len() < count {
        records.push(any_record(random));
    }
    let mut lacking: BTreeMap<Row, usize> = Row::all().iter().map(|row| (*row, least)).collect();
    for record in &records {
        let lacks = lacking.entry(Row::of(&record.record())).or_default();
        *lacks = lacks.saturating_sub(1);
    }
    for (row, lacks) in lacking {
        records.extend((0..lacks).map(|_| of_row(random, row)));
    }
    records
}

/// One record out of all makers.
pub fn any_record(random: &mut Random) -> MadeRecord {
    match random.below(16) {
        0 => cut_short(random),
        1 => too_long(random),
        _ => {
            let made = any_frame(random);
            of_frame(random, made)
        }
    }
}

/// A record whose row is of this kind.
fn of_row(random: &mut Random, row: Row) -> MadeRecord {
    match row {
        Row::CutShort => cut_short(random),
        Row::TooLong => too_long(random),
        Row::Accepted(code) => {
            let made = plain_or_loose(random, code);
            of_frame(random, made)
        }
        Row::Refused(_) => loop {
            let made = any_frame(random);
            let record = of_frame(random, made);
            if Row::of(&record.record()) == row {
                return record;
            }
        },
    }
}

pub fn of_frame(random: &mut Random, made: Made) -> MadeRecord {
    MadeRecord::whole(random, made.frame, made.claim)
}

/// A record that was cut short by the capture, or says so.
pub fn cut_short(random: &mut Random) -> MadeRecord {
    let mut octets = any_frame(random).frame;
    match random.below(4) {
        0 => octets.truncate(random.between(0, SHORTEST)),
        1 => octets.resize(random.between(LONGEST - 1, LONGEST + 200), 0xA1),
        _ => {}
    }
    let stored = octets.len() as u32;
    let original = match random.below(4) {
        0 => stored + 1,
        1 => u32::MAX,
        2 => stored + random.between(1, LONGEST) as u32,
        _ => u32::MAX - random.below((u32::MAX - stored) as usize) as u32,
    };
    let claim = Claim::Refused(answer::CUT_SHORT);
    MadeRecord::new(random, original, octets, claim)
}

/// A record longer than 1,514 octets that begins as a good frame.
pub fn too_long(random: &mut Random) -> MadeRecord {
    let length = match random.below(64) {
        // What a count of 16 bits would take for 60 octets.
        0 => 65_536 + SHORTEST,
        1 => random.between(LONGEST + 1, 100_000),
        2..=20 => LONGEST + 1,
        _ => random.between(LONGEST + 1, 3_000),
    };
    long(random, length)
}

/// A record of so many octets, more than 1,514.
pub fn long(random: &mut Random, length: usize) -> MadeRecord {
    let code = any_code(random);
    let mut octets = plain_or_loose(random, code).frame;
    octets.extend(random.octets(length - octets.len()));
    MadeRecord::whole(random, octets, Claim::Refused(answer::LENGTH))
}
