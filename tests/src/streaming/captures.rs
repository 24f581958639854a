//! Records of a capture: one that a piece holds as a whole is read where it stands, and
//! only one that comes with several pieces is copied.

use super::{Listing, Rows};
use crate::by_hand;
use crate::paper::answer;
use crate::paper::capture::{ETHERNET, FILE_HEADER, MAGIC, RECORD_HEADER};
use crate::paper::LONGEST;

/// A capture being read, and the rows not yet written.
pub struct Captures {
    place: Place,
    /// The file has the lowest octet of a number first.
    little: bool,
    /// The first octets of a header or of a record, where others are still to come.
    kept: [u8; RECORD_HEADER + LONGEST],
    held: usize,
    /// Number of the present record.
    number: u64,
    rows: Rows,
}

/// What the next octets belong to.
enum Place {
    FileHeader,
    /// A record's header or its frame.
    Record,
    /// A record that is passed over: so many octets, and then its answer.
    Passed(u32, u8),
    /// Behind a file header that is no capture's.
    Nowhere,
}

impl Default for Captures {
    fn default() -> Self {
        Captures {
            place: Place::FileHeader,
            little: false,
            kept: [0; RECORD_HEADER + LONGEST],
            held: 0,
            number: 1,
            rows: Rows::new(),
        }
    }
}

impl Listing for Captures {
    fn feed(&mut self, piece: &[u8]) {
        let mut rest = piece;
        while !rest.is_empty() {
            rest = match self.place {
                Place::FileHeader => self.take_file_header(rest),
                Place::Record if self.held == 0 => self.take_records(rest),
                Place::Record => self.take_kept(rest),
                Place::Passed(left, answer) => self.pass_over(rest, left, answer),
                Place::Nowhere => &[],
            };
        }
    }

    fn finish(&mut self) {
        match self.place {
            Place::FileHeader => self.rows.put_refused(0, answer::FILE_HEADER),
            Place::Record if self.held == 0 => {}
            Place::Record | Place::Passed(..) => {
                self.rows.put_refused(self.number, answer::FILE_END);
            }
            Place::Nowhere => {}
        }
    }

    fn rows(&mut self) -> &mut Rows {
        &mut self.rows
    }
}

impl Captures {
    fn take_file_header<'a>(&mut self, rest: &'a [u8]) -> &'a [u8] {
        let rest = self.keep(rest, FILE_HEADER);
        if self.held < FILE_HEADER {
            return rest;
        }
        self.held = 0;
        self.little = self.kept[..4] == MAGIC.to_le_bytes();
        let is_capture = number(self.little, &self.kept, 0) == MAGIC
            && number(self.little, &self.kept, FILE_HEADER - 4) == ETHERNET;
        if is_capture {
            self.place = Place::Record;
        } else {
            self.rows.put_refused(0, answer::FILE_HEADER);
            self.place = Place::Nowhere;
        }
        rest
    }

    /// Takes the records that stand as a whole in `piece`, and keeps what of the next one
    /// does.
    fn take_records<'a>(&mut self, piece: &'a [u8]) -> &'a [u8] {
        let mut rest = piece;
        while rest.len() >= RECORD_HEADER {
            let (header, behind) = rest.split_at(RECORD_HEADER);
            let stored = match self.frame_length(header) {
                Ok(stored) => stored,
                Err((stored, answer)) => {
                    rest = self.pass_over(behind, stored, answer);
                    continue;
                }
            };
            if behind.len() < stored {
                return self.keep(rest, RECORD_HEADER + stored);
            }
            let (frame, behind) = behind.split_at(stored);
            self.rows.put(self.number, frame, by_hand::answer(frame));
            self.number += 1;
            rest = behind;
        }
        self.keep(rest, RECORD_HEADER)
    }

    /// Takes more of a record of which some octets are kept.
    fn take_kept<'a>(&mut self, piece: &'a [u8]) -> &'a [u8] {
        let rest = self.keep(piece, RECORD_HEADER.max(self.held));
        if self.held < RECORD_HEADER {
            return rest;
        }
        let stored = match self.frame_length(&self.kept) {
            Ok(stored) => stored,
            Err((stored, answer)) => {
                self.held = 0;
                return self.pass_over(rest, stored, answer);
            }
        };
        let rest = self.keep(rest, RECORD_HEADER + stored);
        if self.held == RECORD_HEADER + stored {
            let frame = &self.kept[RECORD_HEADER..self.held];
            self.rows.put(self.number, frame, by_hand::answer(frame));
            self.number += 1;
            self.held = 0;
        }
        rest
    }

    /// Passes over what of a record's octets is in `rest`; the row comes with the last.
    fn pass_over<'a>(&mut self, rest: &'a [u8], stored: u32, answer: u8) -> &'a [u8] {
        let count = rest.len().min(stored as usize);
        let left = stored - count as u32;
        if left > 0 {
            self.place = Place::Passed(left, answer);
        } else {
            self.rows.put_refused(self.number, answer);
            self.number += 1;
            self.place = Place::Record;
        }
        &rest[count..]
    }

    /// The length of the frame behind a record's header; or that of octets which are
    /// passed over, with their answer.
    #[inline(always)]
    fn frame_length(&self, header: &[u8]) -> Result<usize, (u32, u8)> {
        let stored = number(self.little, header, 8);
        if stored < number(self.little, header, 12) {
            return Err((stored, answer::CUT_SHORT));
        }
        match stored as usize > LONGEST {
            true => Err((stored, answer::LENGTH)),
            false => Ok(stored as usize),
        }
    }

    /// Keeps octets until so many are held, and gives what is behind them.
    fn keep<'a>(&mut self, rest: &'a [u8], needed: usize) -> &'a [u8] {
        let count = rest.len().min(needed - self.held);
        let (now, behind) = rest.split_at(count);
        self.kept[self.held..self.held + count].copy_from_slice(now);
        self.held += count;
        behind
    }
}

#[inline(always)]
fn number(little: bool, octets: &[u8], at: usize) -> u32 {
    let four = [octets[at], octets[at + 1], octets[at + 2], octets[at + 3]];
    match little {
        true => u32::from_le_bytes(four),
        false => u32::from_be_bytes(four),
    }
}
