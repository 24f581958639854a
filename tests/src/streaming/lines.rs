//! Frames in lines of hexadecimal text, taken digit pair by digit pair.

use super::{Listing, Rows};
use crate::by_hand;
use crate::paper::{answer, LONGEST};

/// A line being read, and the rows not yet written.
pub struct Lines {
    frame: [u8; LONGEST],
    /// Characters of the present line so far, foreign ones counted too.
    characters: usize,
    /// The present line holds a foreign digit.
    foreign: bool,
    /// Number of the present line.
    number: u64,
    rows: Rows,
}

impl Default for Lines {
    fn default() -> Self {
        Lines {
            frame: [0; LONGEST],
            characters: 0,
            foreign: false,
            number: 1,
            rows: Rows::new(),
        }
    }
}

impl Listing for Lines {
    fn feed(&mut self, piece: &[u8]) {
        let mut rest = piece;
        loop {
            rest = self.take_octets(rest);
            let Some((&character, after)) = rest.split_first() else {
                return;
            };
            self.take_character(character);
            rest = after;
        }
    }

    /// The input is at its end: a last line needs no newline.
    fn finish(&mut self) {
        if self.characters > 0 {
            self.end_line();
        }
    }

    fn rows(&mut self) -> &mut Rows {
        &mut self.rows
    }
}

impl Lines {
    /// Takes the whole octets with which `piece` begins, as many as the frame has
    /// room for, and gives what is behind them.
    fn take_octets<'a>(&mut self, piece: &'a [u8]) -> &'a [u8] {
        if self.characters % 2 == 1 {
            return piece;
        }
        let room = &mut self.frame[LONGEST.min(self.characters / 2)..];
        let mut taken = 0;
        for (octet, pair) in room.iter_mut().zip(piece.chunks_exact(2)) {
            let (high, low) = (value(pair[0]), value(pair[1]));
            if (high | low) == FOREIGN {
                break;
            }
            *octet = (high << 4) | low;
            taken += 2;
        }
        self.characters += taken;
        &piece[taken..]
    }

    /// Takes what does not come as a whole octet into the frame: a newline, a foreign
    /// digit, one of two digits that came with two pieces. What is beyond the frame
    /// is counted only.
    fn take_character(&mut self, character: u8) {
        if character == b'\n' {
            return self.end_line();
        }
        let value = value(character);
        self.foreign |= value == FOREIGN;
        if let Some(octet) = self.frame.get_mut(self.characters / 2) {
            match self.characters % 2 {
                0 => *octet = value << 4,
                _ => *octet |= value,
            }
        }
        self.characters += 1;
    }

    fn end_line(&mut self) {
        let answer = self.answer();
        self.rows.put(self.number, &self.frame, answer);
        self.characters = 0;
        self.foreign = false;
        self.number += 1;
    }

    /// As `by_hand` answers.
    fn answer(&self) -> u64 {
        if self.foreign || self.characters % 2 == 1 {
            return answer::TEXT.into();
        }
        match self.frame.get(..self.characters / 2) {
            Some(frame) => by_hand::answer(frame),
            None => answer::LENGTH.into(),
        }
    }
}

/// The value of a foreign digit; it covers whatever it is joined with.
const FOREIGN: u8 = 0xFF;

/// A character's value as a digit.
fn value(character: u8) -> u8 {
    DIGITS[usize::from(character)]
}

static DIGITS: [u8; 256] = digits();

const fn digits() -> [u8; 256] {
    let mut table = [FOREIGN; 256];
    let text = b"0123456789abcdef";
    let mut value = 0;
    while value < text.len() {
        table[text[value] as usize] = value as u8;
        value += 1;
    }
    table
}
