//! Lines of text: frames in hexadecimal, spoilt ones, and lines of odd lengths.

use super::messages::{any_code, descriptor};
use super::valid::{loose, plain_or_loose};
use super::{any_frame, encode, every_frame, Claim, Made};
use crate::compare;
use crate::paper::{answer, code, decode, read, Body, Message, LONGEST, SHORTEST};
use crate::random::Random;

/// A line without its newline, and what the frame in it must be answered.
#[derive(Clone, Debug)]
pub struct Line {
    pub text: Vec<u8>,
    pub claim: Claim,
}

impl Line {
    fn refused(text: Vec<u8>, answer: u8) -> Self {
        Line {
            text,
            claim: Claim::Refused(answer),
        }
    }

    /// Whether the line reads as claimed.
    pub fn holds(&self) -> bool {
        match decode(&self.text) {
            Ok(frame) => self.claim.fits(&read(&frame)),
            Err(answer) => self.claim.fits(&Err(answer)),
        }
    }
}

/// Lines for `frames` frames or more: all the sets that are gone through, then
/// frames of any kind, and about one spoilt line to sixteen of them.
pub fn mixed_lines(random: &mut Random, frames: usize) -> Vec<Line> {
    let mut lines = every_line(random);
    let every: Vec<Line> = every_frame(random).into_iter().map(of_frame).collect();
    let further = frames.saturating_sub(every.len());
    lines.extend(every);
    for _ in 0..further {
        lines.push(of_frame(any_frame(random)));
        if random.one_in(16) {
            let frame = any_frame(random).frame;
            lines.push(spoilt(random, &frame));
        }
    }
    lines
}

pub fn of_frame(made: Made) -> Line {
    Line {
        text: hex(&made.frame),
        claim: made.claim,
    }
}

fn hex(frame: &[u8]) -> Vec<u8> {
    compare::hex(frame).into_bytes()
}

/// The frame's line with an odd number of digits, or with a foreign one.
pub fn spoilt(random: &mut Random, frame: &[u8]) -> Line {
    let mut text = hex(frame);
    match random.below(6) {
        0 => text.push(random.pick(b"0123456789abcdef")),
        1 if !text.is_empty() => drop(text.pop()),
        2 => text.push(b'\r'),
        3 if !text.is_empty() => {
            let at = random.below(text.len());
            text[at] = foreign(random);
        }
        _ => {
            let at = random.between(0, text.len());
            text.insert(at, foreign(random));
        }
    }
    Line::refused(text, answer::TEXT)
}

/// A character that is no digit: a neighbour of the digits, an upper-case
/// letter, white space, a digit with its highest bit set, or any other.
fn foreign(random: &mut Random) -> u8 {
    const NEAR: &[u8; 20] = b"/:@`gGABCDEFx-\0\t\r \xB0\xE1";
    if random.one_in(2) {
        return random.pick(NEAR);
    }
    loop {
        let character = random.octet();
        if is_foreign(character) {
            return character;
        }
    }
}

fn is_foreign(character: u8) -> bool {
    !b"0123456789abcdef\n".contains(&character)
}

/// Lines that are made once: empty and short ones, every foreign character in
/// the first, a middle and the last place, and the long ones.
pub fn every_line(random: &mut Random) -> Vec<Line> {
    let mut lines = short_lines();
    lines.extend(foreign_lines(random));
    lines.extend(long_lines(random));
    lines
}

fn short_lines() -> Vec<Line> {
    let length = ["", "00", "0180c2000002"].map(|text| (text, answer::LENGTH));
    let text = [
        "0", "g", "000", "0g", "g0", " ", "\r", "\0", "\0\0", "\r\r", "0x", "-1", "AB", "\t",
    ]
    .map(|text| (text, answer::TEXT));
    length
        .into_iter()
        .chain(text)
        .map(|(text, answer)| Line::refused(text.as_bytes().to_vec(), answer))
        .collect()
}

fn foreign_lines(random: &mut Random) -> Vec<Line> {
    let mut lines = Vec::new();
    for character in (0..=255).filter(|&character| is_foreign(character)) {
        let code = any_code(random);
        let good = hex(&plain_or_loose(random, code).frame);
        for at in [0, random.between(1, good.len() - 2), good.len() - 1] {
            let mut text = good.clone();
            text[at] = character;
            lines.push(Line::refused(text, answer::TEXT));
        }
    }
    lines
}

/// Lines at and far beyond the working frame's length. Behind each stands a
/// short frame, which must show nothing of the octets before it.
fn long_lines(random: &mut Random) -> Vec<Line> {
    let digits = |count: usize| b"5".repeat(count);
    let with_last = |count: usize, last: u8| [digits(count - 1), vec![last]].concat();
    let mut lines = Vec::new();
    for long in [
        loopback_of(random, LONGEST - 1),
        loopback_of(random, LONGEST),
        loopback_of(random, LONGEST + 1),
        // Lengths that a count of 16 bits would take for 60 octets, or 120 digits.
        loopback_of(random, 65_536 + SHORTEST),
        loopback_of(random, 32_768 + SHORTEST),
        Line::refused(digits(2 * 1_000_000), answer::LENGTH),
        Line::refused(digits(2 * 1_000_000 + 1), answer::TEXT),
        Line::refused(digits(100_000), answer::LENGTH),
        Line::refused(digits(99_999), answer::TEXT),
        Line::refused(with_last(100_000, b'g'), answer::TEXT),
        Line::refused(with_last(100_000, b'\r'), answer::TEXT),
        Line::refused(with_last(100_001, b'G'), answer::TEXT),
        Line::refused(with_last(2 * LONGEST + 1, b'5'), answer::TEXT),
        Line::refused(with_last(2 * LONGEST + 2, b'F'), answer::TEXT),
    ] {
        lines.push(long);
        lines.extend(short_frames(random));
    }
    lines
}

fn loopback_of(random: &mut Random, length: usize) -> Line {
    let mut made = loose(random, code::LOOPBACK).made();
    let old = made.frame.len().min(length);
    made.frame.truncate(length);
    made.frame.extend(random.octets(length - old));
    if length > LONGEST {
        made.claim = Claim::Refused(answer::LENGTH);
    }
    of_frame(made)
}

/// A request that fills 60 octets, the same without its last octet, and a
/// response whose last container is cut off by the frame's end. Octets left
/// from a longer line would complete the last two.
fn short_frames(random: &mut Random) -> [Line; 3] {
    let descriptors = (0..14).map(|_| descriptor(random)).collect();
    let (source, flags) = (random.array(), random.value(2) as u16);
    let message = Message::without_skips(source, flags, Body::Request(descriptors));
    let full = encode::plain(&message);
    let short = Line::refused(hex(&full[..SHORTEST - 1]), answer::LENGTH);

    let header = encode::header(source, flags, code::RESPONSE);
    let cut_off = [header, [7, 0, 2, 0xA1].repeat(10), vec![7, 0]].concat();
    let broken = Line::refused(hex(&cut_off), answer::BROKEN);
    [
        of_frame(Made {
            frame: full,
            claim: Claim::Accepted(message),
        }),
        short,
        broken,
    ]
}
