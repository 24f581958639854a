//! Reading as one writes it by hand for speed: what the archive's and the lister's
//! is measured beside. It is written from the paper too, and apart from `paper`,
//! which is written to be read. Nothing is allocated, and no value is taken out of
//! the octets but to be stored. And the windows over bad frames, written so.

pub mod windows;

use crate::library::{kind, HEADER, ROW};
use crate::paper::{answer, code, BODY, DESTINATION, LONGEST, SHORTEST, SLOW_PROTOCOLS, SUBTYPE};
use std::slice::ChunksExactMut;

// The answer.

/// One TLV skipped, in an answer: they are counted above its own 8 bits.
const ONE_SKIPPED: u64 = 1 << ANSWER_BITS;
const ANSWER_BITS: u32 = 8;

/// The TLVs skipped in an accepted frame.
#[inline(always)]
pub fn skipped(answer: u64) -> u64 {
    answer >> ANSWER_BITS
}

#[inline(always)]
pub fn is_accepted(answer: u64) -> bool {
    answer as u8 == answer::ACCEPTED
}

/// The answer to a frame: 1 to 5 in order, then the body in octet order.
pub fn answer(frame: &[u8]) -> u64 {
    if !(SHORTEST..=LONGEST).contains(&frame.len()) {
        return answer::LENGTH.into();
    }
    if frame[..6] != DESTINATION {
        return answer::DESTINATION.into();
    }
    if frame[12..14] != SLOW_PROTOCOLS {
        return answer::TYPE.into();
    }
    if frame[14] != SUBTYPE {
        return answer::SUBTYPE.into();
    }
    match frame[17] {
        code::INFORMATION => answer_to_information(&frame[BODY..]),
        code::NOTIFICATION => answer_to_events(&frame[BODY + 2..]),
        code::REQUEST => answer_to_descriptors(&frame[BODY..]),
        code::RESPONSE => answer_to_containers(&frame[BODY..]),
        code::LOOPBACK => match frame[BODY] {
            1 | 2 => answer::ACCEPTED.into(),
            _ => answer::COMMAND.into(),
        },
        code::ORGANIZATION => answer::ACCEPTED.into(),
        _ => answer::CODE.into(),
    }
}

fn answer_to_information(body: &[u8]) -> u64 {
    let (mut at, mut seen, mut answer) = (0, 0, answer::ACCEPTED.into());
    loop {
        let (kind, length) = match tlv(body, at) {
            Tlv::Is(kind, length) => (kind, length),
            Tlv::End => return answer,
            Tlv::Broken => return answer::BROKEN.into(),
        };
        if kind <= 2 {
            if length != 16 {
                return answer::BROKEN.into();
            }
            if seen & kind != 0 {
                return answer::SECOND.into();
            }
            seen |= kind; // 1 and 2 are a bit each
        } else {
            answer += ONE_SKIPPED;
        }
        at += usize::from(length);
    }
}

fn answer_to_events(body: &[u8]) -> u64 {
    let (mut at, mut answer) = (0, answer::ACCEPTED.into());
    loop {
        let (kind, length) = match tlv(body, at) {
            Tlv::Is(kind, length) => (kind, length),
            Tlv::End => return answer,
            Tlv::Broken => return answer::BROKEN.into(),
        };
        let right = match kind {
            1 => 40,
            2 => 26,
            3 => 28,
            4 => 18,
            _ => {
                answer += ONE_SKIPPED;
                length
            }
        };
        if length != right {
            return answer::BROKEN.into();
        }
        at += usize::from(length);
    }
}

/// What stands at an octet of a walk.
enum Tlv {
    /// A TLV in the body, with its type and length.
    Is(u8, u8),
    End,
    Broken,
}

#[inline(always)]
fn tlv(body: &[u8], at: usize) -> Tlv {
    match body[at..] {
        [] | [0, ..] => Tlv::End,
        [kind, length, ..] if length >= 2 && usize::from(length) <= body.len() - at => {
            Tlv::Is(kind, length)
        }
        _ => Tlv::Broken,
    }
}

/// The strides from part to part end in the body, at a branch 0 or just behind it.
fn answer_to_descriptors(body: &[u8]) -> u64 {
    let mut at = 0;
    while at < body.len() {
        if body[at] == 0 {
            return answer::ACCEPTED.into();
        }
        at += 3;
    }
    ended(body, at)
}

fn answer_to_containers(body: &[u8]) -> u64 {
    let mut at = 0;
    while at < body.len() {
        if body[at] == 0 {
            return answer::ACCEPTED.into();
        }
        let Some(&width) = body.get(at + 3) else {
            return answer::BROKEN.into();
        };
        at += 4 + value_length(width);
    }
    ended(body, at)
}

#[inline(always)]
fn ended(body: &[u8], at: usize) -> u64 {
    match at == body.len() {
        true => answer::ACCEPTED.into(),
        false => answer::BROKEN.into(),
    }
}

/// The octets of a container's value; an indication has none.
#[inline(always)]
fn value_length(width: u8) -> usize {
    match width {
        0 => 128,
        1..=0x7F => width.into(),
        0x80.. => 0,
    }
}

// What is stored.

/// As `Library::read`.
pub fn read(frame: &[u8], header: &mut [u64]) -> u64 {
    let Some(header) = header.first_chunk_mut() else {
        return answer::OUTPUT.into();
    };
    let answer = answer(frame);
    if !is_accepted(answer) {
        return answer;
    }
    store_header(frame, answer, header);
    answer::ACCEPTED.into()
}

/// As `Library::read_all`. A refusal must leave what is lent as it was, so that
/// the parts are gone over twice: for the answer, and to be stored.
pub fn read_all(frame: &[u8], first: usize, header: &mut [u64], rows: &mut [u64]) -> u64 {
    let Some(header) = header.first_chunk_mut() else {
        return answer::OUTPUT.into();
    };
    let answer = answer(frame);
    if !is_accepted(answer) {
        return answer;
    }
    store_header(frame, answer, header);
    let mut rows = Rows {
        room: rows.chunks_exact_mut(ROW),
        first,
        count: 0,
    };
    match frame[17] {
        code::INFORMATION => rows.information(frame),
        code::NOTIFICATION => rows.events(frame),
        code::REQUEST => rows.descriptors(frame),
        code::RESPONSE => rows.containers(frame),
        _ => {}
    }
    (rows.count as u64) << 8
}

/// As `Library::descriptors`. They are counted first only where a list that fills
/// the frame would not have room: then nothing may be stored before it is known
/// that this one has.
pub fn descriptors(frame: &[u8], descriptors: &mut [u32]) -> u64 {
    let answer = answer(frame);
    if !is_accepted(answer) {
        return answer;
    }
    if frame[17] != code::REQUEST {
        return answer::VALUES.into();
    }
    let parts = frame[BODY..].chunks_exact(3);
    if descriptors.len() < parts.len() {
        let count = parts.take_while(|part| part[0] != 0).count();
        if descriptors.len() < count {
            return answer::OUTPUT.into();
        }
    }
    // Each is taken with the octet before it, which is then masked out.
    let (mut rest, mut count) = (&frame[BODY - 1..], 0);
    for place in descriptors {
        let Some(&four @ [_, 1..=0xFF, _, _]) = rest.first_chunk() else {
            break;
        };
        *place = u32::from_be_bytes(four) & 0xFF_FFFF;
        rest = &rest[3..];
        count += 1;
    }
    count << 8
}

/// The header of an accepted frame.
#[inline(always)]
fn store_header(frame: &[u8], answer: u64, header: &mut [u64; HEADER]) {
    let f: &[u8; BODY + 3] = frame.first_chunk().expect("a frame has 60 octets");
    let number = match f[17] {
        code::NOTIFICATION => two(f, BODY),
        code::LOOPBACK => f[BODY].into(),
        code::ORGANIZATION => three(f, BODY),
        _ => 0,
    };
    let source = u64::from_be_bytes([0, 0, f[6], f[7], f[8], f[9], f[10], f[11]]);
    *header = [source, two(f, 15), f[17].into(), number, skipped(answer)];
}

/// Room for rows, the first part that is stored in it, and how many were met.
/// Each walk is one over an accepted frame and tests nothing again.
struct Rows<'a> {
    room: ChunksExactMut<'a, u64>,
    first: usize,
    count: usize,
}

impl Rows<'_> {
    /// Meets a part. Its row is only made where it is stored.
    #[inline(always)]
    fn meet(&mut self, row: impl FnOnce() -> [u64; ROW]) {
        if self.count >= self.first {
            if let Some(room) = self.room.next() {
                room.copy_from_slice(&row());
            }
        }
        self.count += 1;
    }

    fn information(&mut self, frame: &[u8]) {
        let (mut at, mut skipped) = (BODY, 0);
        while let [kind @ 1..=0xFF, length, ..] = frame[at..] {
            let (from, next) = (at, at + usize::from(length));
            match kind {
                1 | 2 => self.meet(|| information_row(kind, next, skipped, &frame[from..])),
                _ => skipped += 1,
            }
            at = next;
        }
    }

    fn events(&mut self, frame: &[u8]) {
        let (mut at, mut skipped) = (BODY + 2, 0);
        while let [kind @ 1..=0xFF, length, ..] = frame[at..] {
            let (from, next) = (at, at + usize::from(length));
            match kind {
                1..=4 => self.meet(|| event_row(kind, next, skipped, &frame[from..])),
                _ => skipped += 1,
            }
            at = next;
        }
    }

    fn descriptors(&mut self, frame: &[u8]) {
        let mut at = BODY;
        while let Some(octets @ [1..=0xFF, _, _]) = frame[at..].first_chunk() {
            at += 3;
            self.meet(|| {
                let name = three(octets, 0);
                [kind::DESCRIPTOR, at as u64, 0, name, 0, 0, 0, 0, 0, 0]
            });
        }
    }

    fn containers(&mut self, frame: &[u8]) {
        let mut at = BODY;
        while let Some(octets @ &[1..=0xFF, _, _, width]) = frame[at..].first_chunk() {
            let (start, length) = (at + 4, value_length(width));
            at = start + length;
            self.meet(|| {
                let (kind, second) = match length {
                    0 => (kind::INDICATION, width.into()),
                    _ => (kind::VALUE, start as u64),
                };
                let name = three(octets, 0);
                [kind, at as u64, 0, name, second, length as u64, 0, 0, 0, 0]
            });
        }
    }
}

#[inline(always)]
fn information_row(kind: u8, next: usize, skipped: u64, octets: &[u8]) -> [u64; ROW] {
    let t: &[u8; 16] = octets.first_chunk().expect("the TLV is whole");
    [
        kind::LOCAL - 1 + u64::from(kind),
        next as u64,
        skipped,
        t[2].into(),
        two(t, 3),
        t[5].into(),
        t[6].into(),
        two(t, 7),
        three(t, 9),
        four(t, 12),
    ]
}

#[inline(always)]
fn event_row(kind: u8, next: usize, skipped: u64, octets: &[u8]) -> [u64; ROW] {
    let [window, threshold, errors, error_total, event_total] = match kind {
        1 => symbol_period(octets.first_chunk().expect("the TLV is whole")),
        2 => frames(octets.first_chunk().expect("the TLV is whole")),
        3 => frame_period(octets.first_chunk().expect("the TLV is whole")),
        _ => frame_seconds(octets.first_chunk().expect("the TLV is whole")),
    };
    [
        kind::EVENT,
        next as u64,
        skipped,
        kind.into(),
        two(octets, 2),
        window,
        threshold,
        errors,
        error_total,
        event_total,
    ]
}

// The five numbers of an event behind its timestamp, by its type.

fn symbol_period(t: &[u8; 40]) -> [u64; 5] {
    [
        eight(t, 4),
        eight(t, 12),
        eight(t, 20),
        eight(t, 28),
        four(t, 36),
    ]
}

fn frames(t: &[u8; 26]) -> [u64; 5] {
    [
        two(t, 4),
        four(t, 6),
        four(t, 10),
        eight(t, 14),
        four(t, 22),
    ]
}

fn frame_period(t: &[u8; 28]) -> [u64; 5] {
    [
        four(t, 4),
        four(t, 8),
        four(t, 12),
        eight(t, 16),
        four(t, 24),
    ]
}

fn frame_seconds(t: &[u8; 18]) -> [u64; 5] {
    [two(t, 4), two(t, 6), two(t, 8), four(t, 10), four(t, 14)]
}

// The number of so many octets that begins at a place.

#[inline(always)]
fn two(octets: &[u8], at: usize) -> u64 {
    u16::from_be_bytes([octets[at], octets[at + 1]]).into()
}

#[inline(always)]
fn three(octets: &[u8], at: usize) -> u64 {
    u64::from(octets[at]) << 16 | two(octets, at + 1)
}

#[inline(always)]
fn four(octets: &[u8], at: usize) -> u64 {
    let four = [octets[at], octets[at + 1], octets[at + 2], octets[at + 3]];
    u32::from_be_bytes(four).into()
}

#[inline(always)]
fn eight(octets: &[u8], at: usize) -> u64 {
    four(octets, at) << 32 | four(octets, at + 4)
}
