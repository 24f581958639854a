//! Writing a frame by itself: 10 for what has no plain form, then 9, then the
//! frame in the output's first octets (the paper's "Answer numbers" and "Frame
//! layout").

use super::answer;
use super::container::{are_whole_containers, PLAIN_CONTAINER_OCTETS};
use super::draft::{Draft, DraftBody};
use super::numbers::NUMBERS;
use super::read::{BODY, DESTINATION, SHORTEST, SLOW_PROTOCOLS, SUBTYPE};
use super::walk::{event_row, INFORMATION_LENGTH};
use std::ops::RangeInclusive;

#[cfg(test)]
mod tests;

/// The most events of a notification, and the log's greatest position. Change request
/// (vi): "The writer takes up to 16", "The plain form follows" and "Log positions run 1
/// to 16".
pub const PLAIN_EVENTS: usize = 16;
/// The most descriptors of a request.
pub const PLAIN_DESCRIPTORS: usize = 32;
/// Octets of an organization's data.
pub const PLAIN_DATA: RangeInclusive<usize> = 39..=1493;

/// Octets of an Information TLV's fields.
const INFORMATION_WIDTHS: [usize; NUMBERS] = [1, 2, 1, 1, 2, 3, 4];
/// The bits of the same fields that are not ignored.
const INFORMATION_BITS: [u32; NUMBERS] = [8, 16, 3, 5, 11, 24, 32];
const SOURCE_BITS: u32 = 48;
const OUI_BITS: u32 = 24;

/// Writes a draft: the frame's length, or the answer. A refusal leaves the whole
/// output as it was, a frame all octets behind it.
pub fn write(draft: &Draft, out: &mut [u8]) -> Result<usize, u8> {
    if !has_plain_form(draft) {
        return Err(answer::VALUES);
    }
    let length = end_of(&draft.body).max(SHORTEST);
    let frame = out.get_mut(..length).ok_or(answer::OUTPUT)?;
    fill(draft, frame);
    Ok(length)
}

// What has a plain form.

fn has_plain_form(draft: &Draft) -> bool {
    fits(draft.source, SOURCE_BITS)
        && are_plain_flags(draft.flags)
        && match &draft.body {
            DraftBody::Information { local, remote } => are_plain_tlvs(local, remote),
            DraftBody::Notification { events, .. } => are_plain_events(events),
            DraftBody::Request { descriptors } => are_plain_descriptors(descriptors),
            DraftBody::Response { containers } => are_plain_containers(containers),
            DraftBody::Loopback { command } => matches!(command, 1 | 2),
            DraftBody::Organization { oui, data } => {
                fits((*oui).into(), OUI_BITS) && PLAIN_DATA.contains(&data.len())
            }
        }
}

/// Whether a number has no bit above its lowest `bits`.
pub fn fits(number: u64, bits: u32) -> bool {
    number.checked_shr(bits).unwrap_or(0) == 0
}

/// Bits 6:0 only, and no field 3.
fn are_plain_flags(flags: u16) -> bool {
    let (local, remote) = (flags >> 3 & 3, flags >> 5 & 3);
    fits(flags.into(), 7) && local != 3 && remote != 3
}

/// No TLV, Local, or Local and Remote.
fn are_plain_tlvs(local: &[u64], remote: &[u64]) -> bool {
    match (local, remote) {
        ([], []) => true,
        (local, []) => is_plain_tlv(local),
        (local, remote) => is_plain_tlv(local) && is_plain_tlv(remote),
    }
}

fn is_plain_tlv(numbers: &[u64]) -> bool {
    let mut fields = numbers.iter().zip(INFORMATION_BITS);
    numbers.len() == NUMBERS && fields.all(|(&number, bits)| fits(number, bits))
}

fn are_plain_events(events: &[u64]) -> bool {
    let (count, odd) = (events.len() / NUMBERS, events.len() % NUMBERS);
    odd == 0 && (1..=PLAIN_EVENTS).contains(&count) && events.chunks(NUMBERS).all(is_plain_event)
}

/// Type 1 to 4, and each value within its width.
pub fn is_plain_event(event: &[u64]) -> bool {
    let [kind, values @ ..] = event else {
        return false;
    };
    let Some((_, widths)) = row(*kind) else {
        return false;
    };
    let mut fields = values.iter().zip(widths);
    values.len() == widths.len() && fields.all(|(&value, &width)| fits(value, 8 * width as u32))
}

/// A branch is an octet, and 0 is none.
fn are_plain_descriptors(descriptors: &[u32]) -> bool {
    let mut branches = descriptors.iter().map(|descriptor| descriptor >> 16);
    (1..=PLAIN_DESCRIPTORS).contains(&descriptors.len())
        && branches.all(|branch| (1..=0xFF).contains(&branch))
}

/// Whole containers, or none at all. Nothing is behind them that would be read as
/// the list's end: the writer puts that itself.
fn are_plain_containers(containers: &[u8]) -> bool {
    containers.len() <= PLAIN_CONTAINER_OCTETS && are_whole_containers(containers)
}

fn row(kind: u64) -> Option<&'static (usize, [usize; 6])> {
    event_row(u8::try_from(kind).ok()?)
}

// The octets of what has one.

/// The octet after the last part, the command or the data.
fn end_of(body: &DraftBody) -> usize {
    BODY + match body {
        DraftBody::Information { local, remote } => {
            let tlvs = [local, remote].into_iter().filter(|tlv| !tlv.is_empty());
            INFORMATION_LENGTH * tlvs.count()
        }
        DraftBody::Notification { events, .. } => {
            let rows = events.chunks(NUMBERS).filter_map(|event| row(event[0]));
            2 + rows.map(|(length, _)| length).sum::<usize>()
        }
        DraftBody::Request { descriptors } => 3 * descriptors.len(),
        DraftBody::Response { containers } => containers.len(),
        DraftBody::Loopback { .. } => 1,
        DraftBody::Organization { data, .. } => 3 + data.len(),
    }
}

fn fill(draft: &Draft, frame: &mut [u8]) {
    let mut pen = Pen { rest: frame };
    pen.octets(&DESTINATION);
    pen.number(draft.source, 6);
    pen.octets(&SLOW_PROTOCOLS);
    pen.number(SUBTYPE.into(), 1);
    pen.number(draft.flags.into(), 2);
    pen.number(draft.body.code().into(), 1);
    fill_body(&draft.body, &mut pen);
    pen.zeros();
}

fn fill_body(body: &DraftBody, pen: &mut Pen) {
    match body {
        DraftBody::Information { local, remote } => {
            put_information(1, local, pen);
            put_information(2, remote, pen);
        }
        DraftBody::Notification { number, events } => {
            pen.number((*number).into(), 2);
            for event in events.chunks(NUMBERS) {
                put_event(event, pen);
            }
        }
        DraftBody::Request { descriptors } => {
            for &descriptor in descriptors {
                pen.number(descriptor.into(), 3);
            }
        }
        DraftBody::Response { containers } => pen.octets(containers),
        DraftBody::Loopback { command } => pen.number((*command).into(), 1),
        DraftBody::Organization { oui, data } => {
            pen.number((*oui).into(), 3);
            pen.octets(data);
        }
    }
}

/// Puts a TLV of this type, or none where there are no numbers.
fn put_information(kind: u64, numbers: &[u64], pen: &mut Pen) {
    if numbers.is_empty() {
        return;
    }
    pen.number(kind, 1);
    pen.number(INFORMATION_LENGTH as u64, 1);
    for (&number, width) in numbers.iter().zip(INFORMATION_WIDTHS) {
        pen.number(number, width);
    }
}

fn put_event(event: &[u64], pen: &mut Pen) {
    let Some((length, widths)) = row(event[0]) else {
        return;
    };
    pen.number(event[0], 1);
    pen.number(*length as u64, 1);
    for (&value, &width) in event[1..].iter().zip(widths) {
        pen.number(value, width);
    }
}

/// Writes one field behind the other.
struct Pen<'a> {
    /// The octets not yet written.
    rest: &'a mut [u8],
}

impl Pen<'_> {
    fn octets(&mut self, octets: &[u8]) {
        let (here, behind) = std::mem::take(&mut self.rest).split_at_mut(octets.len());
        here.copy_from_slice(octets);
        self.rest = behind;
    }

    /// All numbers are big-endian. The usual widths stand by themselves because a
    /// copy of known length is far quicker.
    fn number(&mut self, number: u64, width: usize) {
        let octets = number.to_be_bytes();
        match width {
            1 => self.octets(&octets[7..]),
            2 => self.octets(&octets[6..]),
            4 => self.octets(&octets[4..]),
            8 => self.octets(&octets),
            _ => self.octets(&octets[8 - width..]),
        }
    }

    fn zeros(self) {
        self.rest.fill(0);
    }
}
