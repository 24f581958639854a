//! The walks over a body's parts. Each hands every whole part to `found` in
//! octet order and gives the answer at which it had to stop. A TLV is handed on with
//! the number of those skipped before it, and at its end a TLV walk gives the total.

use super::answer;
use super::message::{Container, Content, Descriptor, Event, Information, Part};
use std::borrow::Cow;

/// Length of a Local or Remote Information TLV.
pub const INFORMATION_LENGTH: usize = 16;

const LOCAL: u8 = 1;
const REMOTE: u8 = 2;

/// The paper's table of event TLVs, types 1 to 4: the length, then the width in
/// octets of timestamp, window, threshold, errors, error total and event total.
pub const EVENTS: [(usize, [usize; 6]); 4] = [
    (40, [2, 8, 8, 8, 8, 4]),
    (26, [2, 2, 4, 4, 8, 4]),
    (28, [2, 4, 4, 4, 8, 4]),
    (18, [2, 2, 2, 2, 4, 4]),
];

/// The TLV walk of code 00, from octet 18.
pub fn information(body: &[u8], mut found: impl FnMut(Part, usize)) -> Result<usize, u8> {
    let mut rest = body;
    let (mut local, mut remote) = (false, false);
    let mut skipped = 0;
    while let Some(tlv) = next_information(&mut rest)? {
        let Some(part) = tlv else {
            skipped += 1;
            continue;
        };
        match part {
            Part::Local(_) => once(&mut local)?,
            Part::Remote(_) => once(&mut remote)?,
        }
        found(part, skipped);
    }
    Ok(skipped)
}

/// The TLV walk of code 01, from octet 20.
pub fn events(body: &[u8], mut found: impl FnMut(Event, usize)) -> Result<usize, u8> {
    let mut rest = body;
    let mut skipped = 0;
    while let Some(tlv) = next_event(&mut rest)? {
        match tlv {
            Some(event) => found(event, skipped),
            None => skipped += 1,
        }
    }
    Ok(skipped)
}

/// The list of code 02.
pub fn descriptors(body: &[u8], mut found: impl FnMut(Descriptor)) -> Result<(), u8> {
    let mut rest = body;
    while let Some(descriptor) = next_descriptor(&mut rest)? {
        found(descriptor);
    }
    Ok(())
}

/// The list of code 03.
pub fn containers<'a>(body: &'a [u8], mut found: impl FnMut(Container<'a>)) -> Result<(), u8> {
    let mut rest = body;
    while let Some(container) = next_container(&mut rest)? {
        found(container);
    }
    Ok(())
}

/// Takes one TLV of code 00 off `rest`, or nothing where the walk ends. Unknown
/// types are skipped: there the TLV has no part.
pub fn next_information(rest: &mut &[u8]) -> Result<Option<Option<Part>>, u8> {
    let tlv = next_tlv(rest, information_length)?;
    Ok(tlv.map(|(kind, value)| match kind {
        LOCAL => Some(Part::Local(read_information(value))),
        REMOTE => Some(Part::Remote(read_information(value))),
        _ => None,
    }))
}

/// Takes one TLV of code 01 off `rest` in the same way.
pub fn next_event(rest: &mut &[u8]) -> Result<Option<Option<Event>>, u8> {
    let tlv = next_tlv(rest, event_length)?;
    Ok(tlv.map(|(kind, value)| {
        let (_, widths) = event_row(kind)?;
        Some(read_event(kind, widths, value))
    }))
}

/// Takes one TLV off `rest`: its type and value, or nothing where the walk ends.
/// `known` tells the length that a known type must have.
fn next_tlv<'a>(
    rest: &mut &'a [u8],
    known: fn(u8) -> Option<usize>,
) -> Result<Option<(u8, &'a [u8])>, u8> {
    let (kind, length) = match **rest {
        [] | [0, ..] => return Ok(None),
        [_] => return Err(answer::BROKEN),
        [kind, length, ..] => (kind, usize::from(length)),
    };
    let another_length = known(kind).is_some_and(|right| right != length);
    if length < 2 || length > rest.len() || another_length {
        return Err(answer::BROKEN);
    }
    let tlv = take(rest, length);
    Ok(Some((kind, &tlv[2..])))
}

/// Takes one descriptor off `rest`, or nothing where the list ends: at the
/// frame's end, or at branch 0 even if its leaf is cut off.
pub fn next_descriptor(rest: &mut &[u8]) -> Result<Option<Descriptor>, u8> {
    let descriptor = match **rest {
        [] | [0, ..] => return Ok(None),
        [branch, high, low, ..] => Descriptor {
            branch,
            leaf: u16::from_be_bytes([high, low]),
        },
        _ => return Err(answer::BROKEN),
    };
    take(rest, 3);
    Ok(Some(descriptor))
}

/// Takes one container off `rest`, or nothing where the list ends.
pub fn next_container<'a>(rest: &mut &'a [u8]) -> Result<Option<Container<'a>>, u8> {
    let Some(descriptor) = next_descriptor(rest)? else {
        return Ok(None);
    };
    Ok(Some(Container {
        descriptor,
        content: next_content(rest)?,
    }))
}

/// Takes a container's width octet and value off `rest`.
fn next_content<'a>(rest: &mut &'a [u8]) -> Result<Content<'a>, u8> {
    let Some(&width) = rest.first() else {
        return Err(answer::BROKEN);
    };
    take(rest, 1);
    let length = match width {
        0 => 128,
        1..=0x7F => usize::from(width),
        0x80.. => return Ok(Content::Indication(width)),
    };
    if length > rest.len() {
        return Err(answer::BROKEN);
    }
    Ok(Content::Value(Cow::Borrowed(take(rest, length))))
}

/// Splits off the first `count` octets; the caller has seen that they are there.
fn take<'a>(rest: &mut &'a [u8], count: usize) -> &'a [u8] {
    let (taken, left) = rest.split_at(count);
    *rest = left;
    taken
}

/// Answers 7 the second time it is asked with the same `seen`.
fn once(seen: &mut bool) -> Result<(), u8> {
    if *seen {
        return Err(answer::SECOND);
    }
    *seen = true;
    Ok(())
}

fn information_length(kind: u8) -> Option<usize> {
    matches!(kind, LOCAL | REMOTE).then_some(INFORMATION_LENGTH)
}

fn event_length(kind: u8) -> Option<usize> {
    event_row(kind).map(|(length, _)| *length)
}

/// The table's row of an event type, 1 to 4.
pub fn event_row(kind: u8) -> Option<&'static (usize, [usize; 6])> {
    EVENTS.get(usize::from(kind).checked_sub(1)?)
}

/// `value` is the 14 octets behind the TLV's type and length.
fn read_information(value: &[u8]) -> Information {
    let octet = |place: usize| value[place];
    let pair = |place: usize| u16::from_be_bytes([value[place], value[place + 1]]);
    Information {
        version: octet(0),
        revision: pair(1),
        state: octet(3),
        configuration: octet(4),
        pdu_configuration: pair(5),
        oui: [octet(7), octet(8), octet(9)],
        vendor: [octet(10), octet(11), octet(12), octet(13)],
    }
}

fn read_event(kind: u8, widths: &[usize; 6], value: &[u8]) -> Event {
    let mut rest = value;
    let values = widths.map(|width| number(take(&mut rest, width)));
    Event { kind, values }
}

/// All numbers are big-endian.
fn number(octets: &[u8]) -> u64 {
    octets
        .iter()
        .fold(0, |sum, &octet| (sum << 8) | u64::from(octet))
}
