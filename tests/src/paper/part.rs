//! The parts of a frame's list with their places, for a caller who goes back to
//! the frame.

use super::message::{code, Container, Content, Descriptor, Event, Part};
use super::read::{BODY, LONGEST};
use super::walk;

/// A part, the octet of the frame after it, and the TLVs skipped before it.
#[derive(Clone, Copy, Debug, PartialEq, Eq)]
pub struct Standing {
    pub part: Listed,
    pub next: usize,
    pub skipped: usize,
}

/// A part of any list.
#[derive(Clone, Copy, Debug, PartialEq, Eq)]
pub enum Listed {
    /// A TLV of an unknown type.
    Skipped,
    Information(Part),
    Event(Event),
    Descriptor(Descriptor),
    /// A container whose value starts at octet `at` of the frame.
    Value {
        descriptor: Descriptor,
        at: usize,
        width: usize,
    },
    /// A container without value, its width octet as received.
    Indication {
        descriptor: Descriptor,
        width: u8,
    },
}

/// The most parts of a frame: descriptors, which are the shortest.
pub const MOST_PARTS: usize = (LONGEST - BODY) / 3;

/// Where a code's list begins; Loopback and organization specific have none.
pub fn list_start(code: u8) -> Option<usize> {
    match code {
        code::INFORMATION | code::REQUEST | code::RESPONSE => Some(BODY),
        code::NOTIFICATION => Some(BODY + 2), // behind the number
        _ => None,
    }
}

/// All that the list of an accepted frame holds, in order, skipped TLVs too.
pub fn list(code: u8, frame: &[u8]) -> Vec<Standing> {
    let mut parts = Vec::new();
    let mut at = list_start(code).unwrap_or(frame.len());
    let mut skipped = 0;
    while let Ok(Some((part, next))) = part_at(code, frame, at) {
        parts.push(Standing {
            part,
            next,
            skipped,
        });
        skipped += usize::from(part == Listed::Skipped);
        at = next;
    }
    parts
}

/// What stands at octet `at` of a frame of this code: a part and the octet after it,
/// nothing where the list ends, or answer 6.
fn part_at(code: u8, frame: &[u8], at: usize) -> Result<Option<(Listed, usize)>, u8> {
    let mut rest = &frame[at..];
    let part = match code {
        code::INFORMATION => walk::next_information(&mut rest)?
            .map(|tlv| tlv.map_or(Listed::Skipped, Listed::Information)),
        code::NOTIFICATION => {
            walk::next_event(&mut rest)?.map(|tlv| tlv.map_or(Listed::Skipped, Listed::Event))
        }
        code::REQUEST => walk::next_descriptor(&mut rest)?.map(Listed::Descriptor),
        code::RESPONSE => {
            walk::next_container(&mut rest)?.map(|container| place(container, frame, rest))
        }
        _ => None,
    };
    let next = frame.len() - rest.len();
    Ok(part.map(|part| (part, next)))
}

/// The container whose last octet stands before `rest`, the frame's end.
fn place(container: Container, frame: &[u8], rest: &[u8]) -> Listed {
    let descriptor = container.descriptor;
    match container.content {
        Content::Value(value) => Listed::Value {
            descriptor,
            at: frame.len() - rest.len() - value.len(),
            width: value.len(),
        },
        Content::Indication(width) => Listed::Indication { descriptor, width },
    }
}
