//! The plain form of a frame by its octets, told without writing it again.

use super::message::{code, Information, Part};
use super::part::{list, list_start, Listed};
use super::read::{check, BODY, SHORTEST};
use super::write::{PLAIN_DESCRIPTORS, PLAIN_EVENTS};

#[cfg(test)]
mod tests;

/// Whether the frame is accepted and in the plain form.
pub fn is_plain(frame: &[u8]) -> bool {
    let Ok(heading) = check(frame) else {
        return false;
    };
    has_plain_flags(frame)
        && match heading.code {
            code::LOOPBACK => ends_at(frame, BODY + 1),
            // An accepted frame has 39 to 1,493 octets of an organization's data.
            code::ORGANIZATION => true,
            code => has_plain_list(code, frame),
        }
}

/// Zero in the ignored bits 15:7, and field 3 neither in bits 4:3 nor in 6:5.
fn has_plain_flags(frame: &[u8]) -> bool {
    let (high, low) = (frame[15], frame[16]);
    high == 0 && low & 0x80 == 0 && low & 0x18 != 0x18 && low & 0x60 != 0x60
}

/// Zeros after the last part or the command, and the shortest length. A list
/// that ends at octet 60 or later has no zero behind it.
fn ends_at(frame: &[u8], end: usize) -> bool {
    frame.len() == end.max(SHORTEST) && frame[end..].iter().all(|&octet| octet == 0)
}

fn has_plain_list(code: u8, frame: &[u8]) -> bool {
    let list = list(code, frame);
    let end = list.last().map(|last| last.next).or(list_start(code));
    let parts: Vec<Listed> = list.iter().map(|standing| standing.part).collect();
    let plain = match code {
        code::INFORMATION => are_plain_tlvs(&parts),
        code::NOTIFICATION => are_plain(&parts, PLAIN_EVENTS),
        code::RESPONSE => true, // any number of containers that a frame holds, or none
        _ => are_plain(&parts, PLAIN_DESCRIPTORS),
    };
    plain && end.is_some_and(|end| ends_at(frame, end))
}

/// No TLV, Local, or Local then Remote.
fn are_plain_tlvs(parts: &[Listed]) -> bool {
    use Listed::Information as Tlv;
    match parts {
        [] => true,
        [Tlv(Part::Local(local))] => is_zero_where_ignored(local),
        [Tlv(Part::Local(local)), Tlv(Part::Remote(remote))] => {
            is_zero_where_ignored(local) && is_zero_where_ignored(remote)
        }
        _ => false,
    }
}

/// State has three bits that are not ignored, configuration five, OAMPDU
/// configuration eleven. Parser 3 is reserved, and plain all the same.
fn is_zero_where_ignored(fields: &Information) -> bool {
    fields.state & 0xF8 == 0
        && fields.configuration & 0xE0 == 0
        && fields.pdu_configuration & 0xF800 == 0
}

/// One part or more, `most` at most, and no unknown TLV.
fn are_plain(parts: &[Listed], most: usize) -> bool {
    (1..=most).contains(&parts.len()) && !parts.contains(&Listed::Skipped)
}
