//! Reading a frame: answers 1 to 5 in order, then the body in octet order.

use super::answer;
use super::message::{code, Body, Descriptor, Message, Skipped};
use super::walk;
use std::borrow::Cow;

/// Octets in the shortest and in the longest frame, without FCS.
pub const SHORTEST: usize = 60;
pub const LONGEST: usize = 1514;

pub const DESTINATION: [u8; 6] = [0x01, 0x80, 0xC2, 0x00, 0x00, 0x02];
/// Length/Type of the slow protocols.
pub const SLOW_PROTOCOLS: [u8; 2] = [0x88, 0x09];
/// Subtype of OAM among the slow protocols.
pub const SUBTYPE: u8 = 3;

/// Where the body starts.
pub const BODY: usize = 18;

/// What a row of the listing shows of an accepted frame.
#[derive(Clone, Copy, Debug, PartialEq, Eq)]
pub struct Heading {
    pub code: u8,
    pub flags: u16,
    /// TLVs skipped in all.
    pub skipped: usize,
}

/// Reads a frame: what it says, or its answer.
pub fn read(frame: &[u8]) -> Result<Message<'_>, u8> {
    let (code, flags) = read_heading(frame)?;
    let (body, skipped) = read_body(code, &frame[BODY..])?;
    Ok(Message {
        source: [frame[6], frame[7], frame[8], frame[9], frame[10], frame[11]],
        flags,
        body,
        skipped,
    })
}

/// Reads a frame for no more than its heading, or its answer.
pub fn check(frame: &[u8]) -> Result<Heading, u8> {
    let message = read(frame)?;
    Ok(Heading {
        code: message.body.code(),
        flags: message.flags,
        skipped: message.skipped.total,
    })
}

/// Reads a Variable Request for its descriptors; 10 is another code.
pub fn asked(frame: &[u8]) -> Result<Vec<Descriptor>, u8> {
    match read(frame)?.body {
        Body::Request(descriptors) => Ok(descriptors),
        _ => Err(answer::VALUES),
    }
}

/// Code and flags, or answers 1 to 5.
fn read_heading(frame: &[u8]) -> Result<(u8, u16), u8> {
    if !(SHORTEST..=LONGEST).contains(&frame.len()) {
        return Err(answer::LENGTH);
    }
    if frame[0..6] != DESTINATION {
        return Err(answer::DESTINATION);
    }
    if frame[12..14] != SLOW_PROTOCOLS {
        return Err(answer::TYPE);
    }
    if frame[14] != SUBTYPE {
        return Err(answer::SUBTYPE);
    }
    let flags = u16::from_be_bytes([frame[15], frame[16]]);
    match frame[17] {
        0x05..=0xFD | 0xFF => Err(answer::CODE),
        code => Ok((code, flags)),
    }
}

/// Answers 6 to 8. The body is at least 42 octets and its code a known one.
fn read_body(code: u8, body: &[u8]) -> Result<(Body<'_>, Skipped), u8> {
    match code {
        code::INFORMATION => read_information(body),
        code::NOTIFICATION => read_notification(body),
        _ => Ok((read_other_body(code, body)?, Skipped::default())),
    }
}

fn read_information(body: &[u8]) -> Result<(Body<'_>, Skipped), u8> {
    let (mut parts, mut skipped) = (Vec::new(), Skipped::default());
    skipped.total = walk::information(body, |part, before| {
        parts.push(part);
        skipped.before.push(before);
    })?;
    Ok((Body::Information(parts), skipped))
}

fn read_notification(body: &[u8]) -> Result<(Body<'_>, Skipped), u8> {
    let number = u16::from_be_bytes([body[0], body[1]]);
    let (mut events, mut skipped) = (Vec::new(), Skipped::default());
    skipped.total = walk::events(&body[2..], |event, before| {
        events.push(event);
        skipped.before.push(before);
    })?;
    Ok((Body::Notification { number, events }, skipped))
}

/// A body without TLVs.
fn read_other_body(code: u8, body: &[u8]) -> Result<Body<'_>, u8> {
    Ok(match code {
        code::REQUEST => {
            let mut descriptors = Vec::new();
            walk::descriptors(body, |descriptor| descriptors.push(descriptor))?;
            Body::Request(descriptors)
        }
        code::RESPONSE => {
            let mut containers = Vec::new();
            walk::containers(body, |container| containers.push(container))?;
            Body::Response(containers)
        }
        code::LOOPBACK => Body::Loopback {
            command: read_command(body)?,
        },
        _ => Body::Organization {
            oui: [body[0], body[1], body[2]],
            data: Cow::Borrowed(&body[3..]),
        },
    })
}

/// Only octet 18 of a Loopback Control frame is looked at.
fn read_command(body: &[u8]) -> Result<u8, u8> {
    match body[0] {
        command @ (1 | 2) => Ok(command),
        _ => Err(answer::COMMAND),
    }
}
