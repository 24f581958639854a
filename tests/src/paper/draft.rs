//! What is to be written, in the numbers that a caller lends.

use super::container::container_octets;
use super::message::{code, Body, Descriptor, Event, Message, Part};
use super::numbers::joined;
use crate::compare::hex;
use std::fmt;

/// A frame to be written. Its numbers need not have a plain form.
#[derive(Clone, Debug, PartialEq, Eq)]
pub struct Draft {
    pub source: u64,
    pub flags: u16,
    pub body: DraftBody,
}

#[derive(Clone, Debug, PartialEq, Eq)]
pub enum DraftBody {
    /// Each TLV as seven numbers, or as none.
    Information {
        local: Vec<u64>,
        remote: Vec<u64>,
    },
    /// Seven numbers an event.
    Notification {
        number: u16,
        events: Vec<u64>,
    },
    /// One number a descriptor: the branch above the leaf's sixteen bits.
    Request {
        descriptors: Vec<u32>,
    },
    /// The containers as they stand in a frame.
    Response {
        containers: Vec<u8>,
    },
    Loopback {
        command: u8,
    },
    Organization {
        oui: u32,
        data: Vec<u8>,
    },
}

impl Draft {
    /// The draft that says what a message says; only the order of Information TLVs
    /// is lost.
    pub fn of(message: &Message) -> Self {
        let body = match &message.body {
            Body::Information(parts) => DraftBody::Information {
                local: first(parts, |part| matches!(part, Part::Local(_))),
                remote: first(parts, |part| matches!(part, Part::Remote(_))),
            },
            Body::Notification { number, events } => DraftBody::Notification {
                number: *number,
                events: events.iter().flat_map(Event::numbers).collect(),
            },
            Body::Request(descriptors) => DraftBody::Request {
                descriptors: descriptors.iter().map(Descriptor::number).collect(),
            },
            Body::Response(containers) => DraftBody::Response {
                containers: container_octets(containers),
            },
            Body::Loopback { command } => DraftBody::Loopback { command: *command },
            Body::Organization { oui, data } => DraftBody::Organization {
                oui: joined(oui) as u32,
                data: data.to_vec(),
            },
        };
        Draft {
            source: joined(&message.source),
            flags: message.flags,
            body,
        }
    }
}

/// The numbers of the first part that is `wanted`.
fn first(parts: &[Part], wanted: impl Fn(&Part) -> bool) -> Vec<u64> {
    let part = parts.iter().find(|part| wanted(part));
    part.map_or(Vec::new(), |part| part.fields().numbers().to_vec())
}

impl DraftBody {
    pub fn code(&self) -> u8 {
        match self {
            DraftBody::Information { .. } => code::INFORMATION,
            DraftBody::Notification { .. } => code::NOTIFICATION,
            DraftBody::Request { .. } => code::REQUEST,
            DraftBody::Response { .. } => code::RESPONSE,
            DraftBody::Loopback { .. } => code::LOOPBACK,
            DraftBody::Organization { .. } => code::ORGANIZATION,
        }
    }
}

/// Shows every number that is lent, of an organization's data only the count.
impl fmt::Display for Draft {
    fn fmt(&self, text: &mut fmt::Formatter) -> fmt::Result {
        write!(
            text,
            "source {:012x}, flags {:04x}, ",
            self.source, self.flags
        )?;
        match &self.body {
            DraftBody::Information { local, remote } => {
                write!(text, "Local {local:?}, Remote {remote:?}")
            }
            DraftBody::Notification { number, events } => {
                write!(text, "number {number}, events {events:?}")
            }
            DraftBody::Request { descriptors } => write!(text, "descriptors {descriptors:06x?}"),
            DraftBody::Response { containers } => {
                let (count, octets) = (containers.len(), hex(containers));
                write!(text, "{count} octets of containers {octets}")
            }
            DraftBody::Loopback { command } => write!(text, "command {command}"),
            DraftBody::Organization { oui, data } => {
                write!(text, "OUI {oui:06x}, {} octets of data", data.len())
            }
        }
    }
}
