//! What an accepted frame says. Every field is shown as it stands in the frame:
//! ignored bits are not masked out, and no order or number of parts is asked for.

use std::borrow::Cow;

/// The OAMPDU codes (Table 57-4).
pub mod code {
    pub const INFORMATION: u8 = 0x00;
    pub const NOTIFICATION: u8 = 0x01;
    pub const REQUEST: u8 = 0x02;
    pub const RESPONSE: u8 = 0x03;
    pub const LOOPBACK: u8 = 0x04;
    pub const ORGANIZATION: u8 = 0xFE;

    /// Every code that is not answered 5.
    pub const ALL: [u8; 6] = [
        INFORMATION,
        NOTIFICATION,
        REQUEST,
        RESPONSE,
        LOOPBACK,
        ORGANIZATION,
    ];
}

/// The reading of an accepted frame.
#[derive(Clone, Debug, PartialEq, Eq)]
pub struct Message<'a> {
    pub source: [u8; 6],
    /// All sixteen bits.
    pub flags: u16,
    pub body: Body<'a>,
    pub skipped: Skipped,
}

/// TLVs of unknown types, counted from the body's start on. Only the walks of codes
/// 00 and 01 skip any.
#[derive(Clone, Debug, Default, PartialEq, Eq)]
pub struct Skipped {
    /// Those before each known TLV.
    pub before: Vec<usize>,
    /// Those before the walk's end.
    pub total: usize,
}

/// The body by its code, its parts in order.
#[derive(Clone, Debug, PartialEq, Eq)]
pub enum Body<'a> {
    Information(Vec<Part>),
    Notification {
        number: u16,
        events: Vec<Event>,
    },
    Request(Vec<Descriptor>),
    Response(Vec<Container<'a>>),
    Loopback {
        command: u8,
    },
    /// The data run from octet 21 to the frame's end, padding included.
    Organization {
        oui: [u8; 3],
        data: Cow<'a, [u8]>,
    },
}

/// One of the two known Information TLVs.
#[derive(Clone, Copy, Debug, PartialEq, Eq)]
pub enum Part {
    Local(Information),
    Remote(Information),
}

/// The fields of a Local or Remote Information TLV (57.5.2.1).
#[derive(Clone, Copy, Debug, PartialEq, Eq)]
pub struct Information {
    pub version: u8,
    pub revision: u16,
    pub state: u8,
    pub configuration: u8,
    /// OAMPDU configuration; the maximum size is in its low 11 bits.
    pub pdu_configuration: u16,
    pub oui: [u8; 3],
    pub vendor: [u8; 4],
}

/// One event TLV: its type, 1 to 4, and its fields in the order timestamp,
/// window, threshold, errors, error total, event total.
#[derive(Clone, Copy, Debug, PartialEq, Eq)]
pub struct Event {
    pub kind: u8,
    pub values: [u64; 6],
}

/// A variable's name (Table 57-13).
#[derive(Clone, Copy, Debug, PartialEq, Eq)]
pub struct Descriptor {
    pub branch: u8,
    pub leaf: u16,
}

/// A variable and what was answered for it (Table 57-14).
#[derive(Clone, Debug, PartialEq, Eq)]
pub struct Container<'a> {
    pub descriptor: Descriptor,
    pub content: Content<'a>,
}

#[derive(Clone, Debug, PartialEq, Eq)]
pub enum Content<'a> {
    /// 1 to 128 octets.
    Value(Cow<'a, [u8]>),
    /// The whole width octet, 80 to FF.
    Indication(u8),
}

impl<'a> Message<'a> {
    /// What a frame says in which no TLV is skipped.
    pub fn without_skips(source: [u8; 6], flags: u16, body: Body<'a>) -> Self {
        let known = match &body {
            Body::Information(parts) => parts.len(),
            Body::Notification { events, .. } => events.len(),
            _ => 0,
        };
        let skipped = Skipped {
            before: vec![0; known],
            total: 0,
        };
        Message {
            source,
            flags,
            body,
            skipped,
        }
    }
}

impl Body<'_> {
    pub fn code(&self) -> u8 {
        match self {
            Body::Information(_) => code::INFORMATION,
            Body::Notification { .. } => code::NOTIFICATION,
            Body::Request(_) => code::REQUEST,
            Body::Response(_) => code::RESPONSE,
            Body::Loopback { .. } => code::LOOPBACK,
            Body::Organization { .. } => code::ORGANIZATION,
        }
    }
}
