//! The calls that step an end.

use super::{ARISEN, RECEIVED};
use crate::compare::hex;
use crate::paper::answer;
use crate::paper::machine::{End, Report, Step};
use std::fmt;

#[derive(Clone, Debug, PartialEq, Eq)]
pub enum Call {
    /// The bad frames since the last one.
    Tick(u64),
    /// The report's number, 0 to 5.
    Report(u8),
    /// The frame.
    Receive(Vec<u8>),
    Start,
    Stop,
    /// One number a descriptor: the branch above the leaf's sixteen bits.
    Request(Vec<u32>),
    /// Seven numbers an event.
    Notify(Vec<u64>),
    Organization {
        oui: u32,
        octets: Vec<u8>,
    },
    Respond(Response),
}

/// What a response is made of.
#[derive(Clone, Debug, PartialEq, Eq)]
pub struct Response {
    /// Two numbers an attribute: descriptor and width.
    pub attributes: Vec<u32>,
    /// The values one behind the other.
    pub values: Vec<u8>,
    /// One number a descriptor that is asked for.
    pub descriptors: Vec<u32>,
}

impl Call {
    /// The names of the archive's functions.
    pub const NAMES: [&'static str; 9] = [
        "oam_tick",
        "oam_report",
        "oam_receive",
        "oam_start",
        "oam_stop",
        "oam_request",
        "oam_notify",
        "oam_organization",
        "oam_respond",
    ];

    pub fn name(&self) -> &'static str {
        let place = match self {
            Call::Tick(_) => 0,
            Call::Report(_) => 1,
            Call::Receive(_) => 2,
            Call::Start => 3,
            Call::Stop => 4,
            Call::Request(_) => 5,
            Call::Notify(_) => 6,
            Call::Organization { .. } => 7,
            Call::Respond(_) => 8,
        };
        Call::NAMES[place]
    }

    /// Whether it is one of the client's six requests.
    pub fn is_request(&self) -> bool {
        !matches!(self, Call::Tick(_) | Call::Report(_) | Call::Receive(_))
    }

    pub fn is_tick(&self) -> bool {
        matches!(self, Call::Tick(_))
    }

    /// The numbers that must be lent to it: room for the events that a tick can make
    /// arise, or for what an accepted frame stores.
    pub fn least_numbers(&self) -> usize {
        match self {
            Call::Tick(_) => ARISEN,
            Call::Receive(_) => RECEIVED,
            _ => 0,
        }
    }

    /// What the paper's end makes of the call.
    pub fn step(&self, end: &End, out: &mut [u8]) -> Result<Step, u8> {
        match self {
            Call::Tick(_) => end.tick(out),
            Call::Report(number) => match Report::ALL.get(usize::from(*number)) {
                Some(report) => end.report(*report, out),
                None => Err(answer::VALUES),
            },
            Call::Receive(frame) => end.receive(frame, out),
            Call::Start => end.start(out),
            Call::Stop => end.stop(out),
            Call::Request(descriptors) => end.variables(descriptors, out),
            Call::Notify(events) => end.notify(events, out),
            Call::Organization { oui, octets } => end.organization(*oui, octets, out),
            Call::Respond(Response {
                attributes,
                values,
                descriptors,
            }) => end.respond(attributes, values, descriptors, out),
        }
    }
}

/// Shows every number, of an organization's data and of attributes' values only the
/// count.
impl fmt::Display for Call {
    fn fmt(&self, text: &mut fmt::Formatter) -> fmt::Result {
        text.write_str(self.name())?;
        match self {
            Call::Start | Call::Stop | Call::Tick(0) => Ok(()),
            Call::Tick(count) => write!(text, " {count} bad frames"),
            Call::Report(number) => match Report::ALL.get(usize::from(*number)) {
                Some(report) => write!(text, " {report:?}"),
                None => write!(text, " {number}"),
            },
            Call::Receive(frame) => write!(text, " {}", hex(frame)),
            Call::Request(descriptors) => write!(text, " {descriptors:06x?}"),
            Call::Notify(events) => write!(text, " {events:?}"),
            Call::Organization { oui, octets } => {
                write!(text, " OUI {oui:06x}, {} octets", octets.len())
            }
            Call::Respond(Response {
                attributes,
                values,
                descriptors,
            }) => {
                let (count, octets) = (descriptors.len(), values.len());
                write!(
                    text,
                    " attributes {attributes:x?}, {octets} octets of values, "
                )?;
                write!(text, "{count} descriptors {descriptors:06x?}")
            }
        }
    }
}
