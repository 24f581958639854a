//! The link machine (the paper's sections "Settings and a fresh end" to
//! "Loopback"): an end, and the calls that step it. A call takes an end as it
//! stands and gives the next one; a refusal gives its answer, and nothing has
//! changed.

mod discovery;
mod inputs;
mod loopback;
mod numbers;
mod requests;
mod responding;
mod sending;
mod settings;
mod unmade;

#[cfg(test)]
mod tests;

pub use discovery::{Discovery, COMPLETE};
pub use inputs::{Report, LOST_LINK, SECOND};
pub use loopback::Role;
pub use numbers::{END_NUMBERS, PACKED_NUMBERS};
pub use requests::FCS;
pub use sending::{MOST_FRAMES, STRETCH};
pub use settings::{configuration, Settings, SIZES, SMALLEST_SIZE};
pub use unmade::Breach;

use super::answer;
use super::message::Information;

/// One end of the link.
#[derive(Clone, Copy, Debug, PartialEq, Eq)]
pub struct End {
    pub settings: Settings,
    pub link_up: bool,
    /// Ticks with the link up since a frame was accepted.
    pub lost_link: u8,
    /// Where discovery stands; no move applies there.
    pub discovery: Discovery,
    /// The kept peer field: the last local field received that was not 3.
    pub kept_field: u8,
    /// The peer record: the last Local TLV, as received.
    pub peer: Option<Information>,
    /// The last event number received.
    pub last_event: Option<u16>,
    pub role: Role,
    /// Ticks since the last tenth one, or since fresh.
    pub ticks: u8,
    /// Frames written in each of the newest tick intervals, the present one first.
    pub intervals: [u8; STRETCH],
    pub revision: u16,
    /// The number of the next notification.
    pub event_number: u16,
    pub dying_gasp: bool,
    pub critical_event: bool,
    /// An Information frame is owed.
    pub owed: bool,
}

/// What an accepted call gives.
#[derive(Clone, Copy, Debug, PartialEq, Eq)]
pub struct Step {
    pub end: End,
    /// Octets of the frame written, or 0.
    pub length: usize,
    pub shown: Shown,
}

/// What a call shows of a received frame.
#[derive(Clone, Copy, Debug, PartialEq, Eq)]
pub enum Shown {
    Nothing,
    /// It was accepted.
    Frame,
    /// It was accepted, and its events are new.
    Events,
}

impl End {
    /// A fresh end, or 10 for settings out of range.
    pub fn fresh(settings: &Settings) -> Result<Self, u8> {
        if !settings.are_in_range() {
            return Err(answer::VALUES);
        }
        Ok(End {
            settings: *settings,
            link_up: false,
            lost_link: 0,
            discovery: Discovery::Fault,
            kept_field: 0,
            peer: None,
            last_event: None,
            role: Role::Idle,
            ticks: 0,
            intervals: [0; STRETCH],
            revision: 0,
            event_number: 0,
            dying_gasp: false,
            critical_event: false,
            owed: false,
        })
    }
}
