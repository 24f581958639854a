//! Makers of frames, lines and captures. Each says what a reader must make of its frame,
//! where it can tell without reading the octets again; that claim is a check on
//! the decoder of this package, which the decoder alone could not be.

mod beyond;
mod captures;
mod containers;
mod crowd;
mod damage;
mod drafts;
mod edges;
mod encode;
mod every;
mod lines;
mod log_lines;
pub mod machine;
mod messages;
mod near;
mod records;
mod sequence;
mod traffic;
mod valid;

#[cfg(test)]
mod tests;

pub use captures::{capture, record_header, usual_header, usual_record};
pub use drafts::{any_draft, faults, DraftClaim, Fault, MadeDraft};
pub use edges::{every_edge, Edge, Rows};
pub use every::every_frame;
pub use lines::{every_line, mixed_lines, of_frame, spoilt, Line};
pub use log_lines::{
    any_log_entry, any_log_line, EntryFault, LineClaim, LineFault, LogEntry, LogLine,
};
pub use messages::{any_code, any_message, Style};
pub use near::near_plain;
pub use records::{any_record, mixed_records, MadeRecord, Row};
pub use traffic::{traffic_line, TRAFFIC};
pub use valid::{loose, plain};

use crate::paper::{read, Message};
use crate::random::Random;

/// A frame and what its maker claims of it.
#[derive(Clone, Debug)]
pub struct Made {
    pub frame: Vec<u8>,
    pub claim: Claim,
}

/// What a reader must answer.
#[derive(Clone, Debug)]
pub enum Claim {
    /// The frame is accepted and says exactly this.
    Accepted(Message<'static>),
    Refused(u8),
    /// The maker cannot tell.
    Unsaid,
}

impl Claim {
    /// Whether a reading is what was claimed.
    pub fn fits(&self, reading: &Result<Message, u8>) -> bool {
        match (self, reading) {
            (Claim::Accepted(message), Ok(read)) => message == read,
            (Claim::Refused(answer), Err(given)) => answer == given,
            (Claim::Unsaid, _) => true,
            _ => false,
        }
    }
}

impl Made {
    fn refused(frame: Vec<u8>, answer: u8) -> Self {
        Made {
            frame,
            claim: Claim::Refused(answer),
        }
    }

    fn unsaid(frame: Vec<u8>) -> Self {
        Made {
            frame,
            claim: Claim::Unsaid,
        }
    }

    /// Whether the frame reads as claimed.
    pub fn holds(&self) -> bool {
        self.claim.fits(&read(&self.frame))
    }
}

/// One frame out of all makers: about two in five are valid.
pub fn any_frame(random: &mut Random) -> Made {
    let code = any_code(random);
    match random.below(10) {
        0 | 1 => valid::plain_or_loose(random, code),
        2 | 3 => valid::loose(random, code).made(),
        _ => damage::any_damage(random, code),
    }
}
