//! Accepted frames with TLVs that are skipped, by where they meet an end. Each must come
//! 500 times in a million calls, and in fewer calls as much less.

use super::happening::Seen;
use crate::paper::machine::Discovery;
use crate::paper::Body;
use crate::trial::report::Tally;

/// Each once or more in so many calls.
const CALLS_A_TIME: usize = 1_000_000 / 500;

#[derive(Clone, Copy, Debug, PartialEq, Eq, PartialOrd, Ord)]
pub enum Skipping {
    WithLinkDown,
    OutsideSendAny,
    InRepeatedEvents,
    /// In SEND_ANY, and no repeat.
    Otherwise,
}

impl Skipping {
    const ALL: [Skipping; 4] = [
        Skipping::WithLinkDown,
        Skipping::OutsideSendAny,
        Skipping::InRepeatedEvents,
        Skipping::Otherwise,
    ];

    /// What must come of so many calls.
    pub fn tally(calls: usize) -> Tally<Skipping> {
        Tally::expecting_often(Skipping::ALL, (calls / CALLS_A_TIME).max(1))
    }

    pub fn of(seen: &Seen) -> Option<Skipping> {
        let message = seen.message.as_ref()?;
        if message.skipped.total == 0 {
            return None;
        }
        let events = matches!(message.body, Body::Notification { .. });
        Some(if !seen.before.link_up {
            Skipping::WithLinkDown
        } else if seen.after.discovery != Discovery::SendAny {
            Skipping::OutsideSendAny
        } else if events && seen.outcome.shown == 1 {
            Skipping::InRepeatedEvents
        } else {
            Skipping::Otherwise
        })
    }
}
