//! What can come of a call, told from the paper's ends before and after it.

use crate::library::machine::{Call, Outcome};
use crate::paper::machine::{Discovery, End, Role, MOST_FRAMES};
use crate::paper::{answer, joined, read, Body, Message};

#[derive(Clone, Copy, Debug, PartialEq, Eq, PartialOrd, Ord)]
pub enum Happening {
    InformationWritten,
    WrittenWithFieldButNoRecord,
    RequestWritten,
    LeftOwed,
    OwedWrittenLater,
    OwedDropped,
    OwedOverLostLink,
    TenthTick,
    StretchFull,
    LinkLost,
    SendAnyBegun,
    SendAnyLeft,
    SendAnyLeftLooping,
    RevisionChanged,
    RevisionWrapped,
    EventNumberWrapped,
    FrameWithLinkDown,
    EventsNew,
    EventsRepeated,
    EventsOutsideSendAny,
    Field3Received,
    EnableObeyed,
    EnableObeyedAsSendAnyBegan,
    EnableObeyedWhileAsking,
    EnableIgnoredWhileAsking,
    EnableIgnoredAtEqualAddress,
    EnableObeyedAgain,
    EnableOutsideSendAny,
    DisableObeyed,
    DisableIgnored,
}

impl Happening {
    pub const ALL: [Happening; 30] = [
        Happening::InformationWritten,
        Happening::WrittenWithFieldButNoRecord,
        Happening::RequestWritten,
        Happening::LeftOwed,
        Happening::OwedWrittenLater,
        Happening::OwedDropped,
        Happening::OwedOverLostLink,
        Happening::TenthTick,
        Happening::StretchFull,
        Happening::LinkLost,
        Happening::SendAnyBegun,
        Happening::SendAnyLeft,
        Happening::SendAnyLeftLooping,
        Happening::RevisionChanged,
        Happening::RevisionWrapped,
        Happening::EventNumberWrapped,
        Happening::FrameWithLinkDown,
        Happening::EventsNew,
        Happening::EventsRepeated,
        Happening::EventsOutsideSendAny,
        Happening::Field3Received,
        Happening::EnableObeyed,
        Happening::EnableObeyedAsSendAnyBegan,
        Happening::EnableObeyedWhileAsking,
        Happening::EnableIgnoredWhileAsking,
        Happening::EnableIgnoredAtEqualAddress,
        Happening::EnableObeyedAgain,
        Happening::EnableOutsideSendAny,
        Happening::DisableObeyed,
        Happening::DisableIgnored,
    ];
}

/// A call, and the paper's ends before and after it.
pub struct Seen<'a> {
    pub before: &'a End,
    pub after: &'a End,
    pub call: &'a Call,
    pub outcome: &'a Outcome,
    /// What an accepted frame says.
    pub message: Option<Message<'a>>,
}

impl<'a> Seen<'a> {
    pub fn new(before: &'a End, call: &'a Call, after: &'a End, outcome: &'a Outcome) -> Self {
        let accepted = outcome.answer == answer::ACCEPTED;
        let message = match call {
            Call::Receive(frame) if accepted => read(frame).ok(),
            _ => None,
        };
        Seen {
            before,
            after,
            call,
            outcome,
            message,
        }
    }

    /// Whether it is an accepted tick that makes a frame due, if one is allowed.
    pub fn is_tenth_tick(&self) -> bool {
        self.after.ticks < self.before.ticks
    }

    pub fn happenings(&self) -> Vec<Happening> {
        if self.outcome.answer != answer::ACCEPTED {
            return Vec::new();
        }
        let mut holding = self.of_sending();
        holding.extend(self.of_discovery());
        if let Some(message) = &self.message {
            holding.extend(self.of_frame(message));
        }
        let holds = |(happening, holds)| match holds {
            true => Some(happening),
            false => None,
        };
        holding.into_iter().filter_map(holds).collect()
    }

    fn of_sending(&self) -> Vec<(Happening, bool)> {
        let (before, after) = (self.before, self.after);
        let wrote = self.outcome.length > 0;
        let is_request = self.call.is_request();
        let changed = before.revision != after.revision;
        let no_record = after.peer.is_none() && after.kept_field > 0;
        vec![
            (Happening::WrittenWithFieldButNoRecord, wrote && no_record),
            (Happening::InformationWritten, wrote && !is_request),
            (Happening::RequestWritten, wrote && is_request),
            (Happening::LeftOwed, after.owed),
            (
                Happening::OwedWrittenLater,
                before.owed && wrote && !is_request,
            ),
            (Happening::OwedDropped, before.owed && !after.owed && !wrote),
            (Happening::TenthTick, self.is_tenth_tick()),
            (
                Happening::StretchFull,
                before.written() < MOST_FRAMES && after.written() == MOST_FRAMES,
            ),
            (Happening::RevisionChanged, changed),
            (Happening::RevisionWrapped, changed && after.revision == 0),
            (
                Happening::EventNumberWrapped,
                after.event_number < before.event_number,
            ),
        ]
    }

    fn of_discovery(&self) -> Vec<(Happening, bool)> {
        let (before, after) = (self.before, self.after);
        let was_any = before.discovery == Discovery::SendAny;
        let is_any = after.discovery == Discovery::SendAny;
        let lost = self.call.is_tick() && after.lost_link < before.lost_link;
        let left = was_any && !is_any;
        vec![
            (Happening::LinkLost, lost),
            (
                Happening::OwedOverLostLink,
                lost && before.owed && after.owed && !was_any,
            ),
            (Happening::SendAnyBegun, is_any && !was_any),
            (Happening::SendAnyLeft, left),
            (
                Happening::SendAnyLeftLooping,
                left && before.role == Role::Looping,
            ),
        ]
    }

    fn of_frame(&self, message: &Message) -> Vec<(Happening, bool)> {
        let mut holding = vec![
            (Happening::FrameWithLinkDown, !self.before.link_up),
            (
                Happening::Field3Received,
                self.before.link_up && message.flags & 0x18 == 0x18,
            ),
        ];
        let any = self.after.discovery == Discovery::SendAny;
        match message.body {
            Body::Notification { .. } => holding.extend([
                (Happening::EventsNew, self.outcome.shown == 2),
                (Happening::EventsRepeated, self.outcome.shown == 1 && any),
                (Happening::EventsOutsideSendAny, !any),
            ]),
            Body::Loopback { command: 1 } if any => holding.extend(self.of_enable(message)),
            Body::Loopback { command: 1 } => {
                holding.push((Happening::EnableOutsideSendAny, true));
            }
            Body::Loopback { .. } => {
                let obeyed = any && self.before.role == Role::Looping;
                holding.push((Happening::DisableObeyed, obeyed));
                holding.push((Happening::DisableIgnored, !obeyed));
            }
            _ => {}
        }
        holding
    }

    fn of_enable(&self, message: &Message) -> Vec<(Happening, bool)> {
        let (before, obeyed) = (self.before, self.after.role == Role::Looping);
        let asking = before.role == Role::Asking;
        let equal = before.settings.source == joined(&message.source);
        let began = before.discovery != Discovery::SendAny;
        vec![
            (
                Happening::EnableObeyed,
                obeyed && before.role == Role::Idle && !began,
            ),
            (Happening::EnableObeyedAsSendAnyBegan, obeyed && began),
            (Happening::EnableObeyedWhileAsking, obeyed && asking),
            (Happening::EnableIgnoredWhileAsking, !obeyed && asking),
            (
                Happening::EnableIgnoredAtEqualAddress,
                !obeyed && asking && equal,
            ),
            (
                Happening::EnableObeyedAgain,
                before.role == Role::Looping && obeyed,
            ),
        ]
    }
}
