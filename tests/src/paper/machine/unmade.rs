//! Ends that no calls make of a fresh one, told by the rule that each of them
//! breaks.

use super::{Discovery, End, Role};

/// A rule that every call keeps, broken.
#[derive(Clone, Copy, Debug, PartialEq, Eq, PartialOrd, Ord)]
pub enum Breach {
    /// "Leaving SEND_ANY makes the role Idle".
    RoleOutsideSendAny,
    /// "Enable, own bit 2 set and peer active".
    LoopingWithoutBit2,
    /// Of start and stop: "Other roles, a passive end, or for start a peer without
    /// bit 2: 15."
    AskingOfAPassiveEnd,
    /// "Where it isn't allowed nothing is owed."
    OwedWhereNotAllowed,
    /// FAULT "Clears peer record, kept peer field, role and last event number
    /// received", and with the link down it is not left.
    PeerKeptWithLinkDown,
    /// "only SEND_ANY keeps one", where a record is held, and FAULT clears both.
    EventWithoutRecord,
}

impl Breach {
    pub const ALL: [Breach; 6] = [
        Breach::RoleOutsideSendAny,
        Breach::LoopingWithoutBit2,
        Breach::AskingOfAPassiveEnd,
        Breach::OwedWhereNotAllowed,
        Breach::PeerKeptWithLinkDown,
        Breach::EventWithoutRecord,
    ];
}

impl End {
    /// The rules that the end breaks; none where calls may have made it.
    pub fn breaches(&self) -> Vec<Breach> {
        let broken = |breach: &Breach| self.breaks(*breach);
        Breach::ALL.into_iter().filter(broken).collect()
    }

    fn breaks(&self, breach: Breach) -> bool {
        let asks = matches!(self.role, Role::Asking | Role::Holding | Role::Ending);
        let (held, kept) = (self.peer.is_some(), self.kept_field > 0);
        let event = self.last_event.is_some();
        match breach {
            Breach::RoleOutsideSendAny => {
                self.role != Role::Idle && self.discovery != Discovery::SendAny
            }
            Breach::LoopingWithoutBit2 => {
                self.role == Role::Looping && !self.settings.has_loopback()
            }
            Breach::AskingOfAPassiveEnd => asks && !self.settings.is_active(),
            Breach::OwedWhereNotAllowed => self.owed && !self.allows_information(),
            Breach::PeerKeptWithLinkDown => !self.link_up && (held || kept || event),
            Breach::EventWithoutRecord => event && !held,
        }
    }
}
