//! Discovery: its six states, and the moves between them as the paper lists them.

use super::settings::{configuration, SMALLEST_SIZE};
use super::{End, Role};
use crate::paper::Information;

/// The flag field of an end whose discovery is complete.
pub const COMPLETE: u8 = 2;
/// The flag field of an end whose discovery is not complete.
const NOT_COMPLETE: u8 = 1;
/// The flag field of an end that is not satisfied.
const UNSATISFIED: u8 = 0;

#[derive(Clone, Copy, Debug, PartialEq, Eq, PartialOrd, Ord)]
pub enum Discovery {
    Fault,
    ActiveSendLocal,
    PassiveWait,
    SendLocalRemote,
    SendLocalRemoteOk,
    SendAny,
}

impl Discovery {
    pub const ALL: [Discovery; 6] = [
        Discovery::Fault,
        Discovery::ActiveSendLocal,
        Discovery::PassiveWait,
        Discovery::SendLocalRemote,
        Discovery::SendLocalRemoteOk,
        Discovery::SendAny,
    ];

    /// The local field sent.
    pub fn field(self) -> u8 {
        match self {
            Discovery::SendLocalRemoteOk | Discovery::SendAny => COMPLETE,
            Discovery::ActiveSendLocal => NOT_COMPLETE,
            Discovery::Fault | Discovery::PassiveWait | Discovery::SendLocalRemote => UNSATISFIED,
        }
    }
}

impl End {
    /// Enters FAULT, on link down or on the lost-link count.
    pub(super) fn enter_fault(&mut self) {
        self.discovery = Discovery::Fault;
        self.peer = None;
        self.kept_field = UNSATISFIED;
        self.role = Role::Idle;
        self.last_event = None;
    }

    /// Runs the moves until none applies. Leaving SEND_ANY makes the role Idle.
    pub(super) fn run_moves(&mut self) {
        while let Some(next) = self.next_move() {
            if self.discovery == Discovery::SendAny {
                self.role = Role::Idle;
            }
            self.discovery = next;
        }
    }

    fn next_move(&self) -> Option<Discovery> {
        use Discovery::*;
        let satisfied = self.is_satisfied();
        match self.discovery {
            Fault if self.link_up && self.settings.is_active() => Some(ActiveSendLocal),
            Fault if self.link_up => Some(PassiveWait),
            ActiveSendLocal | PassiveWait if self.peer.is_some() => Some(SendLocalRemote),
            SendLocalRemote if satisfied => Some(SendLocalRemoteOk),
            SendLocalRemoteOk | SendAny if !satisfied => Some(SendLocalRemote),
            SendLocalRemoteOk if self.kept_field == COMPLETE => Some(SendAny),
            SendAny if self.kept_field != COMPLETE => Some(SendLocalRemoteOk),
            _ => None,
        }
    }

    fn is_satisfied(&self) -> bool {
        self.peer.is_some_and(|peer| {
            peer.version == 1
                && peer.maximum_size() >= SMALLEST_SIZE
                && (self.settings.is_active() || peer.is_active())
                && peer.configuration & self.settings.required == self.settings.required
        })
    }
}

impl Information {
    /// The low 11 bits of the OAMPDU configuration.
    pub fn maximum_size(&self) -> u16 {
        self.pdu_configuration & 0x07FF
    }

    pub fn is_active(&self) -> bool {
        self.configuration & configuration::ACTIVE != 0
    }

    pub fn has_loopback(&self) -> bool {
        self.configuration & configuration::LOOPBACK != 0
    }
}
