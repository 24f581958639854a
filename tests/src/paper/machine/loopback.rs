//! The loopback roles: their State octets, and what a received frame makes of
//! them in SEND_ANY.

use super::End;
use crate::paper::{joined, Information};

#[derive(Clone, Copy, Debug, PartialEq, Eq, PartialOrd, Ord)]
pub enum Role {
    Idle,
    Asking,
    Holding,
    Ending,
    Looping,
}

/// The loopback commands.
pub const ENABLE: u8 = 1;
pub const DISABLE: u8 = 2;

/// The bits of a State octet that say the parser's and multiplexer's actions.
const ACTIONS: u8 = 0b111;
/// Both forward.
const FORWARDING: u8 = 0b000;
/// Parser loopback, multiplexer discard.
const LOOPED: u8 = 0b101;

impl Role {
    pub const ALL: [Role; 5] = [
        Role::Idle,
        Role::Asking,
        Role::Holding,
        Role::Ending,
        Role::Looping,
    ];

    /// The State octet.
    pub fn octet(self) -> u8 {
        match self {
            Role::Idle => 0x00,
            Role::Asking | Role::Ending => 0x06,
            Role::Holding => 0x02,
            Role::Looping => 0x05,
        }
    }

    /// The role after a Local TLV.
    pub(super) fn told(self, local: &Information) -> Self {
        match (self, local.state & ACTIONS) {
            (Role::Asking, LOOPED) => Role::Holding,
            (Role::Ending, FORWARDING) => Role::Idle,
            _ => self,
        }
    }
}

impl End {
    /// The role that a received command makes, or nothing where it is ignored.
    pub(super) fn commanded(&self, command: u8, source: &[u8; 6]) -> Option<Role> {
        match (command, self.role) {
            (ENABLE, Role::Idle | Role::Looping) if self.may_loop() => Some(Role::Looping),
            (ENABLE, Role::Asking) if self.may_loop() && self.settings.source > joined(source) => {
                Some(Role::Looping)
            }
            (DISABLE, Role::Looping) => Some(Role::Idle),
            _ => None,
        }
    }

    /// Own bit 2 set and peer active.
    fn may_loop(&self) -> bool {
        self.settings.has_loopback() && self.peer.is_some_and(|peer| peer.is_active())
    }
}
