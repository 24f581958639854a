//! A plausible peer: it answers an end sensibly most of the time.

use crate::generate::encode;
use crate::generate::messages::{any_message, information, Style};
use crate::generate::valid::laid_loosely;
use crate::paper::machine::{configuration, End, Role, Settings, COMPLETE};
use crate::paper::{code, parted, Body, Information, Message, Part};
use crate::random::Random;

pub struct Peer {
    source: [u8; 6],
    /// What its Local TLV says.
    local: Information,
    /// Its last notification's number.
    number: u16,
}

impl Peer {
    /// A peer of an end with these settings that satisfies it, mostly.
    pub fn of(random: &mut Random, settings: &Settings) -> Self {
        let mut local = information(random, Style::Loose);
        local.version = 1;
        local.pdu_configuration = size(random);
        local.configuration |= settings.required;
        if !settings.is_active() || !random.one_in(4) {
            local.configuration |= configuration::ACTIVE;
        }
        if !random.one_in(4) {
            local.configuration |= configuration::LOOPBACK;
        }
        if random.one_in(12) {
            local = information(random, Style::Loose);
        }
        Peer {
            source: address(random, settings.source),
            local,
            number: random.value(2) as u16,
        }
    }

    /// Its answer to an end; now and then its configuration has another bit.
    pub fn information(&mut self, random: &mut Random, end: &End) -> Vec<u8> {
        self.local.state = state(random, end.role);
        self.local.revision = self.local.revision.wrapping_add(1);
        let mut local = self.local;
        if random.one_in(8) {
            local.configuration ^= 1 << random.below(5);
        }
        let local = Part::Local(local);
        let remote = Part::Remote(information(random, Style::Loose));
        let parts = match random.below(8) {
            0 => vec![],
            1 => vec![remote],
            2 => vec![remote, local],
            3 | 4 => vec![local, remote],
            _ => vec![local],
        };
        self.frame(random, Body::Information(parts))
    }

    /// Information that always has the Local TLV and field 2.
    pub fn complete(&mut self, random: &mut Random, end: &End) -> Vec<u8> {
        self.local.state = state(random, end.role);
        let body = Body::Information(vec![Part::Local(self.local)]);
        encode::plain(&self.message(0x0010, body))
    }

    /// A loopback command.
    pub fn command(&mut self, random: &mut Random) -> Vec<u8> {
        let command = random.octet_between(1, 2);
        self.frame(random, Body::Loopback { command })
    }

    /// A notification with the last number, the next one, or any.
    pub fn notification(&mut self, random: &mut Random) -> Vec<u8> {
        self.number = match random.below(4) {
            0 => random.value(2) as u16,
            1 => self.number.wrapping_add(1),
            _ => self.number,
        };
        let mut body = any_message(random, code::NOTIFICATION, Style::Loose).body;
        if let Body::Notification { number, .. } = &mut body {
            *number = self.number;
        }
        self.frame(random, body)
    }

    /// A frame of any other code.
    pub fn other(&mut self, random: &mut Random) -> Vec<u8> {
        let code = random.pick(&[code::REQUEST, code::RESPONSE, code::ORGANIZATION]);
        let body = any_message(random, code, Style::Plain).body;
        self.frame(random, body)
    }

    /// A frame with flags that mostly say that discovery is complete. Every other one with
    /// a walk has what a reader must put up with, TLVs that are skipped among it.
    fn frame(&mut self, random: &mut Random, body: Body<'static>) -> Vec<u8> {
        let field = match random.below(24) {
            0 => 0,
            1 => 1,
            2 | 3 => 3,
            _ => u16::from(COMPLETE),
        };
        let others = match random.below(3) {
            0 => random.number() as u16 & !0x0018,
            _ => 0x0040,
        };
        let walked = matches!(body, Body::Information(_) | Body::Notification { .. });
        let message = self.message(others | field << 3, body);
        match walked && random.one_in(2) {
            true => laid_loosely(random, message).frame,
            false => encode::plain(&message),
        }
    }

    fn message(&self, flags: u16, body: Body<'static>) -> Message<'static> {
        Message::without_skips(self.source, flags, body)
    }
}

/// The State octet by which a peer answers an end in this role.
fn state(random: &mut Random, role: Role) -> u8 {
    match (role, random.below(8)) {
        (_, 0) => random.octet(),
        (_, 1) => random.pick(&Role::ALL).octet(),
        (Role::Asking, 2..=5) => Role::Looping.octet() | random.octet() & 0xF8,
        (Role::Ending, 2..=5) => Role::Idle.octet() | random.octet() & 0xF8,
        (Role::Looping, _) => Role::Holding.octet(),
        _ => Role::Idle.octet(),
    }
}

/// At least 64 in the low 11 bits; the others are ignored.
fn size(random: &mut Random) -> u16 {
    let size = match random.below(6) {
        0 => 64,
        1 => random.between(64, 124),
        2 => random.between(64, 2047),
        3 => 2047,
        _ => 1518,
    };
    size as u16 | random.number() as u16 & 0xF800
}

/// The own address, one beside it, or any.
fn address(random: &mut Random, own: u64) -> [u8; 6] {
    let near = match random.below(6) {
        0 => Some(own),
        1 => own.checked_sub(1),
        2 => own.checked_add(1),
        3 => Some(own ^ 1 << random.below(48)),
        _ => None,
    };
    let octets = near.and_then(parted);
    octets.unwrap_or_else(|| random.field())
}
