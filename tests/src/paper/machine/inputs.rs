//! What comes to an end from its link: ticks, reports and frames. Each tests 9
//! first, against 60 octets, and writes an owed frame if it can.

use super::{Discovery, End, Shown, Step};
use crate::paper::{answer, read, Body, Information, Message, Part, SHORTEST};

/// The lost-link count that enters FAULT.
pub const LOST_LINK: u8 = 50;
/// Ticks of a timer second, the last of which makes an Information frame due.
pub const SECOND: u8 = 10;

/// The flag field that keeps the last value.
const RESERVED: u8 = 3;

#[derive(Clone, Copy, Debug, PartialEq, Eq, PartialOrd, Ord)]
pub enum Report {
    LinkUp,
    LinkDown,
    DyingGaspSet,
    DyingGaspCleared,
    CriticalEventSet,
    CriticalEventCleared,
}

impl Report {
    pub const ALL: [Report; 6] = [
        Report::LinkUp,
        Report::LinkDown,
        Report::DyingGaspSet,
        Report::DyingGaspCleared,
        Report::CriticalEventSet,
        Report::CriticalEventCleared,
    ];
}

impl End {
    /// 100 ms have passed.
    pub fn tick(&self, out: &mut [u8]) -> Result<Step, u8> {
        has_room(out)?;
        let mut next = *self;
        if next.link_up {
            next.lost_link += 1;
        }
        if next.lost_link == LOST_LINK {
            next.lost_link = 0;
            next.enter_fault();
        }
        next.run_moves();
        next.account(self, false);
        next.open_interval();
        next.ticks += 1;
        if next.ticks == SECOND {
            next.ticks = 0;
            next.owed = next.allows_information(); // the tenth tick's frame is due
        }
        Ok(next.settle(Shown::Nothing, out))
    }

    pub fn report(&self, report: Report, out: &mut [u8]) -> Result<Step, u8> {
        has_room(out)?;
        let mut next = *self;
        match report {
            Report::LinkUp if !self.link_up => {
                next.link_up = true;
                next.lost_link = 0;
            }
            Report::LinkDown if self.link_up => {
                next.link_up = false;
                next.enter_fault();
            }
            Report::LinkUp | Report::LinkDown => {}
            Report::DyingGaspSet => next.dying_gasp = true,
            Report::DyingGaspCleared => next.dying_gasp = false,
            Report::CriticalEventSet => next.critical_event = true,
            Report::CriticalEventCleared => next.critical_event = false,
        }
        next.run_moves();
        next.account(self, false);
        Ok(next.settle(Shown::Nothing, out))
    }

    pub fn receive(&self, frame: &[u8], out: &mut [u8]) -> Result<Step, u8> {
        has_room(out)?;
        let message = read(frame)?;
        let mut next = *self;
        let mut action = Action::default();
        if next.link_up {
            next.take(&message);
            action = next.act(&message);
        }
        next.account(self, action.obeyed);
        let shown = match action.events_are_new {
            true => Shown::Events,
            false => Shown::Frame,
        };
        Ok(next.settle(shown, out))
    }

    /// What a frame of any code brings to discovery.
    fn take(&mut self, message: &Message) {
        self.lost_link = 0;
        let field = (message.flags >> 3 & 3) as u8;
        if field != RESERVED {
            self.kept_field = field;
        }
        self.peer = message.local().copied().or(self.peer);
        self.run_moves();
    }

    /// The body's action, only in SEND_ANY.
    fn act(&mut self, message: &Message) -> Action {
        let mut action = Action::default();
        if self.discovery != Discovery::SendAny {
            return action;
        }
        match message.body {
            Body::Information(_) => {
                self.role = message
                    .local()
                    .map_or(self.role, |local| self.role.told(local));
            }
            Body::Notification { number, .. } => {
                action.events_are_new = self.last_event != Some(number);
                self.last_event = Some(number);
            }
            Body::Loopback { command } => {
                let commanded = self.commanded(command, &message.source);
                action.obeyed = commanded.is_some();
                self.role = commanded.unwrap_or(self.role);
            }
            Body::Request(_) | Body::Response(_) | Body::Organization { .. } => {}
        }
        action
    }
}

/// What came of a frame's body.
#[derive(Default)]
struct Action {
    obeyed: bool,
    events_are_new: bool,
}

impl Message<'_> {
    /// The Local TLV; an accepted frame has one at most.
    fn local(&self) -> Option<&Information> {
        let Body::Information(parts) = &self.body else {
            return None;
        };
        parts.iter().find_map(|part| match part {
            Part::Local(local) => Some(local),
            Part::Remote(_) => None,
        })
    }
}

fn has_room(out: &[u8]) -> Result<(), u8> {
    match out.len() < SHORTEST {
        true => Err(answer::OUTPUT),
        false => Ok(()),
    }
}
