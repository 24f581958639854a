//! The client's requests but `respond`. Their refusals come in the order 10, 11,
//! 15, 12, 13, 9, and an accepted one writes its own frame, never an owed one.

use super::loopback::{DISABLE, ENABLE};
use super::{Discovery, End, Role, Shown, Step};
use crate::paper::{answer, DraftBody, Information, LONGEST};

/// Octets that a maximum size counts beyond the frame.
pub const FCS: usize = 4;

impl End {
    /// Asks the peer to loop.
    pub fn start(&self, out: &mut [u8]) -> Result<Step, u8> {
        let allowed = |peer: &Information| {
            let in_role = matches!(self.role, Role::Idle | Role::Asking);
            self.settings.is_active() && in_role && peer.has_loopback()
        };
        self.command(ENABLE, Role::Asking, allowed, out)
    }

    /// Asks the peer to loop no longer.
    pub fn stop(&self, out: &mut [u8]) -> Result<Step, u8> {
        let in_role = matches!(self.role, Role::Asking | Role::Holding | Role::Ending);
        let allowed = |_: &Information| self.settings.is_active() && in_role;
        self.command(DISABLE, Role::Ending, allowed, out)
    }

    fn command(
        &self,
        command: u8,
        role: Role,
        allowed: impl Fn(&Information) -> bool,
        out: &mut [u8],
    ) -> Result<Step, u8> {
        let next = End { role, ..*self };
        self.request(DraftBody::Loopback { command }, allowed, next, out)
    }

    /// Asks for variables, each given as its branch above the leaf's sixteen bits.
    pub fn variables(&self, descriptors: &[u32], out: &mut [u8]) -> Result<Step, u8> {
        let body = DraftBody::Request {
            descriptors: descriptors.to_vec(),
        };
        self.request(body, |_| self.settings.is_active(), *self, out)
    }

    /// Notifies the peer of events, each given in seven numbers.
    pub fn notify(&self, events: &[u64], out: &mut [u8]) -> Result<Step, u8> {
        let body = DraftBody::Notification {
            number: self.event_number,
            events: events.to_vec(),
        };
        let next = End {
            event_number: self.event_number.wrapping_add(1),
            ..*self
        };
        self.request(body, |_| true, next, out)
    }

    /// Sends an organization's data.
    pub fn organization(&self, oui: u32, data: &[u8], out: &mut [u8]) -> Result<Step, u8> {
        let data = data.to_vec();
        let body = DraftBody::Organization { oui, data };
        self.request(body, |_| true, *self, out)
    }

    /// Writes a request's frame and goes to the end that it makes.
    fn request(
        &self,
        body: DraftBody,
        allowed: impl Fn(&Information) -> bool,
        mut next: End,
        out: &mut [u8],
    ) -> Result<Step, u8> {
        next.account(self, false);
        let mut frame = [0; LONGEST];
        let length = next.write(body, &mut frame)?; // 10, for what has no plain form
        let peer = self.allowed_peer(allowed)?;
        if length + FCS > self.smaller_size(&peer) {
            return Err(answer::SIZE);
        }
        next.grant(&frame[..length], out)
    }

    /// The peer in SEND_ANY, else 11; 15 where it or the end does not allow it.
    pub(super) fn allowed_peer(
        &self,
        allowed: impl Fn(&Information) -> bool,
    ) -> Result<Information, u8> {
        let in_send_any = self.discovery == Discovery::SendAny;
        let peer = self.peer.filter(|_| in_send_any);
        let peer = peer.ok_or(answer::NOT_SEND_ANY)?;
        match allowed(&peer) {
            true => Ok(peer),
            false => Err(answer::FORBIDDEN),
        }
    }

    /// The smaller of both maximum sizes, FCS counted.
    pub(super) fn smaller_size(&self, peer: &Information) -> usize {
        self.settings.size.min(peer.maximum_size()).into()
    }

    /// This end with one frame more written, or 13, then 9.
    pub(super) fn grant(mut self, frame: &[u8], out: &mut [u8]) -> Result<Step, u8> {
        if !self.has_room() {
            return Err(answer::LIMIT);
        }
        let place = out.get_mut(..frame.len()).ok_or(answer::OUTPUT)?;
        place.copy_from_slice(frame);
        self.count_frame();
        Ok(Step {
            end: self,
            length: frame.len(),
            shown: Shown::Nothing,
        })
    }
}
