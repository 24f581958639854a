//! The client's sixth request, an answer to a Variable Request (change request
//! (i)). Its refusals come in the order 10, 11, 15, 13, 9: the frame is made to fit
//! both maximum sizes, so that 12 is never given.

use super::{End, Step, FCS};
use crate::paper::attribute::{answered, attributes_held, descriptors_asked};
use crate::paper::{answer, container_octets, DraftBody, Information, BODY, LONGEST};

impl End {
    /// Answers a Variable Request of the peer: a container for each descriptor, as
    /// far as both maximum sizes let them go. An attribute is two numbers,
    /// descriptor and width; the values stand one behind the other.
    pub fn respond(
        &self,
        attributes: &[u32],
        values: &[u8],
        descriptors: &[u32],
        out: &mut [u8],
    ) -> Result<Step, u8> {
        let held = attributes_held(attributes, values).ok_or(answer::VALUES)?;
        let asked = descriptors_asked(descriptors).ok_or(answer::VALUES)?;
        let peer = self.allowed_peer(|peer| self.may_respond(peer))?;
        let room = self.smaller_size(&peer) - FCS - BODY;
        let containers = container_octets(&answered(&held, &asked, room));
        let mut frame = [0; LONGEST];
        let length = self.write(DraftBody::Response { containers }, &mut frame)?;
        self.grant(&frame[..length], out)
    }

    /// Own bit 4 set. 001 (Table 57-1, note a) lets an active end send responses
    /// only to an active peer. The peer's bit 4 is no condition.
    fn may_respond(&self, peer: &Information) -> bool {
        self.settings.has_retrieval() && (!self.settings.is_active() || peer.is_active())
    }
}
