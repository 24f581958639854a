//! What an end sends: its flags, its Information frame, when one is owed, and
//! the limit of ten (change request (ii)).

use super::{Discovery, End, Shown, Step};
use crate::paper::{write, Draft, DraftBody, Information, NUMBERS};

/// "One second can touch eleven tick intervals": the present one and ten before it.
pub const STRETCH: usize = 11;
/// The most frames of so many successive intervals.
pub const MOST_FRAMES: u8 = 10;

/// The version of a Local TLV.
const VERSION: u64 = 1;

impl End {
    /// The flags as they stand.
    pub fn flags(&self) -> u16 {
        let critical = [self.has_link_fault(), self.dying_gasp, self.critical_event];
        let bits = (0..).zip(critical).map(|(bit, set)| u16::from(set) << bit);
        let local = u16::from(self.discovery.field());
        bits.sum::<u16>() | local << 3 | u16::from(self.remote_field()) << 5
    }

    /// 001 (Table 57-3) has 0 here while no peer record is held.
    fn remote_field(&self) -> u8 {
        self.peer.map_or(0, |_| self.kept_field)
    }

    fn has_link_fault(&self) -> bool {
        !self.link_up && self.settings.is_unidirectional()
    }

    /// Whether an Information frame is allowed.
    pub fn allows_information(&self) -> bool {
        match self.discovery {
            Discovery::Fault => self.has_link_fault(),
            Discovery::PassiveWait => false,
            _ => true,
        }
    }

    fn information(&self) -> DraftBody {
        let (local, remote) = match self.discovery {
            Discovery::Fault => (Vec::new(), Vec::new()),
            _ => {
                let remote = self.peer.map(|peer| named_bits(&peer).to_vec());
                (self.local_tlv().to_vec(), remote.unwrap_or_default())
            }
        };
        DraftBody::Information { local, remote }
    }

    fn local_tlv(&self) -> [u64; NUMBERS] {
        [
            VERSION,
            self.revision.into(),
            self.role.octet().into(),
            self.settings.configuration.into(),
            self.settings.size.into(),
            self.settings.oui.into(),
            self.settings.vendor.into(),
        ]
    }

    /// A frame with the flags as they stand, or the writer's answer.
    pub(super) fn write(&self, body: DraftBody, out: &mut [u8]) -> Result<usize, u8> {
        let draft = Draft {
            source: self.settings.source,
            flags: self.flags(),
            body,
        };
        write(&draft, out)
    }

    /// Frames written in the present interval and the ten before it.
    pub fn written(&self) -> u8 {
        self.intervals.iter().sum()
    }

    /// Whether the limit lets one frame more go.
    pub(super) fn has_room(&self) -> bool {
        self.written() < MOST_FRAMES
    }

    /// A frame counts in the interval of its writing.
    pub(super) fn count_frame(&mut self) {
        self.intervals[0] += 1;
    }

    /// A tick's own frame counts in the interval that this tick opens.
    pub(super) fn open_interval(&mut self) {
        self.intervals.copy_within(..STRETCH - 1, 1);
        self.intervals[0] = 0;
    }

    /// Closes a call that came from `before`: the revision, and what is owed.
    pub(super) fn account(&mut self, before: &End, obeyed: bool) {
        let octet_changed = self.role.octet() != before.role.octet();
        if octet_changed {
            self.revision = self.revision.wrapping_add(1);
        }
        let changed = octet_changed || self.flags() != before.flags();
        self.owed = self.allows_information() && (self.owed || changed || obeyed);
    }

    /// Writes the owed frame if there is one and the limit lets it go. The output
    /// has room for it.
    pub(super) fn settle(mut self, shown: Shown, out: &mut [u8]) -> Step {
        let mut length = 0;
        if self.owed && self.has_room() {
            let written = self.write(self.information(), out);
            length = written.expect("an Information frame is plain and has 60 octets");
            self.count_frame();
            self.owed = false;
        }
        Step {
            end: self,
            length,
            shown,
        }
    }
}

/// A record's fields as a Remote TLV sends them: ignored bits zero.
fn named_bits(peer: &Information) -> [u64; NUMBERS] {
    let named = Information {
        state: peer.state & 0x07,
        configuration: peer.configuration & 0x1F,
        pdu_configuration: peer.maximum_size(),
        ..*peer
    };
    named.numbers()
}
