//! Slips in what a receive shows of TLVs that are skipped.

use super::{is_notification, Slip, Slipping};
use crate::library::machine::Call;
use crate::library::HEADER_SKIPPED;
use crate::paper::code;
use crate::paper::machine::{Discovery, End};

impl Slipping {
    /// Alters the number that an accepted frame stores.
    pub fn recount(&self, before: &End, call: &Call, after: &End, shown: u8, header: &mut [u64]) {
        let Call::Receive(frame) = call else {
            return;
        };
        let any = after.discovery == Discovery::SendAny;
        let repeated = any && is_notification(frame) && shown == 1;
        let number = &mut header[HEADER_SKIPPED];
        match self.slip {
            Slip::Miscounts(miscount) => *number = miscount.of(frame).total as u64,
            Slip::NoneSkippedWithLinkDown if !before.link_up => *number = 0,
            Slip::NoneSkippedOutsideSendAny if before.link_up && !any => *number = 0,
            Slip::NoneSkippedInRepeats if repeated => *number = 0,
            Slip::SkippedLeftFromBefore if frame[17] > code::NOTIFICATION => {
                *number = self.left.get();
            }
            _ => {}
        }
        self.left.set(*number);
    }
}
