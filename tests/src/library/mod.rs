//! The functions that the product's archive offers, with slices in the place of
//! pointers and lengths, and the libraries that have them: the paper's own, the
//! archive, and one whose reading is written by hand for speed.

#[cfg(feature = "archive")]
mod archive;
mod by_hand;
mod by_paper;
pub mod machine;
mod message;

#[cfg(feature = "archive")]
pub use archive::Archive;
pub use by_hand::ByHand;
pub use by_paper::ByPaper;
pub use message::{message, Unread};

use crate::paper::Draft;

/// Every function gives an outcome: the answer in its low 8 bits, and above them
/// the length written, or of `read_all` the count of parts and of `descriptors`
/// theirs. The other readers have 0 there, and so has a refusal.
pub trait Library {
    /// The writer of the draft's code.
    fn write(&self, draft: &Draft, out: &mut [u8]) -> u64;

    fn log_write(&self, number: u64, position: u64, event: &[u64], out: &mut [u8]) -> u64;

    /// Stores the nine values of a line. Less room for them is 9, before all.
    fn log_read(&self, text: &[u8], values: &mut [u64]) -> u64;

    /// Stores source, flags, code, the number that stands at a fixed place of the
    /// body, and that of the TLVs skipped in all. Less room for them is 9, before all.
    fn read(&self, frame: &[u8], header: &mut [u64]) -> u64;

    /// Stores the header as `read` does, and the parts of the body in order, each
    /// as a row of `ROW` numbers: its kind, the octet after it, the number of TLVs
    /// skipped before it, its own numbers, zeros. TLVs that are skipped are no parts.
    /// The first `first` parts are passed over, and of the others as many are stored as
    /// whole rows have room. Less room for the header is 9, before all.
    fn read_all(&self, frame: &[u8], first: usize, header: &mut [u64], rows: &mut [u64]) -> u64;

    /// Stores all descriptors of a Variable Request, each as one number, and what is
    /// behind them stays. Another code is 10, behind 1 to 8 for the frame; less room
    /// is 9, behind 10, and stores nothing.
    fn descriptors(&self, frame: &[u8], descriptors: &mut [u32]) -> u64;
}

/// Values that `read` stores, and the place of the TLVs skipped in all.
pub const HEADER: usize = 5;
pub const HEADER_SKIPPED: usize = 4;
/// Values in a row that `read_all` stores, the place of the TLVs skipped before the
/// part, and where the part's own numbers begin.
pub const ROW: usize = 10;
pub const ROW_SKIPPED: usize = 2;
pub const ROW_PART: usize = 3;

/// The kinds of parts: the first number of a row.
pub mod kind {
    pub const LOCAL: u64 = 32;
    pub const REMOTE: u64 = 33;
    pub const EVENT: u64 = 34;
    pub const DESCRIPTOR: u64 = 35;
    /// A container: descriptor, the value's first octet, its width.
    pub const VALUE: u64 = 36;
    /// A container: descriptor, the width octet as received.
    pub const INDICATION: u64 = 37;

    pub const ALL: [u64; 6] = [LOCAL, REMOTE, EVENT, DESCRIPTOR, VALUE, INDICATION];
}

pub fn answer_of(outcome: u64) -> u8 {
    outcome as u8
}

/// The length written, or the count of parts or descriptors.
pub fn length_of(outcome: u64) -> usize {
    (outcome >> 8) as usize
}

/// The name of the archive's function that writes a draft of this code.
pub fn writer_name(code: u8) -> &'static str {
    use crate::paper::code;
    match code {
        code::INFORMATION => "oam_write_information",
        code::NOTIFICATION => "oam_write_notification",
        code::REQUEST => "oam_write_request",
        code::RESPONSE => "oam_write_response",
        code::LOOPBACK => "oam_write_loopback",
        _ => "oam_write_organization",
    }
}
