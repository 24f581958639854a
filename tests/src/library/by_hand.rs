//! The library whose reading is the one of `crate::by_hand`. Writing and the log
//! are the paper's.

use super::{ByPaper, Library};
use crate::by_hand;
use crate::paper::Draft;

pub struct ByHand;

impl Library for ByHand {
    fn write(&self, draft: &Draft, out: &mut [u8]) -> u64 {
        ByPaper.write(draft, out)
    }

    fn log_write(&self, number: u64, position: u64, event: &[u64], out: &mut [u8]) -> u64 {
        ByPaper.log_write(number, position, event, out)
    }

    fn log_read(&self, text: &[u8], values: &mut [u64]) -> u64 {
        ByPaper.log_read(text, values)
    }

    fn read(&self, frame: &[u8], header: &mut [u64]) -> u64 {
        by_hand::read(frame, header)
    }

    fn read_all(&self, frame: &[u8], first: usize, header: &mut [u64], rows: &mut [u64]) -> u64 {
        by_hand::read_all(frame, first, header, rows)
    }

    fn descriptors(&self, frame: &[u8], descriptors: &mut [u32]) -> u64 {
        by_hand::descriptors(frame, descriptors)
    }
}
