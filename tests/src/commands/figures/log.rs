//! The archive's log beside the paper's, on the longest line.

use super::meter::Meter;
use crate::commands::Outcome;
use oam_tests::library::{length_of, Archive, ByPaper, Library};
use oam_tests::paper::log::{read, write, FIELDS, LONGEST_LINE};
use oam_tests::paper::PLAIN_EVENTS;
use std::hint::black_box;

/// The last position, and the greatest number of every other field.
const NUMBER: u64 = u16::MAX as u64;
const POSITION: u64 = PLAIN_EVENTS as u64;
const TOTAL: u64 = u32::MAX as u64;
const EVENT: [u64; 7] = [1, NUMBER, u64::MAX, u64::MAX, u64::MAX, u64::MAX, TOTAL];

pub fn measure(meter: &mut impl Meter) -> Outcome {
    let (mut line, mut own_line) = ([0; LONGEST_LINE], [0; LONGEST_LINE]);
    let outcome = Archive.log_write(NUMBER, POSITION, &EVENT, &mut line);
    let own_outcome = ByPaper.log_write(NUMBER, POSITION, &EVENT, &mut own_line);
    let mut values = [0; FIELDS];
    let answer = Archive.log_read(&line, &mut values);
    if outcome != own_outcome || line != own_line || answer != 0 || read(&line) != Ok(values) {
        return Err("a line is written or read otherwise; see the command log".into());
    }
    let text = line;
    let octets = length_of(outcome);
    meter.row(
        &format!("write a log line, {octets} octets"),
        || Archive.log_write(NUMBER, POSITION, black_box(&EVENT), &mut line),
        || write(NUMBER, POSITION, black_box(&EVENT), &mut own_line),
    );
    meter.row(
        &format!("read a log line, {octets} octets"),
        || Archive.log_read(black_box(&text), &mut values),
        || read(black_box(&text)),
    );
    Ok(())
}
