//! Slips in the number of events that a notification takes.

use super::Slip;
use crate::paper::machine::End;
use crate::paper::{NUMBERS, PLAIN_EVENTS};
use crate::trial::machine::storming::first_are_12;

const MOST: usize = NUMBERS * PLAIN_EVENTS;

/// Alters the events that the paper's machine is given.
pub fn prepare(slip: Slip, events: &mut Vec<u64>) {
    match slip {
        Slip::RefusesSixteenEvents if events.len() == MOST => events[0] = 0, // no type
        Slip::TakesSeventeenEvents if events.len() == MOST + NUMBERS => events.truncate(MOST),
        Slip::WritesFourEvents if events.len() <= MOST => events.truncate(4 * NUMBERS),
        _ => {}
    }
}

/// Whether 12 is given to events that are 10 for their number.
pub fn gives_12(slip: Slip, end: &End, events: &[u64]) -> bool {
    let too_many = events.len() > MOST;
    slip == Slip::SizeBeforeNumberOfEvents && too_many && first_are_12(end, events)
}
