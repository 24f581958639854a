//! Slips in the number of events that a notification takes, and in the log's positions.

use super::{Slip, Slipping};
use crate::paper::log::{read_up_to, FIELDS};
use crate::paper::{answer, write, Draft, DraftBody, BODY, LONGEST, NUMBERS, PLAIN_EVENTS};

const MOST: usize = NUMBERS * PLAIN_EVENTS;

impl Slipping {
    /// The events as they are taken.
    pub fn take_events(&self, events: &mut Vec<u64>) {
        match self.slip {
            Slip::DropsFurtherEvents => events.truncate(MOST),
            Slip::RefusesSixteenEvents if events.len() == MOST => events.clear(),
            Slip::WritesFourEvents if events.len() <= MOST => events.truncate(4 * NUMBERS),
            _ => {}
        }
    }

    /// The position as it is written.
    pub fn position(&self, position: u64) -> u64 {
        match (self.slip, position) {
            (Slip::TakesPosition0, 0) => 1,
            (Slip::TakesPosition17, 17) => 16,
            (Slip::RefusesPosition16, 16) => 0,
            (Slip::CutsPosition, 10..=16) => position % 10,
            _ => position,
        }
    }

    /// The last position that is read, if it is another.
    pub fn last_position(&self) -> Option<usize> {
        match self.slip {
            Slip::TakesPosition17 => Some(17),
            Slip::RefusesPosition16 => Some(15),
            Slip::CutsPosition => Some(9),
            _ => None,
        }
    }
}

/// Reads a line up to this position.
pub fn log_read_up_to(last: usize, text: &[u8], values: &mut [u64]) -> u64 {
    let answer = match (values.get_mut(..FIELDS), read_up_to(last, text)) {
        (None, _) => answer::OUTPUT,
        (Some(place), Ok(fields)) => {
            place.copy_from_slice(&fields);
            answer::ACCEPTED
        }
        (_, Err(answer)) => answer,
    };
    answer.into()
}

/// Seventeen events, written as if there might be so many: the last one's TLV stands
/// behind the frame of the others. Of other drafts nothing is written.
pub fn seventeen_written(draft: &Draft, out: &mut [u8]) -> Option<u64> {
    let (mut first, mut last) = (draft.clone(), draft.clone());
    match (&mut first.body, &mut last.body) {
        (
            DraftBody::Notification { events: first, .. },
            DraftBody::Notification { events: last, .. },
        ) if last.len() == MOST + NUMBERS => {
            first.truncate(MOST);
            last.drain(..MOST);
        }
        _ => return None,
    }
    let [mut frame, mut tlv] = [[0; LONGEST]; 2];
    let length = write(&first, &mut frame).ok()?;
    write(&last, &mut tlv).ok()?;
    let tlv = &tlv[BODY + 2..][..usize::from(tlv[BODY + 3])];
    let frame = [&frame[..length], tlv].concat();
    let Some(place) = out.get_mut(..frame.len()) else {
        return Some(answer::OUTPUT.into());
    };
    place.copy_from_slice(&frame);
    Some((frame.len() as u64) << 8)
}
