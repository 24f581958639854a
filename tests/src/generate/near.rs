//! Frames at the edge of the plain form.

use super::containers::{branch_0_put_in, past_the_end};
use super::valid::{loose, plain};
use super::{encode, messages};
use crate::paper::{code, Body, BODY, LONGEST, PLAIN_EVENTS, SHORTEST};
use crate::random::Random;

/// A plain frame, one with an octet changed, added or taken off, or now and then
/// a loose one.
pub fn near_plain(random: &mut Random, code: u8) -> Vec<u8> {
    let mut frame = plain(random, code).frame;
    match random.below(8) {
        0 | 1 => {}
        2 if frame.len() < LONGEST => frame.push(0),
        3 => drop(frame.pop()),
        4 => return loose(random, code).frame,
        5 if code == code::NOTIFICATION => return near_notification(random),
        5 if code == code::RESPONSE => return near_response(random),
        _ => change_octet(random, &mut frame),
    }
    frame
}

/// A notification that would be plain but for one event to four too many.
fn near_notification(random: &mut Random) -> Vec<u8> {
    let mut message = messages::any_message(random, code::NOTIFICATION, messages::Style::Plain);
    if let Body::Notification { events, .. } = &mut message.body {
        let count = PLAIN_EVENTS + random.between(1, 4);
        *events = messages::some_events(random, count);
    }
    encode::plain(&message)
}

/// A response that would be plain but for a branch 0 inside, or for a width that
/// runs past the frame's end.
fn near_response(random: &mut Random) -> Vec<u8> {
    let message = messages::any_message(random, code::RESPONSE, messages::Style::Plain);
    let mut frame = encode::start(&message);
    match random.one_in(2) {
        true => {
            frame.extend(branch_0_put_in(random));
            let length = frame.len().max(SHORTEST);
            frame.resize(length, 0);
        }
        false => {
            // A frame of 60 octets or more that ends with its containers.
            while frame.len() < SHORTEST {
                frame.truncate(BODY);
                frame.extend(past_the_end(random));
            }
        }
    }
    frame
}

/// Flags and the first octets of the body tell more than the others.
fn change_octet(random: &mut Random, frame: &mut [u8]) {
    let at = match random.below(4) {
        0 => random.between(15, 16),
        1 => random.between(18, 36),
        _ => random.below(frame.len()),
    };
    let single_bit = random.one_in(2);
    frame[at] = match single_bit {
        true => frame[at] ^ 1 << random.below(8),
        false => random.other_octet(frame[at]),
    };
}
