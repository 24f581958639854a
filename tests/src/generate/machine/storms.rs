//! Scripts of storms: notifications of few events, of as many as there may be and of one
//! more, at sizes that the longest of them just fits and just does not.

use super::directed::Uncounted;
use super::responding::{script, GREATEST};
use crate::library::machine::Call;
use crate::paper::machine::{configuration, FCS};
use crate::paper::{BODY, EVENTS, PLAIN_EVENTS};

const ACTIVE: u8 = configuration::ACTIVE;

pub fn storm_scripts() -> Vec<Uncounted> {
    let (longest, _) = EVENTS[0];
    let fits = (BODY + 2 + PLAIN_EVENTS * longest + FCS) as u16;
    let sizes = [fits - 1, fits, fits + longest as u16, GREATEST].into_iter();
    let pairs = sizes.flat_map(|size| [(size, GREATEST), (GREATEST, size)]);
    pairs
        .map(|(own, peer)| script((ACTIVE, own), (ACTIVE, peer), storms()))
        .collect()
}

/// Events of type 1, and as many of each other type as there may be.
fn storms() -> Vec<Call> {
    let counts = [4, 5, PLAIN_EVENTS - 1, PLAIN_EVENTS, PLAIN_EVENTS + 1];
    let of_type_1 = counts.map(|count| (1, count)).into_iter();
    let others = [2, 3, 4].map(|kind| (kind, PLAIN_EVENTS));
    let events = |(kind, count)| Call::Notify([kind, 1, 2, 3, 4, 5, 6].repeat(count));
    of_type_1.chain(others).map(events).collect()
}
