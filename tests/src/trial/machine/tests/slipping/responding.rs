//! Slips in responses.

use super::Slip;
use crate::library::machine::Call;
use crate::paper::machine::{configuration, End, FCS, SIZES};
use crate::paper::{list, Listed, BODY, LONGEST, MOST_ASKED};

/// The greatest number in the eleven bits of a peer's maximum size.
const GREATEST_SIZE: u16 = 0x07FF;

/// Alters what the paper's machine is given for a response.
pub fn prepare(slip: Slip, end: &mut End, call: &mut Call) {
    let left_off = octets_left_off(end, call);
    let Call::Respond(given) = call else {
        return;
    };
    let (attributes, values) = (&mut given.attributes, &mut given.values);
    let descriptors = &mut given.descriptors;
    let widths = attributes.chunks_exact(2).map(|pair| pair[1] as usize);
    let sum: usize = widths.sum();
    match slip {
        Slip::FcsNotCounted => count_no_fcs(end),
        Slip::GoesOnAfterTheFirst => {
            if let Some((answered, left)) = left_off {
                keep_what_fits(attributes, descriptors, answered, left);
            }
        }
        Slip::TwiceAtTheFirstOnly => rename_twins(attributes, descriptors),
        Slip::Bit3ForBit4 => {
            let own = &mut end.settings.configuration;
            let bit_3 = *own & configuration::LINK_EVENTS != 0;
            *own &= !configuration::VARIABLE_RETRIEVAL;
            *own |= u8::from(bit_3) * configuration::VARIABLE_RETRIEVAL;
        }
        Slip::Takes499Descriptors if descriptors.len() == MOST_ASKED + 1 => {
            descriptors.truncate(MOST_ASKED);
        }
        Slip::TakesOneValueOctetLess if values.len() + 1 == sum => values.push(0),
        Slip::TakesOneValueOctetMore if values.len() == sum + 1 => values.truncate(sum),
        Slip::ActiveEndAnswersAPassivePeer => {
            if let Some(peer) = &mut end.peer {
                peer.configuration |= configuration::ACTIVE;
            }
        }
        _ => {}
    }
}

/// Both sizes as if they were without the FCS, as far as a size goes.
fn count_no_fcs(end: &mut End) {
    let more = FCS as u16;
    end.settings.size = (end.settings.size + more).min(*SIZES.end());
    if let Some(peer) = &mut end.peer {
        let size = (peer.maximum_size() + more).min(GREATEST_SIZE);
        peer.pdu_configuration = peer.pdu_configuration & !GREATEST_SIZE | size;
    }
}

/// How many descriptors are answered and the octets of room that are left, where the
/// paper's machine grants the response and leaves some off.
fn octets_left_off(end: &End, call: &Call) -> Option<(usize, usize)> {
    let Call::Respond(given) = call else {
        return None;
    };
    let mut out = [0; LONGEST];
    let step = call.step(end, &mut out).ok()?;
    let written = list(out[17], &out[..step.length]);
    let octets = written.last().map_or(BODY, |last| last.next);
    let size = end.settings.size.min(end.peer?.maximum_size());
    let left = usize::from(size) - FCS - octets;
    (written.len() < given.descriptors.len()).then_some((written.len(), left))
}

/// Leaves off only those that do not fit.
fn keep_what_fits(attributes: &[u32], descriptors: &mut Vec<u32>, answered: usize, left: usize) {
    let mut left = left;
    let mut place = 0;
    let all = descriptors.clone();
    descriptors.retain(|descriptor| {
        let mut held = attributes.chunks_exact(2);
        let width = held.find(|held| held[0] == *descriptor);
        let length = 4 + width.map_or(0, |held| held[1] as usize);
        place += 1;
        if place <= answered {
            return true;
        }
        let fits = length <= left;
        left -= if fits { length } else { 0 };
        fits
    });
    if descriptors.is_empty() {
        *descriptors = all; // nothing fits, and none at all would be 10
    }
}

/// Gives names that nobody asks for to all that are held twice, but for those that
/// have the first one's.
fn rename_twins(attributes: &mut [u32], descriptors: &[u32]) {
    let whole = attributes.len() / 2;
    for place in 2..whole {
        let name = attributes[2 * place];
        let twin = (1..place).any(|other| attributes[2 * other] == name);
        if twin && name != attributes[0] {
            let is_free = |new: &u32| {
                let taken = (0..whole).any(|other| attributes[2 * other] == *new);
                !taken && !descriptors.contains(new)
            };
            attributes[2 * place] = (0x01_0000..).find(is_free).expect("a free name");
        }
    }
}

/// Whether 12 is given: where some would be left off.
pub fn gives_12(slip: Slip, end: &End, call: &Call) -> bool {
    slip == Slip::ResponseGives12 && octets_left_off(end, call).is_some()
}

/// Alters the containers of a written response.
pub fn stored(slip: Slip, frame: &mut [u8]) {
    for standing in list(frame[17], frame) {
        let width_at = match standing.part {
            Listed::Value { at, .. } => at - 1,
            _ => standing.next - 1,
        };
        match (slip, standing.part) {
            (Slip::Width128As80, Listed::Value { width: 128, .. }) => frame[width_at] = 0x80,
            (Slip::IndicationWithoutBit7, Listed::Indication { .. }) => frame[width_at] &= 0x7F,
            _ => {}
        }
    }
}
