//! Valid frames: in the plain form, and in the loose ones that a reader must
//! accept as well.

use super::messages::{any_message, Style};
use super::{encode, Claim, Made};
use crate::paper::{code, Body, Message, LONGEST, SHORTEST};
use crate::random::Random;

/// A valid frame that shows where its list can be broken.
#[derive(Clone, Debug)]
pub struct Layout {
    pub message: Message<'static>,
    pub frame: Vec<u8>,
    /// Where a TLV, descriptor or container begins, and last where the list
    /// ends. Loopback and organization specific frames have no list.
    pub edges: Vec<Edge>,
}

/// A place between two parts of a list.
#[derive(Clone, Copy, Debug)]
pub struct Edge {
    pub at: usize,
    /// How many of the message's parts stand before it; skipped TLVs are none.
    pub parts: usize,
    /// How many skipped TLVs do.
    pub skipped: usize,
}

impl Layout {
    /// A frame that goes no further than to its first part.
    fn new(message: Message<'static>) -> Self {
        let frame = encode::start(&message);
        Layout {
            message,
            frame,
            edges: Vec::new(),
        }
    }

    pub fn made(self) -> Made {
        Made {
            frame: self.frame,
            claim: Claim::Accepted(self.message),
        }
    }

    /// A frame whose list stands open at its start.
    pub fn with_list(message: Message<'static>) -> Self {
        let mut layout = Layout::new(message);
        layout.put_edge(0, 0);
        layout
    }

    fn put_edge(&mut self, parts: usize, skipped: usize) {
        let at = self.frame.len();
        self.edges.push(Edge { at, parts, skipped });
    }

    fn last_edge(&self) -> Edge {
        *self.edges.last().expect("a list stands open")
    }

    /// Puts the octets of the message's next part.
    pub fn put_part(&mut self, part: &[u8]) {
        let Edge { parts, skipped, .. } = self.last_edge();
        if let Some(before) = self.message.skipped.before.get_mut(parts) {
            *before = skipped;
        }
        self.frame.extend(part);
        self.put_edge(parts + 1, skipped);
    }

    /// Puts a TLV that is skipped.
    pub fn put_unknown(&mut self, tlv: &[u8]) {
        let Edge { parts, skipped, .. } = self.last_edge();
        self.message.skipped.total += 1;
        self.frame.extend(tlv);
        self.put_edge(parts, skipped + 1);
    }

    /// The message when the list ends at this edge.
    pub fn ended_at(&self, edge: &Edge) -> Message<'static> {
        let mut message = self.message.clone();
        let count = edge.parts;
        message.skipped.before.truncate(count);
        message.skipped.total = edge.skipped;
        match &mut message.body {
            Body::Information(parts) => parts.truncate(count),
            Body::Notification { events, .. } => events.truncate(count),
            Body::Request(descriptors) => descriptors.truncate(count),
            Body::Response(containers) => containers.truncate(count),
            Body::Loopback { .. } | Body::Organization { .. } => {}
        }
        message
    }
}

/// A frame in the plain form.
pub fn plain(random: &mut Random, code: u8) -> Made {
    plain_of(any_message(random, code, Style::Plain))
}

/// One of a link without a storm.
pub fn quiet(random: &mut Random, code: u8) -> Made {
    plain_of(any_message(random, code, Style::Quiet))
}

fn plain_of(message: Message<'static>) -> Made {
    Made {
        frame: encode::plain(&message),
        claim: Claim::Accepted(message),
    }
}

/// A plain frame of a link without a storm, or a loose one.
pub fn plain_or_loose(random: &mut Random, code: u8) -> Made {
    if random.one_in(2) {
        quiet(random, code)
    } else {
        loose(random, code).made()
    }
}

/// A frame with all that a reader must put up with: ignored bits, unknown TLVs,
/// any order, octets behind the list's end, or a list that fills the frame.
pub fn loose(random: &mut Random, code: u8) -> Layout {
    let message = any_message(random, code, Style::Loose);
    laid_loosely(random, message)
}

/// A frame of this message with unknown TLVs and with octets behind the list's end.
pub fn laid_loosely(random: &mut Random, message: Message<'static>) -> Layout {
    let code = message.body.code();
    let parts = encode::parts(&message.body);
    match code {
        code::INFORMATION | code::NOTIFICATION => {
            let mut layout = Layout::with_list(message);
            put_tlvs(random, &mut layout, &parts);
            end_tlvs(random, code, &mut layout.frame);
            layout
        }
        code::REQUEST | code::RESPONSE => {
            let mut layout = Layout::with_list(message);
            parts.iter().for_each(|part| layout.put_part(part));
            end_list(random, &mut layout.frame);
            layout
        }
        _ => {
            let mut layout = Layout::new(message);
            layout.frame.extend(parts.concat());
            // All octets to the frame's end are an organization's data.
            if code == code::LOOPBACK {
                put_rest(random, &mut layout.frame);
            }
            layout
        }
    }
}

/// One frame of so many has unknown TLVs by the hundred.
const CROWDED: usize = 24;

/// Puts the parts with unknown TLVs before, between and behind them, and now
/// and then one that fills the shortest frame.
fn put_tlvs(random: &mut Random, layout: &mut Layout, parts: &[Vec<u8>]) {
    let code = layout.message.body.code();
    let mut spare = LONGEST - layout.frame.len() - parts.concat().len();
    let put = match random.one_in(CROWDED) {
        true => put_crowd,
        false => put_few,
    };
    for part in parts {
        spare -= put(random, layout, spare);
        layout.put_part(part);
    }
    put(random, layout, spare);
    let short_of = SHORTEST.saturating_sub(layout.frame.len());
    if short_of >= 2 && random.one_in(3) {
        let kind = unknown_type(random, code);
        layout.put_unknown(&any_tlv(random, kind, short_of as u8));
    }
}

/// Puts no unknown TLV or a few, and gives their octets.
fn put_few(random: &mut Random, layout: &mut Layout, spare: usize) -> usize {
    let code = layout.message.body.code();
    let mut put = 0;
    while spare - put >= 2 && random.one_in(3) {
        let tlv = unknown_tlv(random, code, spare - put);
        put += tlv.len();
        layout.put_unknown(&tlv);
    }
    put
}

/// Puts short ones in the same way, until the frame has up to 400.
fn put_crowd(random: &mut Random, layout: &mut Layout, spare: usize) -> usize {
    let code = layout.message.body.code();
    let count = random.below(400);
    let mut put = 0;
    while layout.message.skipped.total < count && spare - put >= 3 {
        let (kind, length) = (unknown_type(random, code), random.octet_between(2, 3));
        let tlv = any_tlv(random, kind, length);
        put += tlv.len();
        layout.put_unknown(&tlv);
    }
    put
}

/// A TLV to be skipped, of `most` octets at most.
pub fn unknown_tlv(random: &mut Random, code: u8, most: usize) -> Vec<u8> {
    let kind = unknown_type(random, code);
    let length = match random.below(8) {
        0 => 2,
        1 => 255,
        2 => random.pick(&[16, 18, 26, 28, 40]), // the lengths of known types
        3 => random.between(2, 255),
        _ => random.between(2, 24),
    };
    any_tlv(random, kind, length.min(most) as u8)
}

/// A TLV of any value. Lengths 0 and 1 have the type and length octets as well.
pub fn any_tlv(random: &mut Random, kind: u8, length: u8) -> Vec<u8> {
    let mut tlv = vec![kind, length];
    tlv.extend(random.octets(usize::from(length).saturating_sub(2)));
    tlv
}

/// Types 1 and 2 are known in code 00, 1 to 4 in code 01; FE is not.
pub fn unknown_type(random: &mut Random, code: u8) -> u8 {
    let least = if code == code::INFORMATION { 3 } else { 5 };
    match random.below(4) {
        0 => least,
        1 => 0xFE,
        2 => 0xFF,
        _ => random.octet_between(least, 0xFF),
    }
}

/// Ends a list of TLVs like any other, or so that unknown ones stand behind the zero
/// octet.
fn end_tlvs(random: &mut Random, code: u8, frame: &mut Vec<u8>) {
    let room = LONGEST - frame.len();
    if room < 3 || !random.one_in(4) {
        return end_list(random, frame);
    }
    frame.push(0);
    let mut room = room - 1;
    while room >= 2 {
        let tlv = unknown_tlv(random, code, room);
        room -= tlv.len();
        frame.extend(tlv);
        if random.one_in(3) {
            break;
        }
    }
    put_rest(random, frame);
}

/// Ends a list at the frame's end, or by a zero octet with anything behind it;
/// the zero may be the frame's last octet.
fn end_list(random: &mut Random, frame: &mut Vec<u8>) {
    let ends_whole = frame.len() >= SHORTEST && random.one_in(2);
    if ends_whole || frame.len() == LONGEST {
        return;
    }
    frame.push(0);
    if frame.len() < SHORTEST || !random.one_in(3) {
        put_rest(random, frame);
    }
}

/// Fills the frame up to a lawful length with octets that say nothing.
fn put_rest(random: &mut Random, frame: &mut Vec<u8>) {
    let least = frame.len().max(SHORTEST);
    let most = LONGEST.min(least + 60);
    let length = if random.one_in(2) {
        least
    } else {
        random.between(least, most)
    };
    let zeros = random.one_in(3);
    while frame.len() < length {
        frame.push(if zeros { 0 } else { random.octet() });
    }
}
