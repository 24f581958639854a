//! Sets of frames that are gone through to the last one: every value of the
//! header's fields, every TLV length and type, every width, every command, every
//! order of Information TLVs, crowds of unknown TLVs, and lists cut at each of their
//! edges.

use super::crowd::every_crowd;
use super::damage::{cut_to, with_command};
use super::messages::{descriptor, event, information, Style};
use super::sequence::every_sequence;
use super::valid::{any_tlv, loose};
use super::{encode, Claim, Made};
use crate::paper::{
    answer, code, Body, Container, Content, Message, Part, Skipped, BODY, EVENTS,
    INFORMATION_LENGTH, LONGEST, SHORTEST, SUBTYPE,
};
use crate::random::Random;

const SOURCE: [u8; 6] = [0x02, 0, 0, 0, 0, 0x01];
const FLAGS: u16 = 0x0050;

/// Lengths at and beside the two bounds, and far from them.
const LENGTHS: [usize; 18] = [
    0, 1, 2, 17, 18, 19, 20, 58, 59, 60, 61, 62, 1512, 1513, 1514, 1515, 1516, 3000,
];

/// All the sets, one behind the other.
pub fn every_frame(random: &mut Random) -> Vec<Made> {
    let mut frames = Vec::new();
    frames.extend(header_octets());
    frames.extend(lengths());
    frames.extend(commands(random));
    frames.extend(tlvs_at_end(random));
    frames.extend(every_sequence(random));
    frames.extend(every_crowd(random));
    frames.extend(widths_at_end(random));
    frames.extend(full_requests(random));
    frames.extend(cuts(random));
    frames
}

pub fn message_of(body: Body<'static>) -> Message<'static> {
    Message::without_skips(SOURCE, FLAGS, body)
}

/// A frame of zeros behind its header, and what it says. Code 04 has command 1.
fn blank(code: u8, length: usize) -> (Vec<u8>, Message<'static>) {
    let body = match code {
        code::LOOPBACK => Body::Loopback { command: 1 },
        code::ORGANIZATION => Body::Organization {
            oui: [0; 3],
            data: vec![0; length.saturating_sub(BODY + 3)].into(),
        },
        _ => empty_list(code, 0),
    };
    let message = message_of(body);
    let mut frame = encode::unpadded(&message);
    frame.resize(length, 0);
    (frame, message)
}

/// The body of a code 00 to 03 without any part.
fn empty_list(code: u8, number: u16) -> Body<'static> {
    match code {
        code::INFORMATION => Body::Information(vec![]),
        code::REQUEST => Body::Request(vec![]),
        code::RESPONSE => Body::Response(vec![]),
        _ => Body::Notification {
            number,
            events: vec![],
        },
    }
}

/// Every bit of destination and type wrong, every other subtype, every code.
fn header_octets() -> Vec<Made> {
    let (good, _) = blank(code::INFORMATION, SHORTEST);
    let refused = |place: usize, octet: u8, answer: u8| {
        let mut frame = good.clone();
        frame[place] = octet;
        Made::refused(frame, answer)
    };
    let flipped =
        |place: usize, bit: u32, answer: u8| refused(place, good[place] ^ (1 << bit), answer);
    let mut frames = Vec::new();
    for bit in 0..8 {
        frames.extend((0..6).map(|place| flipped(place, bit, answer::DESTINATION)));
        frames.extend((12..14).map(|place| flipped(place, bit, answer::TYPE)));
    }
    for subtype in (0..=255).filter(|&subtype| subtype != SUBTYPE) {
        frames.push(refused(14, subtype, answer::SUBTYPE));
    }
    for code in (0..=255).filter(|code| !code::ALL.contains(code)) {
        frames.push(refused(17, code, answer::CODE));
    }
    frames
}

/// Every code in frames of the lengths at the bounds.
fn lengths() -> Vec<Made> {
    let mut frames = Vec::new();
    for code in code::ALL {
        for length in LENGTHS {
            let (frame, message) = blank(code, length);
            let claim = match length {
                SHORTEST..=LONGEST => Claim::Accepted(message),
                _ => Claim::Refused(answer::LENGTH),
            };
            frames.push(Made { frame, claim });
        }
    }
    frames
}

/// Every loopback command.
fn commands(random: &mut Random) -> Vec<Made> {
    (0..=255)
        .map(|command| with_command(loose(random, code::LOOPBACK), command))
        .collect()
}

/// A TLV of every length standing at the frame's end, of known and unknown
/// types, and one of every type.
fn tlvs_at_end(random: &mut Random) -> Vec<Made> {
    let mut frames = Vec::new();
    for code in [code::INFORMATION, code::NOTIFICATION] {
        for kind in [1, 2, 3, 4, 5, 0x7F, 0xFE, 0xFF] {
            for length in 0..=255 {
                frames.extend(tlv_at_end(random, code, kind, length));
            }
        }
        for kind in 1..=255 {
            for length in [2, 16, 18, 26, 28, 40] {
                frames.extend(tlv_at_end(random, code, kind, length));
            }
        }
    }
    frames
}

/// A TLV of this type and length behind one that is skipped, which moves it
/// behind octet 60.
fn tlv_at_end(random: &mut Random, code: u8, kind: u8, length: u8) -> [Made; 4] {
    let number = random.value(2) as u16;
    let mut none = message_of(empty_list(code, number));
    let start = encode::start(&none);
    let filler = any_tlv(random, 0x7E, 44);
    let (tlv, claim) = match known_length(code, kind) {
        Some(right) if right == usize::from(length) => {
            let mut one = message_of(list_of_one(random, code, kind, number));
            let (before, total) = (vec![1], 1);
            one.skipped = Skipped { before, total };
            (encode::parts(&one.body).concat(), Claim::Accepted(one))
        }
        None if length >= 2 => {
            none.skipped.total = 2;
            (any_tlv(random, kind, length), Claim::Accepted(none))
        }
        _ => (
            any_tlv(random, kind, length),
            Claim::Refused(answer::BROKEN),
        ),
    };
    at_end(random, [start, filler, tlv].concat(), claim)
}

/// The paper's known types and their lengths.
fn known_length(code: u8, kind: u8) -> Option<usize> {
    match (code, kind) {
        (code::INFORMATION, 1 | 2) => Some(INFORMATION_LENGTH),
        (code::NOTIFICATION, 1..=4) => Some(EVENTS[usize::from(kind) - 1].0),
        _ => None,
    }
}

/// The body whose only part is a TLV of a known type.
fn list_of_one(random: &mut Random, code: u8, kind: u8, number: u16) -> Body<'static> {
    match (code, kind) {
        (code::INFORMATION, 1) => {
            Body::Information(vec![Part::Local(information(random, Style::Loose))])
        }
        (code::INFORMATION, _) => {
            Body::Information(vec![Part::Remote(information(random, Style::Loose))])
        }
        _ => Body::Notification {
            number,
            events: vec![event(random, kind)],
        },
    }
}

/// A list whose last part ends with the frame: whole; cut by one octet; with a
/// zero behind it, which ends the list; with another octet, which is cut off.
fn at_end(random: &mut Random, frame: Vec<u8>, claim: Claim) -> [Made; 4] {
    let cut = frame[..frame.len() - 1].to_vec();
    let ended = [&frame[..], &[0]].concat();
    let begun = [&frame[..], &[random.octet_between(1, 255)]].concat();
    [
        Made {
            frame: ended,
            claim: claim.clone(),
        },
        Made { frame, claim },
        Made::refused(cut, answer::BROKEN),
        Made::refused(begun, answer::BROKEN),
    ]
}

/// A container of every width behind as many as bring it behind octet 60.
fn widths_at_end(random: &mut Random) -> Vec<Made> {
    let mut frames = Vec::new();
    for width in 0..=255 {
        let content = match width {
            0 => Content::Value(random.octets(128).into()),
            1..=0x7F => Content::Value(random.octets(width.into()).into()),
            0x80.. => Content::Indication(width),
        };
        let mut containers: Vec<Container> = (0..14)
            .map(|_| container(random, Content::Indication(0xA1)))
            .collect();
        containers.push(container(random, content));
        let message = message_of(Body::Response(containers));
        let frame = encode::unpadded(&message);
        frames.extend(at_end(random, frame, Claim::Accepted(message)));
    }
    frames
}

fn container(random: &mut Random, content: Content<'static>) -> Container<'static> {
    Container {
        descriptor: descriptor(random),
        content,
    }
}

/// Requests whose descriptors fill the frame, or leave one or two octets.
fn full_requests(random: &mut Random) -> Vec<Made> {
    let mut frames = Vec::new();
    for length in (SHORTEST..SHORTEST + 12).chain(LONGEST - 12..=LONGEST) {
        let room = length - BODY;
        let descriptors = (0..room.div_ceil(3)).map(|_| descriptor(random)).collect();
        let message = message_of(Body::Request(descriptors));
        let mut frame = encode::unpadded(&message);
        frame.truncate(length);
        let claim = match room % 3 {
            0 => Claim::Accepted(message),
            _ => Claim::Refused(answer::BROKEN),
        };
        frames.push(Made { frame, claim });
    }
    frames
}

/// Some frames of each kind of list, cut at, before and behind every edge.
fn cuts(random: &mut Random) -> Vec<Made> {
    let mut frames = Vec::new();
    for code in [
        code::INFORMATION,
        code::NOTIFICATION,
        code::REQUEST,
        code::RESPONSE,
    ] {
        for _ in 0..12 {
            let layout = loose(random, code);
            for edge in &layout.edges {
                let last = layout.frame.len().min(edge.at + 1);
                frames.extend((edge.at - 1..=last).map(|length| cut_to(&layout, length)));
            }
        }
    }
    frames
}
