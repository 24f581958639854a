//! Frames damaged at their field boundaries, and frames of noise.

use super::messages::any_code;
use super::sequence::any_sequence;
use super::valid::{loose, plain_or_loose, Layout};
use super::{encode, Claim, Made};
use crate::paper::{answer, code, Body, Message, BODY, LONGEST, SHORTEST};
use crate::random::Random;

/// One damage out of all.
pub fn any_damage(random: &mut Random, code: u8) -> Made {
    match random.below(8) {
        0 => header(random, code),
        1 => cut(random, code),
        2 => ended_early(random, code),
        3 => tlv_length(random),
        4 => any_sequence(random),
        5 => any_command(random),
        6 => noise(random),
        _ => flip(random, code),
    }
}

/// A frame in which some of the answers 1 to 5 are due; the first one counts.
pub fn header(random: &mut Random, code: u8) -> Made {
    let mut frame = plain_or_loose(random, code).frame;
    let due: Vec<u8> = (answer::LENGTH..=answer::CODE)
        .filter(|_| random.one_in(3))
        .collect();
    let Some(&first) = due.first() else {
        return header(random, code);
    };
    // The length comes last, since the others need their octets to be there.
    for &answer in due.iter().rev() {
        match answer {
            answer::LENGTH => frame.resize(bad_length(random), 0),
            answer::DESTINATION => change(random, &mut frame, 0, 5),
            answer::TYPE => change(random, &mut frame, 12, 13),
            answer::SUBTYPE => change(random, &mut frame, 14, 14),
            _ => frame[17] = reserved_code(random),
        }
    }
    Made::refused(frame, first)
}

fn bad_length(random: &mut Random) -> usize {
    if random.one_in(2) {
        random.below(SHORTEST)
    } else {
        random.between(LONGEST + 1, LONGEST + 200)
    }
}

fn reserved_code(random: &mut Random) -> u8 {
    if random.one_in(8) {
        0xFF
    } else {
        random.octet_between(0x05, 0xFD)
    }
}

/// Changes one octet between two places, both included.
fn change(random: &mut Random, frame: &mut [u8], first: usize, last: usize) {
    let octet = &mut frame[random.between(first, last)];
    *octet = random.other_octet(*octet);
}

/// The frame cut near one of its list's edges, or anywhere.
pub fn cut(random: &mut Random, code: u8) -> Made {
    let layout = loose(random, code);
    let length = if layout.edges.is_empty() || random.one_in(4) {
        random.between(0, layout.frame.len())
    } else {
        random.pick(&layout.edges).at + random.below(5) - 1
    };
    cut_to(&layout, length.min(layout.frame.len()))
}

/// The frame's first `length` octets.
pub fn cut_to(layout: &Layout, length: usize) -> Made {
    let frame = layout.frame[..length].to_vec();
    if length < SHORTEST {
        return Made::refused(frame, answer::LENGTH);
    }
    let at_edge = layout.edges.iter().find(|edge| edge.at == length);
    let claim = match (layout.edges.last(), at_edge) {
        (None, _) => Claim::Accepted(with_less_data(&layout.message, length)),
        (Some(end), _) if length >= end.at => Claim::Accepted(layout.message.clone()),
        (Some(_), Some(edge)) => Claim::Accepted(layout.ended_at(edge)),
        (Some(_), None) => Claim::Refused(answer::BROKEN),
    };
    Made { frame, claim }
}

/// The message of a frame without a list, cut to `length` octets.
fn with_less_data(message: &Message<'static>, length: usize) -> Message<'static> {
    let mut message = message.clone();
    if let Body::Organization { data, .. } = &mut message.body {
        data.to_mut().truncate(length - BODY - 3);
    }
    message
}

/// A zero in the place of a TLV's type or of a branch ends the list there.
pub fn ended_early(random: &mut Random, code: u8) -> Made {
    let mut layout = loose(random, code);
    if layout.edges.len() < 2 {
        return layout.made();
    }
    let edge = layout.edges[random.below(layout.edges.len() - 1)];
    layout.frame[edge.at] = 0;
    layout.message = layout.ended_at(&edge);
    layout.made()
}

/// A TLV with another length octet than its own.
pub fn tlv_length(random: &mut Random) -> Made {
    let code = random.pick(&[code::INFORMATION, code::NOTIFICATION]);
    let mut layout = loose(random, code);
    if layout.edges.len() < 2 {
        return tlv_length(random);
    }
    let place = random.below(layout.edges.len() - 1);
    let (tlv, next) = (layout.edges[place], layout.edges[place + 1]);
    let known = next.parts > tlv.parts;
    let old = layout.frame[tlv.at + 1];
    let new = match random.below(5) {
        0 => 0,
        1 => 1,
        2 => old - 1,
        3 => old.wrapping_add(1),
        _ => random.other_octet(old),
    };
    layout.frame[tlv.at + 1] = new;
    if known || new < 2 {
        Made::refused(layout.frame, answer::BROKEN)
    } else {
        Made::unsaid(layout.frame)
    }
}

/// A loopback command of any value.
pub fn any_command(random: &mut Random) -> Made {
    let layout = loose(random, code::LOOPBACK);
    let command = random.octet();
    with_command(layout, command)
}

pub fn with_command(mut layout: Layout, command: u8) -> Made {
    layout.frame[BODY] = command;
    layout.message.body = Body::Loopback { command };
    match command {
        1 | 2 => layout.made(),
        _ => Made::refused(layout.frame, answer::COMMAND),
    }
}

/// One octet changed, as often as not at the start of a part.
pub fn flip(random: &mut Random, code: u8) -> Made {
    let layout = loose(random, code);
    let mut frame = layout.frame;
    let at = if layout.edges.is_empty() || random.one_in(2) {
        random.below(frame.len())
    } else {
        random.pick(&layout.edges).at + random.below(4)
    };
    let at = at.min(frame.len() - 1);
    change(random, &mut frame, at, at);
    Made::unsaid(frame)
}

/// A good header and a body of octets that often look like types and lengths.
pub fn noise(random: &mut Random) -> Made {
    const TELLING: [u8; 14] = [0, 1, 2, 3, 4, 5, 16, 18, 26, 28, 40, 0x7F, 0x80, 0xFE];
    let (source, flags) = (random.array(), random.value(2) as u16);
    let mut frame = encode::header(source, flags, any_code(random));
    let length = random.between(SHORTEST, SHORTEST + 60);
    let zeros_too = random.one_in(2);
    while frame.len() < length {
        frame.push(match random.below(4) {
            0 => random.octet(),
            _ if zeros_too => random.pick(&TELLING),
            _ => random.pick(&TELLING[1..]),
        });
    }
    Made::unsaid(frame)
}
