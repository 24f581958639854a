//! Information TLVs in every order, some of them broken: what comes first in
//! octet order decides between the answers 6 and 7.

use super::messages::{information, Style};
use super::valid::{unknown_tlv, unknown_type};
use super::{encode, Claim, Made};
use crate::paper::{answer, code, Body, Message, Part, Skipped, SHORTEST};
use crate::random::Random;

#[derive(Clone, Copy)]
enum Kind {
    Local,
    Remote,
    LocalOfOtherLength,
    RemoteOfOtherLength,
    Unknown,
    UnknownOfNoLength,
    End,
}

const KINDS: [Kind; 7] = [
    Kind::Local,
    Kind::Remote,
    Kind::LocalOfOtherLength,
    Kind::RemoteOfOtherLength,
    Kind::Unknown,
    Kind::UnknownOfNoLength,
    Kind::End,
];

/// A TLV, and what is known of it without reading it.
struct Piece {
    octets: Vec<u8>,
    sense: Sense,
}

enum Sense {
    Whole(Part),
    Skipped,
    Broken,
    End,
}

/// Two to eight TLVs; whole Local and Remote ones are the most frequent.
pub fn any_sequence(random: &mut Random) -> Made {
    let count = random.between(2, 8);
    let kinds: Vec<Kind> = (0..count)
        .map(|_| match random.below(2) {
            0 => random.pick(&KINDS[..2]),
            _ => random.pick(&KINDS),
        })
        .collect();
    sequence(random, &kinds)
}

/// Three TLVs, of every kind at each place.
pub fn every_sequence(random: &mut Random) -> Vec<Made> {
    let mut frames = Vec::new();
    for first in KINDS {
        for second in KINDS {
            for third in KINDS {
                frames.push(sequence(random, &[first, second, third]));
            }
        }
    }
    frames
}

fn sequence(random: &mut Random, kinds: &[Kind]) -> Made {
    let pieces: Vec<Piece> = kinds.iter().map(|&kind| piece(random, kind)).collect();
    let (source, flags) = (random.array(), random.value(2) as u16);
    let mut frame = encode::header(source, flags, code::INFORMATION);
    for piece in &pieces {
        frame.extend(&piece.octets);
    }
    let length = frame.len().max(SHORTEST);
    frame.resize(length, 0);
    let claim = match parts_of(&pieces) {
        Ok((parts, skipped)) => Claim::Accepted(Message {
            source,
            flags,
            body: Body::Information(parts),
            skipped,
        }),
        Err(answer) => Claim::Refused(answer),
    };
    Made { frame, claim }
}

fn piece(random: &mut Random, kind: Kind) -> Piece {
    let fields = information(random, Style::Loose);
    let (local, remote) = (Part::Local(fields), Part::Remote(fields));
    let (octets, sense) = match kind {
        Kind::Local => (encode::part(&local), Sense::Whole(local)),
        Kind::Remote => (encode::part(&remote), Sense::Whole(remote)),
        Kind::LocalOfOtherLength => (of_other_length(random, &local), Sense::Broken),
        Kind::RemoteOfOtherLength => (of_other_length(random, &remote), Sense::Broken),
        Kind::Unknown => {
            let tlv = unknown_tlv(random, code::INFORMATION, 40);
            (tlv, Sense::Skipped)
        }
        Kind::UnknownOfNoLength => {
            let kind = unknown_type(random, code::INFORMATION);
            (vec![kind, random.octet_between(0, 1)], Sense::Broken)
        }
        Kind::End => (vec![0], Sense::End),
    };
    Piece { octets, sense }
}

fn of_other_length(random: &mut Random, part: &Part) -> Vec<u8> {
    let mut octets = encode::part(part);
    octets[1] = random.other_octet(octets[1]);
    octets
}

/// The parts that are read and what is skipped, or the first answer. At one TLV 6
/// comes before 7, so that a second Local of another length is broken and nothing else.
fn parts_of(pieces: &[Piece]) -> Result<(Vec<Part>, Skipped), u8> {
    let (mut parts, mut skipped) = (Vec::new(), Skipped::default());
    for piece in pieces {
        match piece.sense {
            Sense::Whole(part) if holds_same_type(&parts, part) => return Err(answer::SECOND),
            Sense::Whole(part) => {
                parts.push(part);
                skipped.before.push(skipped.total);
            }
            Sense::Skipped => skipped.total += 1,
            Sense::Broken => return Err(answer::BROKEN),
            Sense::End => break,
        }
    }
    Ok((parts, skipped))
}

fn holds_same_type(parts: &[Part], part: Part) -> bool {
    let is_local = |part: &Part| matches!(part, Part::Local(_));
    parts.iter().any(|held| is_local(held) == is_local(&part))
}
