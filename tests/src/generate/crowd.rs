//! Bodies crowded with unknown TLVs, up to as many as the longest frame holds: how
//! many are skipped, before each known TLV and in all, is known as they are put.

use super::every::message_of;
use super::messages::{event, information, Style};
use super::valid::{unknown_type, Layout};
use super::{encode, Made};
use crate::paper::{answer, code, Body, Part, BODY, LONGEST, SHORTEST};
use crate::random::Random;

/// Unknown TLVs in a body: a few, and at and beside what bits can hold.
const COUNTS: [usize; 16] = [
    0, 1, 2, 5, 6, 99, 100, 101, 127, 128, 255, 256, 257, 511, 512, 513,
];

/// Each count, and the most that a frame holds, without a known TLV and with two at
/// several places; and each of them ended in every way.
pub fn every_crowd(random: &mut Random) -> Vec<Made> {
    let mut frames = Vec::new();
    for (code, start) in [(code::INFORMATION, BODY), (code::NOTIFICATION, BODY + 2)] {
        let most = (LONGEST - start) / 2;
        let alone = COUNTS.into_iter().chain([most - 1, most]);
        let alone = alone.map(|count| (count, None));
        let mixed = COUNTS.into_iter().flat_map(|count| {
            let places = [(0, 0), (0, count / 2), (1, count), (count, count)];
            places.map(|places| (count, Some(places)))
        });
        for (count, places) in alone.chain(mixed) {
            let layout = crowd(random, code, count, places);
            frames.extend(ended(random, layout));
        }
    }
    frames
}

/// So many unknown TLVs, each of two octets, with two known ones behind as many of
/// them as `places` says.
fn crowd(random: &mut Random, code: u8, count: usize, places: Option<(usize, usize)>) -> Layout {
    let message = message_of(body(random, code, places.is_some()));
    let parts = encode::parts(&message.body);
    let mut layout = Layout::with_list(message);
    let (first, second) = places.unwrap_or_default();
    for (part, place) in parts.iter().zip([first, second]) {
        put_unknown(random, &mut layout, place.min(count));
        layout.put_part(part);
    }
    put_unknown(random, &mut layout, count);
    layout
}

/// Puts unknown TLVs until there are so many.
fn put_unknown(random: &mut Random, layout: &mut Layout, count: usize) {
    let code = layout.message.body.code();
    while layout.message.skipped.total < count {
        layout.put_unknown(&[unknown_type(random, code), 2]);
    }
}

/// A body without a known TLV, or with two.
fn body(random: &mut Random, code: u8, known: bool) -> Body<'static> {
    let count = if known { 2 } else { 0 };
    if code == code::NOTIFICATION {
        let events = [4, 2].into_iter().take(count);
        return Body::Notification {
            number: random.value(2) as u16,
            events: events.map(|kind| event(random, kind)).collect(),
        };
    }
    let parts = [Part::Local, Part::Remote].into_iter().take(count);
    let parts = parts.map(|part| part(information(random, Style::Loose)));
    Body::Information(parts.collect())
}

/// The walk ended by the frame's end, or by zeros in the shortest frame; by a zero with
/// more unknown TLVs behind it; by one that is broken; by a second Local.
fn ended(random: &mut Random, layout: Layout) -> Vec<Made> {
    let code = layout.message.body.code();
    let unknown = unknown_type(random, code);
    let room = LONGEST - layout.frame.len();
    let with = |behind: &[u8]| {
        let mut layout = layout.clone();
        layout.frame.extend(behind);
        let length = layout.frame.len().max(SHORTEST);
        layout.frame.resize(length, 0);
        layout
    };
    let mut frames = vec![with(&[]).made()];
    if room >= 5 {
        frames.push(with(&[0, unknown, 2, unknown, 2]).made());
    }
    if room >= 2 {
        let broken = with(&[unknown, random.octet_between(0, 1)]).frame;
        frames.push(Made::refused(broken, answer::BROKEN));
    }
    if let Body::Information(parts) = &layout.message.body {
        let second = parts.first().map(encode::part).unwrap_or_default();
        if (1..=room).contains(&second.len()) {
            frames.push(Made::refused(with(&second).frame, answer::SECOND));
        }
    }
    frames
}
