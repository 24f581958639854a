//! Scripts of responses: at each size of note, with containers that just fit and
//! just do not, with as many attributes and descriptors as there may be and one
//! more, and at ends of every configuration.

use super::directed::{reported, with_room, Uncounted};
use super::wraps::{received, stretch_of_ticks, COMPLETE};
use crate::library::machine::{Call, Response};
use crate::paper::machine::{configuration, Report, Settings, FCS, MOST_FRAMES};
use crate::paper::{Body, Information, Part, BODY, MOST_ASKED, MOST_ATTRIBUTES};

/// The sizes at both ends of their range.
const SIZES_OF_NOTE: [u16; 12] = [64, 65, 66, 67, 68, 69, 70, 1514, 1515, 1516, 1517, 1518];
pub const GREATEST: u16 = 1518;

const RETRIEVAL: u8 = configuration::VARIABLE_RETRIEVAL;
const ACTIVE: u8 = configuration::ACTIVE;

/// Octets of a container without its value.
const INDICATION: usize = 4;
const WIDEST: usize = 128;

/// An attribute that is not held.
const UNKNOWN: u32 = 0xFE_0001;

pub fn responding_scripts() -> Vec<Uncounted> {
    let mut scripts = Vec::new();
    for size in SIZES_OF_NOTE {
        let room = usize::from(size) - FCS - BODY;
        for (own, peer) in [(size, 2047), (GREATEST, size), (size, size)] {
            scripts.push(script((RETRIEVAL, own), (ACTIVE, peer), fits(room)));
        }
    }
    let lists = [
        endings(),
        widths(),
        full_lists(),
        held_twice(),
        values_beside(),
    ];
    scripts.push(script(
        (RETRIEVAL, GREATEST),
        (ACTIVE, GREATEST),
        lists.concat(),
    ));
    for own in 0..=0x1F {
        for peer in [0, ACTIVE, RETRIEVAL, ACTIVE | RETRIEVAL] {
            let calls = vec![respond(&[4], &[name(0), UNKNOWN])];
            scripts.push(script((own, GREATEST), (peer, GREATEST), calls));
        }
    }
    scripts
}

/// Requests of an end in SEND_ANY, or in no more than SEND_LOCAL_REMOTE where both
/// are passive, by the configurations and maximum sizes of both.
pub fn script(own: (u8, u16), peer: (u8, u16), requests: Vec<Call>) -> Uncounted {
    let (configuration, size) = own;
    let settings = Settings {
        configuration,
        size,
        oui: 1,
        vendor: 2,
        source: 3,
        required: 0,
    };
    let heard = local_of(peer);
    let mut calls = vec![reported(Report::LinkUp)];
    // Eleven intervals have one or two frames that the ticks write. The last request
    // is made twice more, so that one at least is too many where all could be granted.
    for some in requests.chunks(usize::from(MOST_FRAMES) - 2) {
        calls.push(heard.clone());
        calls.extend(stretch_of_ticks());
        calls.extend_from_slice(some);
        calls.extend(vec![some[some.len() - 1].clone(); 2]);
    }
    (settings, with_room(calls))
}

/// The peer's Information, with ignored bits set beside its maximum size.
fn local_of((configuration, size): (u8, u16)) -> Call {
    let local = Information {
        version: 1,
        revision: 0,
        state: 0,
        configuration,
        pdu_configuration: size | 0xF800,
        oui: [0; 3],
        vendor: [0; 4],
    };
    received(COMPLETE, Body::Information(vec![Part::Local(local)]))
}

/// The name of the attribute at a place of a table.
fn name(place: usize) -> u32 {
    0x07_0001 + 0x0101 * place as u32
}

/// A table of attributes with these widths, and a value for each that tells it from
/// the others.
fn table(widths: &[usize]) -> (Vec<u32>, Vec<u8>) {
    let (mut attributes, mut values) = (Vec::new(), Vec::new());
    for (place, &width) in widths.iter().enumerate() {
        attributes.extend([name(place), width as u32]);
        values.extend((0..width).map(|octet| (0x11 * place + octet + 1) as u8));
    }
    (attributes, values)
}

fn respond(widths: &[usize], descriptors: &[u32]) -> Call {
    let (attributes, values) = table(widths);
    Call::Respond(Response {
        attributes,
        values,
        descriptors: descriptors.to_vec(),
    })
}

/// Values whose containers have so many octets in all, 5 or more.
fn widths_of(total: usize) -> Vec<usize> {
    let mut widths = Vec::new();
    let mut left = total;
    while left > INDICATION + WIDEST {
        let length = (INDICATION + WIDEST).min(left - INDICATION - 1);
        widths.push(length - INDICATION);
        left -= length;
    }
    widths.push(left - INDICATION);
    widths
}

/// Containers with as many octets as there is room for, one less and one more: only
/// values, and one value before or behind what is not held. What is behind them
/// would still fit where the last of them does not.
fn fits(room: usize) -> Vec<Call> {
    let mut calls = Vec::new();
    for total in room - 1..=room + 1 {
        let widths = widths_of(total);
        let mut asked: Vec<u32> = (0..widths.len()).map(name).collect();
        calls.push(respond(&widths, &asked));
        asked.push(UNKNOWN);
        calls.push(respond(&widths, &asked));
        asked.reverse();
        calls.push(respond(&widths, &asked));
        let width = INDICATION + total % INDICATION;
        let unknown = vec![UNKNOWN; total / INDICATION - 2];
        let behind = [&unknown[..], &[name(0)]].concat();
        let before = [&[name(0)], &unknown[..]].concat();
        calls.extend([behind, before].map(|asked| respond(&[width], &asked)));
        let alone = (total - INDICATION).min(WIDEST);
        calls.push(respond(&[alone, 1], &[name(0), name(1), UNKNOWN]));
    }
    let unknown = vec![UNKNOWN; room / INDICATION + 2];
    calls.push(respond(&[], &unknown));
    calls.push(respond(&[], &unknown[2..]));
    calls
}

/// Containers that end at octets 57 to 62 of the frame: one value, two, or an
/// indication last.
fn endings() -> Vec<Call> {
    let each = |total: usize| {
        let halves = [total / 2 - INDICATION, total - total / 2 - INDICATION];
        [
            respond(&[total - INDICATION], &[name(0)]),
            respond(&halves, &[name(0), name(1)]),
            respond(&[total - 2 * INDICATION], &[name(0), UNKNOWN]),
        ]
    };
    (57 - BODY..=62 - BODY).flat_map(each).collect()
}

/// Every width.
fn widths() -> Vec<Call> {
    let each = |width| respond(&[width, 1], &[name(0), name(1)]);
    (1..=WIDEST).map(each).collect()
}

/// As many attributes and descriptors as there may be, one less and one more.
fn full_lists() -> Vec<Call> {
    let mut calls = Vec::new();
    for count in MOST_ATTRIBUTES - 1..=MOST_ATTRIBUTES + 1 {
        let names: Vec<u32> = (0..count).map(name).collect();
        for width in [1, 2, WIDEST] {
            calls.push(respond(&vec![width; count], &names));
            calls.push(respond(&vec![width; count], &[name(count - 1), name(0)]));
        }
    }
    let cycle = |count: usize| (0..count).map(|place| name(place % 80));
    for count in MOST_ASKED - 1..=MOST_ASKED + 1 {
        let asked: Vec<u32> = cycle(count).collect();
        calls.push(respond(&[1; MOST_ATTRIBUTES], &asked));
        calls.push(respond(&[], &asked));
        calls.push(respond(&[], &vec![UNKNOWN; count]));
    }
    calls
}

/// One name at any two of five places, and of 64 at the last two and at the ends.
fn held_twice() -> Vec<Call> {
    let last = MOST_ATTRIBUTES - 1;
    let ends = [
        (5, 0, 0),
        (MOST_ATTRIBUTES, last - 1, last),
        (MOST_ATTRIBUTES, 0, last),
    ];
    let pairs = (1..5).flat_map(|second| (0..second).map(move |first| (5, first, second)));
    let twice = |(count, first, second): (usize, usize, usize)| {
        let (mut attributes, values) = table(&vec![2; count]);
        attributes[2 * second] = name(first);
        Call::Respond(Response {
            attributes,
            values,
            descriptors: vec![name(first), UNKNOWN],
        })
    };
    ends.into_iter().chain(pairs).map(twice).collect()
}

/// Values of one octet less and one more than the widths say, and numbers that are
/// one less and one more than those of whole attributes.
fn values_beside() -> Vec<Call> {
    let (attributes, values) = table(&[2, 3]);
    let lent = |numbers: usize, octets: usize| {
        let numbers = attributes.iter().cycle().take(numbers);
        let octets = values.iter().cycle().take(octets);
        Call::Respond(Response {
            attributes: numbers.copied().collect(),
            values: octets.copied().collect(),
            descriptors: vec![name(0), name(1)],
        })
    };
    let (count, sum) = (attributes.len(), values.len());
    [
        (count, sum - 1),
        (count, sum),
        (count, sum + 1),
        (count - 1, 2),
        (count + 1, sum),
    ]
    .map(|(numbers, octets)| lent(numbers, octets))
    .to_vec()
}
