//! Messages drawn at random: what a valid frame is to say.

use crate::paper::{
    code, Body, Container, Content, Descriptor, Event, Information, Message, Part, EVENTS,
    PLAIN_DATA, PLAIN_DESCRIPTORS, PLAIN_EVENTS,
};
use crate::random::Random;
use std::borrow::Cow;

/// What a message may hold.
#[derive(Clone, Copy, PartialEq, Eq)]
pub enum Style {
    /// Only what the paper's plain form allows.
    Plain,
    /// The same, and few events: what a link without a storm has to tell.
    Quiet,
    /// All that is accepted: ignored bits set, no parts or many, any order.
    Loose,
}

const FEW_EVENTS: usize = 4;
/// The most parts that fit a frame of 1,514 octets.
const MOST_EVENTS: usize = 37;
const MOST_DESCRIPTORS: usize = 498;
/// Octets for containers in the longest frame.
const MOST_CONTAINER_OCTETS: usize = 1496;

pub fn any_code(random: &mut Random) -> u8 {
    random.pick(&code::ALL)
}

pub fn any_message(random: &mut Random, code: u8, style: Style) -> Message<'static> {
    let (source, flags) = (random.field(), flags(random, style));
    Message::without_skips(source, flags, body(random, code, style))
}

fn flags(random: &mut Random, style: Style) -> u16 {
    if style == Style::Loose {
        return random.value(2) as u16;
    }
    let critical = random.below(8);
    let (local, remote) = (random.below(3), random.below(3));
    (remote << 5 | local << 3 | critical) as u16
}

fn body(random: &mut Random, code: u8, style: Style) -> Body<'static> {
    match code {
        code::INFORMATION => Body::Information(parts(random, style)),
        code::NOTIFICATION => Body::Notification {
            number: random.value(2) as u16,
            events: events(random, style),
        },
        code::REQUEST => Body::Request(descriptors(random, style)),
        code::RESPONSE => Body::Response(containers(random)),
        code::LOOPBACK => Body::Loopback {
            command: random.octet_between(1, 2),
        },
        code::ORGANIZATION => Body::Organization {
            oui: random.field(),
            data: Cow::Owned(data(random)),
        },
        other => panic!("no body has the code {other:02x}"),
    }
}

fn parts(random: &mut Random, style: Style) -> Vec<Part> {
    let local = Part::Local(information(random, style));
    let remote = Part::Remote(information(random, style));
    let orders = if style == Style::Loose { 5 } else { 3 };
    match random.below(orders) {
        0 => vec![],
        1 => vec![local],
        2 => vec![local, remote],
        3 => vec![remote],
        _ => vec![remote, local],
    }
}

pub fn information(random: &mut Random, style: Style) -> Information {
    // The bits that the paper names; in the plain form the others are zero.
    let (state, configuration, pdu_configuration) = match style {
        Style::Plain | Style::Quiet => (0x07, 0x1F, 0x07FF),
        Style::Loose => (0xFF, 0xFF, 0xFFFF),
    };
    Information {
        version: if random.one_in(4) {
            random.value(1) as u8
        } else {
            1
        },
        revision: random.value(2) as u16,
        state: random.octet() & state,
        configuration: random.octet() & configuration,
        pdu_configuration: random.value(2) as u16 & pdu_configuration,
        oui: random.field(),
        vendor: random.field(),
    }
}

fn events(random: &mut Random, style: Style) -> Vec<Event> {
    let count = match style {
        Style::Plain if random.one_in(16) => return storm(random),
        Style::Plain => random.between(1, PLAIN_EVENTS),
        Style::Quiet => random.between(1, FEW_EVENTS),
        Style::Loose if random.one_in(12) => random.between(FEW_EVENTS + 1, MOST_EVENTS),
        Style::Loose => random.between(0, FEW_EVENTS),
    };
    some_events(random, count)
}

/// As many events as a notification takes, all of one type: of type 1 they make the
/// longest one.
fn storm(random: &mut Random) -> Vec<Event> {
    let kind = random.octet_between(1, 4);
    (0..PLAIN_EVENTS).map(|_| event(random, kind)).collect()
}

pub fn some_events(random: &mut Random, count: usize) -> Vec<Event> {
    (0..count).map(|_| any_event(random)).collect()
}

pub fn any_event(random: &mut Random) -> Event {
    let kind = random.octet_between(1, 4);
    event(random, kind)
}

pub fn event(random: &mut Random, kind: u8) -> Event {
    let (_, widths) = EVENTS[usize::from(kind) - 1];
    Event {
        kind,
        values: widths.map(|width| random.value(width)),
    }
}

fn descriptors(random: &mut Random, style: Style) -> Vec<Descriptor> {
    let count = match style {
        Style::Plain | Style::Quiet => random.between(1, PLAIN_DESCRIPTORS),
        Style::Loose if random.one_in(20) => random.between(0, MOST_DESCRIPTORS),
        // Fourteen end exactly at the end of the shortest frame.
        Style::Loose if random.one_in(4) => 14,
        Style::Loose => random.between(0, 20),
    };
    (0..count).map(|_| descriptor(random)).collect()
}

pub fn descriptor(random: &mut Random) -> Descriptor {
    Descriptor {
        branch: random.octet_between(1, 255),
        leaf: random.value(2) as u16,
    }
}

pub fn containers(random: &mut Random) -> Vec<Container<'static>> {
    let mut room = if random.one_in(12) {
        MOST_CONTAINER_OCTETS
    } else {
        random.between(0, 200)
    };
    let mut containers = Vec::new();
    loop {
        let container = container(random);
        let length = 4 + value_length(&container);
        if length > room {
            containers.extend(last_container(random, room));
            return containers;
        }
        room -= length;
        containers.push(container);
    }
}

/// Every other time one that fills the room that is left to its last octet, if one
/// can; the room is for less than the longest.
fn last_container(random: &mut Random, room: usize) -> Option<Container<'static>> {
    let content = match room.checked_sub(4)? {
        _ if random.one_in(2) => return None,
        0 => Content::Indication(random.octet_between(0x80, 0xFF)),
        width => Content::Value(Cow::Owned(random.octets(width))),
    };
    let descriptor = descriptor(random);
    Some(Container {
        descriptor,
        content,
    })
}

pub fn container(random: &mut Random) -> Container<'static> {
    Container {
        descriptor: descriptor(random),
        content: content(random),
    }
}

fn content(random: &mut Random) -> Content<'static> {
    let length = match random.below(8) {
        0 => 128,
        1 => 127,
        2 | 3 => return Content::Indication(random.octet_between(0x80, 0xFF)),
        4 => random.between(1, 128),
        _ => random.between(1, 8),
    };
    Content::Value(Cow::Owned(random.octets(length)))
}

fn value_length(container: &Container) -> usize {
    match &container.content {
        Content::Value(value) => value.len(),
        Content::Indication(_) => 0,
    }
}

fn data(random: &mut Random) -> Vec<u8> {
    let (least, most) = (*PLAIN_DATA.start(), *PLAIN_DATA.end());
    let length = match random.below(12) {
        0 => random.between(least, most),
        1 => least,
        2 if random.one_in(4) => most,
        _ => random.between(least, 150),
    };
    random.octets(length)
}
