//! The octets of a message. This half of the frame layout is written apart from
//! the decoder, so that a slip in one of the two shows as a claim that fails.

use crate::paper::{
    Body, Container, Content, Descriptor, Event, Information, Message, Part, DESTINATION, EVENTS,
    INFORMATION_LENGTH, SHORTEST, SLOW_PROTOCOLS, SUBTYPE,
};

/// All octets before the body's first part: the eighteen of the header, and
/// for a notification its number.
pub fn start(message: &Message) -> Vec<u8> {
    let mut frame = header(message.source, message.flags, message.body.code());
    if let Body::Notification { number, .. } = message.body {
        frame.extend(number.to_be_bytes());
    }
    frame
}

pub fn header(source: [u8; 6], flags: u16, code: u8) -> Vec<u8> {
    let mut frame = Vec::with_capacity(SHORTEST);
    frame.extend(DESTINATION);
    frame.extend(source);
    frame.extend(SLOW_PROTOCOLS);
    frame.push(SUBTYPE);
    frame.extend(flags.to_be_bytes());
    frame.push(code);
    frame
}

/// The octets of each of the body's parts.
pub fn parts(body: &Body) -> Vec<Vec<u8>> {
    match body {
        Body::Information(parts) => parts.iter().map(part).collect(),
        Body::Notification { events, .. } => events.iter().map(event).collect(),
        Body::Request(descriptors) => descriptors.iter().map(descriptor).collect(),
        Body::Response(containers) => containers.iter().map(container).collect(),
        Body::Loopback { command } => vec![vec![*command]],
        Body::Organization { oui, data } => vec![oui.to_vec(), data.to_vec()],
    }
}

/// The message's octets, from its first to those of its last part.
pub fn unpadded(message: &Message) -> Vec<u8> {
    let mut frame = start(message);
    frame.extend(parts(&message.body).concat());
    frame
}

/// The message's frame with zeros after its parts, as short as it can be: its
/// plain form, if it has one.
pub fn plain(message: &Message) -> Vec<u8> {
    let mut frame = unpadded(message);
    let length = frame.len().max(SHORTEST);
    frame.resize(length, 0);
    frame
}

pub fn part(part: &Part) -> Vec<u8> {
    match part {
        Part::Local(local) => information(1, local),
        Part::Remote(remote) => information(2, remote),
    }
}

fn information(kind: u8, fields: &Information) -> Vec<u8> {
    let mut tlv = vec![kind, INFORMATION_LENGTH as u8, fields.version];
    tlv.extend(fields.revision.to_be_bytes());
    tlv.push(fields.state);
    tlv.push(fields.configuration);
    tlv.extend(fields.pdu_configuration.to_be_bytes());
    tlv.extend(fields.oui);
    tlv.extend(fields.vendor);
    tlv
}

fn event(event: &Event) -> Vec<u8> {
    let (length, widths) = EVENTS[usize::from(event.kind) - 1];
    let mut tlv = vec![event.kind, length as u8];
    for (value, width) in event.values.iter().zip(widths) {
        tlv.extend(&value.to_be_bytes()[8 - width..]);
    }
    tlv
}

fn descriptor(descriptor: &Descriptor) -> Vec<u8> {
    let [high, low] = descriptor.leaf.to_be_bytes();
    vec![descriptor.branch, high, low]
}

fn container(container: &Container) -> Vec<u8> {
    let mut octets = descriptor(&container.descriptor);
    match &container.content {
        Content::Indication(indication) => octets.push(*indication),
        Content::Value(value) => {
            octets.push((value.len() % 128) as u8); // 128 octets are width 0
            octets.extend(value.iter());
        }
    }
    octets
}
