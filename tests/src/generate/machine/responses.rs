//! Responses to Variable Requests: attributes, values and descriptors, in range and
//! out of it, many of them just at what a frame can hold.

use super::response_faults::ResponseFault as Fault;
use crate::generate::beyond::beyond;
use crate::generate::messages::descriptor;
use crate::library::machine::{Call, Response};
use crate::paper::machine::FCS;
use crate::paper::{BODY, MOST_ASKED, MOST_ATTRIBUTES};
use crate::random::Random;

/// Octets of a container without its value.
const INDICATION: usize = 4;
/// The greatest width.
const WIDEST: usize = 128;

/// A response of an end whose smaller maximum size is this one. One in three is
/// spoilt, a few of those twice.
pub fn any_respond(random: &mut Random, size: usize) -> Call {
    let (mut attributes, mut descriptors) = match random.below(3) {
        0 => filling(random, size),
        _ => unmeasured(random),
    };
    let count = match random.below(24) {
        0..=6 => 1,
        7 => 2,
        _ => 0,
    };
    let faults: Vec<Fault> = (0..count).map(|_| random.pick(&Fault::ALL)).collect();
    for fault in &faults {
        spoil_attributes(random, *fault, &mut attributes);
        spoil_descriptors(random, *fault, &mut descriptors);
    }
    let mut values: Vec<u8> = attributes
        .iter()
        .flat_map(|held| &held.value)
        .copied()
        .collect();
    let pairs = attributes
        .iter()
        .flat_map(|held| [held.descriptor, held.width]);
    let mut numbers: Vec<u32> = pairs.collect();
    for fault in faults {
        spoil_numbers(random, fault, &mut numbers, &mut values);
    }
    Call::Respond(Response {
        attributes: numbers,
        values,
        descriptors,
    })
}

/// An attribute whose width need not be that of its value.
#[derive(Clone)]
struct Held {
    descriptor: u32,
    width: u32,
    value: Vec<u8>,
}

impl Held {
    fn any(random: &mut Random, others: &[Held]) -> Self {
        let width = match random.below(8) {
            0 => WIDEST,
            1 => WIDEST - 1,
            2 => random.between(1, WIDEST),
            _ => random.between(1, 8),
        };
        Held::of_width(random, others, width)
    }

    fn of_width(random: &mut Random, others: &[Held], width: usize) -> Self {
        Held {
            descriptor: another(random, others),
            width: width as u32,
            value: random.octets(width),
        }
    }

    /// Gives it a width that is none, and a value to match.
    fn set_width(&mut self, random: &mut Random, width: usize) {
        self.width = width as u32;
        self.value = random.octets(width);
    }
}

/// A descriptor that none of them has, every other time one bit beside one of them.
fn another(random: &mut Random, others: &[Held]) -> u32 {
    loop {
        let new = match others.len() {
            count if count > 0 && random.one_in(2) => {
                others[random.below(count)].descriptor ^ 1 << random.below(24)
            }
            _ => descriptor(random).number(),
        };
        let taken = others.iter().any(|held| held.descriptor == new);
        if !taken && new >> 16 > 0 {
            return new;
        }
    }
}

fn held(random: &mut Random) -> Vec<Held> {
    let count = match random.below(12) {
        0 => 0,
        1 => MOST_ATTRIBUTES,
        2 => random.between(0, MOST_ATTRIBUTES),
        _ => random.between(1, 8),
    };
    let mut attributes = Vec::new();
    for _ in 0..count {
        let new = Held::any(random, &attributes);
        attributes.push(new);
    }
    attributes
}

/// Any attributes, and descriptors of which many are held.
fn unmeasured(random: &mut Random) -> (Vec<Held>, Vec<u32>) {
    let attributes = held(random);
    let count = match random.below(24) {
        0 => MOST_ASKED,
        1 => random.between(1, MOST_ASKED),
        2..=5 => 1,
        _ => random.between(1, 20),
    };
    let asked = (0..count).map(|_| asked(random, &attributes));
    let descriptors = asked.collect();
    (attributes, descriptors)
}

fn asked(random: &mut Random, attributes: &[Held]) -> u32 {
    match attributes.len() {
        count if count > 0 && !random.one_in(3) => attributes[random.below(count)].descriptor,
        _ => another(random, attributes),
    }
}

/// Descriptors whose containers have as many octets as the size lets go, one less or
/// one more: some that are not held, and one that is. Now and then others are behind
/// them, and the one that is held may be the only one.
fn filling(random: &mut Random, size: usize) -> (Vec<Held>, Vec<u32>) {
    let mut attributes = held(random);
    attributes.truncate(MOST_ATTRIBUTES - 1);
    let room = size - FCS - BODY + random.below(3) - 1;
    let most = WIDEST.min(room - INDICATION);
    let width = match random.below(3) {
        0 => most,
        _ => random.between(1, most),
    };
    // Those that are not held take the rest by four octets each.
    let mut fitting = (1..=width).rev().filter(|width| width % 4 == room % 4);
    let width = fitting.next().unwrap_or(4 + room % 4);
    let last = Held::of_width(random, &attributes, width);
    attributes.insert(random.below(attributes.len() + 1), last.clone());
    let before = (room - INDICATION - width) / INDICATION;
    let unknown = another(random, &attributes);
    let mut descriptors = vec![unknown; before];
    descriptors.insert(random.below(before + 1), last.descriptor);
    if random.one_in(2) {
        descriptors.extend((0..3).map(|_| asked(random, &attributes)));
    }
    descriptors.truncate(MOST_ASKED);
    (attributes, descriptors)
}

/// Puts one thing in the place of another, or as the only one.
fn put<T>(random: &mut Random, list: &mut Vec<T>, new: T) {
    match list.len() {
        0 => list.push(new),
        count => list[random.below(count)] = new,
    }
}

fn spoil_descriptors(random: &mut Random, fault: Fault, descriptors: &mut Vec<u32>) {
    match fault {
        Fault::NoDescriptor => descriptors.clear(),
        Fault::TooManyDescriptors => {
            let count = match random.below(16) {
                0 => 65_536 + random.between(1, MOST_ASKED),
                1..=3 => random.between(MOST_ASKED + 1, 2 * MOST_ASKED),
                _ => MOST_ASKED + 1,
            };
            let any = descriptor(random).number();
            descriptors.resize(count, any);
        }
        Fault::DescriptorOfBranch0 => {
            let leaf = random.value(2) as u32;
            put(random, descriptors, leaf);
        }
        Fault::DescriptorBeyond24Bits => {
            let above = beyond(random, 24, 32) as u32;
            put(random, descriptors, above);
        }
        _ => {}
    }
}

fn spoil_attributes(random: &mut Random, fault: Fault, attributes: &mut Vec<Held>) {
    let mut one = Held::any(random, attributes);
    match fault {
        Fault::TooManyAttributes => {
            let count = match random.below(4) {
                0 => random.between(MOST_ATTRIBUTES + 1, 3 * MOST_ATTRIBUTES),
                1 if random.one_in(8) => 256 + random.between(1, MOST_ATTRIBUTES),
                _ => MOST_ATTRIBUTES + 1,
            };
            while attributes.len() < count {
                let new = Held::any(random, attributes);
                attributes.push(new);
            }
            return;
        }
        Fault::HeldTwice => return hold_twice(random, attributes),
        Fault::Width0 => one.set_width(random, 0),
        Fault::WidthAbove128 => {
            let width = match random.below(4) {
                0 => random.between(WIDEST + 1, 1000),
                1 => 256 + random.between(0, WIDEST),
                _ => WIDEST + 1,
            };
            one.set_width(random, width);
        }
        Fault::AttributeOfBranch0 => one.descriptor &= 0xFFFF,
        Fault::AttributeBeyond24Bits => one.descriptor |= 1 << random.between(24, 31),
        _ => return,
    }
    put(random, attributes, one);
}

/// One at any two places, with the same value or another.
fn hold_twice(random: &mut Random, attributes: &mut Vec<Held>) {
    while attributes.len() < 2 {
        let new = Held::any(random, attributes);
        attributes.push(new);
    }
    let second = random.between(1, attributes.len() - 1);
    let first = match random.below(3) {
        0 => 0,
        1 => second - 1,
        _ => random.below(second),
    };
    match random.one_in(2) {
        true => attributes[second] = attributes[first].clone(),
        false => attributes[second].descriptor = attributes[first].descriptor,
    }
}

fn spoil_numbers(random: &mut Random, fault: Fault, numbers: &mut Vec<u32>, values: &mut Vec<u8>) {
    let more = match random.below(4) {
        0 => random.between(1, 300),
        _ => 1,
    };
    match fault {
        Fault::OddCount => numbers.push(descriptor(random).number()),
        Fault::TooFewValues if values.is_empty() => {
            numbers.extend([descriptor(random).number(), 1])
        }
        Fault::TooFewValues => values.truncate(values.len() - more.min(values.len())),
        Fault::TooManyValues => values.extend(random.octets(more)),
        _ => {}
    }
}
