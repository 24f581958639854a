//! The attributes that a box keeps in lent memory, and what it answers for them
//! (change request (i)).

use super::message::{Container, Content, Descriptor};
use std::borrow::Cow;
use std::ops::RangeInclusive;

/// The most attributes of a box.
pub const MOST_ATTRIBUTES: usize = 64;
/// The most descriptors that are answered in one call.
pub const MOST_ASKED: usize = 498;
/// The octet in a width's place that answers for an attribute not held: 001's
/// indication 0x21 (Table 57-17) with bit 7.
pub const NOT_SUPPORTED: u8 = 0xA1;

/// The octets of a value.
pub const WIDTHS: RangeInclusive<usize> = 1..=128;

/// An attribute that is held.
#[derive(Clone, Copy, Debug, PartialEq, Eq)]
pub struct Attribute<'a> {
    pub descriptor: Descriptor,
    pub value: &'a [u8],
}

/// The attributes that a caller lends: two numbers of each, descriptor and width,
/// and the values one behind the other. Nothing where they are out of range.
pub fn attributes_held<'a>(numbers: &[u32], values: &'a [u8]) -> Option<Vec<Attribute<'a>>> {
    let pairs = numbers.chunks_exact(2);
    if !pairs.remainder().is_empty() || pairs.len() > MOST_ATTRIBUTES {
        return None;
    }
    let mut held: Vec<Attribute> = Vec::new();
    let mut rest = values;
    for pair in pairs {
        let descriptor = named(pair[0])?;
        let width = usize::try_from(pair[1]).ok()?;
        let twice = held.iter().any(|other| other.descriptor == descriptor);
        if twice || !WIDTHS.contains(&width) {
            return None;
        }
        let (value, behind) = rest.split_at_checked(width)?;
        held.push(Attribute { descriptor, value });
        rest = behind;
    }
    rest.is_empty().then_some(held)
}

/// The descriptors that are asked for, or nothing where they are out of range.
pub fn descriptors_asked(numbers: &[u32]) -> Option<Vec<Descriptor>> {
    let in_range = (1..=MOST_ASKED).contains(&numbers.len());
    let asked = numbers.iter().map(|&number| named(number));
    in_range.then(|| asked.collect())?
}

/// A descriptor with a branch of 1 to 255.
fn named(number: u32) -> Option<Descriptor> {
    Descriptor::from_number(number.into()).filter(|descriptor| descriptor.branch != 0)
}

/// A container for each descriptor in the order asked, up to the first that is
/// more than what is left of the room; behind it even one that would fit is left
/// off.
pub fn answered<'a>(
    held: &[Attribute<'a>],
    asked: &[Descriptor],
    room: usize,
) -> Vec<Container<'a>> {
    let mut left = room;
    let mut containers = Vec::new();
    for &descriptor in asked {
        let container = container_for(held, descriptor);
        let Some(less) = left.checked_sub(container.length()) else {
            break;
        };
        left = less;
        containers.push(container);
    }
    containers
}

fn container_for<'a>(held: &[Attribute<'a>], descriptor: Descriptor) -> Container<'a> {
    let attribute = held.iter().find(|held| held.descriptor == descriptor);
    let content = match attribute {
        Some(attribute) => Content::Value(Cow::Borrowed(attribute.value)),
        None => Content::Indication(NOT_SUPPORTED),
    };
    Container {
        descriptor,
        content,
    }
}
