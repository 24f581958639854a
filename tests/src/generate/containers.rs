//! Octets that are nearly containers: each list has one fault, and is right but for
//! it.

use super::encode;
use super::messages::{container, containers};
use crate::paper::{Body, Container, Content, PLAIN_CONTAINER_OCTETS};
use crate::random::Random;

/// The octets of containers, one behind the other.
pub fn octets_of(containers: Vec<Container<'static>>) -> Vec<u8> {
    encode::parts(&Body::Response(containers)).concat()
}

/// Some containers, and one more that leaves room in a frame for what is put
/// behind it.
fn some(random: &mut Random) -> (Vec<u8>, Vec<u8>) {
    loop {
        let before = octets_of(containers(random));
        let last = octets_of(vec![container(random)]);
        if before.len() + last.len() + 4 <= PLAIN_CONTAINER_OCTETS {
            return (before, last);
        }
    }
}

/// The last container lacks its last octets, down to the first one of its branch.
pub fn cut_by_the_end(random: &mut Random) -> Vec<u8> {
    let (before, mut last) = some(random);
    let kept = match random.below(4) {
        0 => random.between(1, 3),
        1 => last.len() - 1,
        _ => random.between(1, last.len() - 1),
    };
    last.truncate(kept);
    [before, last].concat()
}

/// The last container's width is more than the octets that are left: by one, or by
/// any number. 00 is a width of 128.
pub fn past_the_end(random: &mut Random) -> Vec<u8> {
    let (before, mut last) = some(random);
    let left = last.len() - 4;
    if left == 128 {
        last.pop(); // the greatest width cannot be raised
    }
    let left = last.len() - 4;
    let width = match random.below(3) {
        0 => left + 1,
        1 => 128,
        _ => random.between(left + 1, 128),
    };
    last[3] = (width % 128) as u8;
    [before, last].concat()
}

/// A container of branch 0 before, between or behind others, with anything in the
/// rest of it.
pub fn branch_0_put_in(random: &mut Random) -> Vec<u8> {
    loop {
        let mut list = containers(random);
        let mut zero = container(random);
        zero.descriptor.branch = 0;
        if random.one_in(4) {
            zero.descriptor.leaf = 0;
            zero.content = Content::Value(vec![0; 128].into()); // zeros throughout
        }
        list.insert(random.below(list.len() + 1), zero);
        let octets = octets_of(list);
        if octets.len() <= PLAIN_CONTAINER_OCTETS {
            return octets;
        }
    }
}

/// Containers with zeros behind them: a branch alone, one with its leaf, or more; or
/// zeros alone.
pub fn ended_by_zeros(random: &mut Random) -> Vec<u8> {
    let (before, last) = some(random);
    let zeros = random.between(1, 4);
    let zeros = match random.below(3) {
        0 => vec![0; 1],
        _ => vec![0; zeros],
    };
    match random.one_in(8) {
        true => zeros,
        false => [before, last, zeros].concat(),
    }
}

/// Whole containers of 1,497 octets, of some more, or of so many that a count of 16
/// bits would take them for few enough.
pub fn too_many(random: &mut Random) -> Vec<u8> {
    let most = PLAIN_CONTAINER_OCTETS;
    let length = match random.below(16) {
        0 => 65_536 + random.between(0, most),
        1..=4 => random.between(most + 1, 2 * most),
        _ => most + 1,
    };
    filling(random, length)
}

/// Whole containers of exactly so many octets, 4 or more.
pub fn filling(random: &mut Random, length: usize) -> Vec<u8> {
    let mut octets = Vec::new();
    loop {
        let left = length - octets.len();
        let next = octets_of(vec![container(random)]);
        let rest = left.checked_sub(next.len());
        if rest.is_some_and(|rest| rest == 0 || rest >= 4) {
            octets.extend(next);
        }
        if octets.len() == length {
            return octets;
        }
    }
}
