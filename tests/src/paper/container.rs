//! Containers as they stand in a frame, one behind the other.

use super::message::{Container, Content};
use super::numbers::parted;
use super::read::{BODY, LONGEST};
use super::walk::next_container;

/// The most octets of containers in a frame.
pub const PLAIN_CONTAINER_OCTETS: usize = LONGEST - BODY;

/// The octets of a container before its value: branch, leaf and width.
const BEFORE_VALUE: usize = 4;

/// The value whose width octet is 00.
const WIDEST: usize = 128;

impl Container<'_> {
    /// How many octets it has.
    pub fn length(&self) -> usize {
        match &self.content {
            Content::Value(value) => BEFORE_VALUE + value.len(),
            Content::Indication(_) => BEFORE_VALUE,
        }
    }

    fn put(&self, octets: &mut Vec<u8>) {
        let descriptor = parted::<3>(self.descriptor.number().into());
        octets.extend(descriptor.expect("a branch and a leaf"));
        match &self.content {
            Content::Value(value) if value.len() == WIDEST => octets.push(0),
            Content::Value(value) => octets.push(value.len() as u8),
            Content::Indication(indication) => octets.push(*indication),
        }
        if let Content::Value(value) = &self.content {
            octets.extend(value.iter());
        }
    }
}

/// The octets of containers.
pub fn container_octets(containers: &[Container]) -> Vec<u8> {
    let mut octets = Vec::new();
    for container in containers {
        container.put(&mut octets);
    }
    octets
}

/// Whether octets are whole containers to the last one. A branch 0 would end the
/// list before them, wherever it stands.
pub fn are_whole_containers(octets: &[u8]) -> bool {
    let mut rest = octets;
    while !rest.is_empty() {
        let Ok(Some(_)) = next_container(&mut rest) else {
            return false;
        };
    }
    true
}
