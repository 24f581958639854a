//! What can be wrong with the values of a response. Told of the lent numbers here
//! apart from the paper's machine, so that a slip in one of the two shows.

use crate::library::machine::Response;
use crate::paper::{MOST_ASKED, MOST_ATTRIBUTES};
use std::collections::BTreeSet;

/// A reason for 10.
#[derive(Clone, Copy, Debug, PartialEq, Eq, PartialOrd, Ord)]
pub enum ResponseFault {
    NoDescriptor,
    TooManyDescriptors,
    DescriptorOfBranch0,
    DescriptorBeyond24Bits,
    TooManyAttributes,
    Width0,
    WidthAbove128,
    AttributeOfBranch0,
    AttributeBeyond24Bits,
    HeldTwice,
    OddCount,
    TooFewValues,
    TooManyValues,
}

impl ResponseFault {
    pub const ALL: [ResponseFault; 13] = [
        ResponseFault::NoDescriptor,
        ResponseFault::TooManyDescriptors,
        ResponseFault::DescriptorOfBranch0,
        ResponseFault::DescriptorBeyond24Bits,
        ResponseFault::TooManyAttributes,
        ResponseFault::Width0,
        ResponseFault::WidthAbove128,
        ResponseFault::AttributeOfBranch0,
        ResponseFault::AttributeBeyond24Bits,
        ResponseFault::HeldTwice,
        ResponseFault::OddCount,
        ResponseFault::TooFewValues,
        ResponseFault::TooManyValues,
    ];

    /// All that is wrong. A number that has no other one to make it an attribute
    /// is none.
    pub fn all_of(given: &Response) -> Vec<Self> {
        let Response {
            attributes,
            values,
            descriptors,
        } = given;
        let names = attributes.chunks_exact(2).map(|pair| pair[0]);
        let widths = attributes.chunks_exact(2).map(|pair| pair[1]);
        let (count, octets) = (names.len(), values.len() as u64);
        let sum: u64 = widths.clone().map(u64::from).sum();
        let distinct: BTreeSet<u32> = names.clone().collect();
        let of_branch_0 = |number: u32| number < 0x01_0000;
        let beyond = |number: u32| number > 0xFF_FFFF;
        let asked = || descriptors.iter().copied();
        let faults = [
            (Self::NoDescriptor, descriptors.is_empty()),
            (Self::TooManyDescriptors, descriptors.len() > MOST_ASKED),
            (Self::DescriptorOfBranch0, asked().any(of_branch_0)),
            (Self::DescriptorBeyond24Bits, asked().any(beyond)),
            (Self::TooManyAttributes, count > MOST_ATTRIBUTES),
            (Self::Width0, widths.clone().any(|width| width == 0)),
            (Self::WidthAbove128, widths.clone().any(|width| width > 128)),
            (Self::AttributeOfBranch0, names.clone().any(of_branch_0)),
            (Self::AttributeBeyond24Bits, names.clone().any(beyond)),
            (Self::HeldTwice, distinct.len() < count),
            (Self::OddCount, attributes.len() % 2 == 1),
            (Self::TooFewValues, octets < sum),
            (Self::TooManyValues, octets > sum),
        ];
        let faults = faults.into_iter().filter(|(_, holds)| *holds);
        faults.map(|(fault, _)| fault).collect()
    }
}
