//! The numbers of skipped TLVs that a trial of a lister must reach.

use oam_tests::compare::hex;
use oam_tests::paper::{code, Heading};
use std::ops::RangeInclusive;

/// Such numbers, each with the codes of which it must come.
pub const KINDS: [(RangeInclusive<usize>, &[u8]); 6] = [
    (0..=0, &code::ALL),
    (1..=5, TLVS),
    (6..=100, TLVS),
    (101..=748, TLVS),
    (748..=748, &[code::INFORMATION]),
    (747..=747, &[code::NOTIFICATION]),
];
const TLVS: &[u8] = &[code::INFORMATION, code::NOTIFICATION];

/// The places of the kinds that a frame is of.
pub fn kinds(heading: &Heading) -> impl Iterator<Item = usize> {
    let Heading { code, skipped, .. } = *heading;
    (0..KINDS.len()).filter(move |&kind| {
        let (range, codes) = &KINDS[kind];
        range.contains(&skipped) && codes.contains(&code)
    })
}

pub fn name(kind: usize) -> String {
    let (range, codes) = &KINDS[kind];
    format!("with {range:?} TLVs skipped, of codes {}", hex(codes))
}
