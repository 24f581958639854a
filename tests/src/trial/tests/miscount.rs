//! Wrong ways to count the TLVs that the walk of an accepted frame skips.

use crate::paper::{list, list_start, read, Listed, Skipped};
use crate::trial::without_end;

#[derive(Clone, Copy, Debug, PartialEq, Eq)]
pub enum Miscount {
    KnownToo,
    /// The walk ends at type 00, but the count goes on.
    BehindEnd,
    /// Type 00 is counted as one more unknown type.
    EndToo,
    /// From each known TLV on, and so at the walk's end.
    Anew,
    In8Bits,
    /// The total stands beside each known TLV.
    TotalBeside,
}

impl Miscount {
    pub const ALL: [Miscount; 6] = [
        Miscount::KnownToo,
        Miscount::BehindEnd,
        Miscount::EndToo,
        Miscount::Anew,
        Miscount::In8Bits,
        Miscount::TotalBeside,
    ];

    /// The numbers that it gives.
    pub fn of(self, frame: &[u8]) -> Skipped {
        let Skipped { mut before, total } = read(frame).expect("an accepted frame").skipped;
        let total = match self {
            Miscount::KnownToo => {
                let known = before.iter_mut().zip(0..);
                known.for_each(|(before, known)| *before += known);
                total + before.len()
            }
            Miscount::BehindEnd => total + unknown_behind_end(frame),
            Miscount::EndToo => total + usize::from(is_ended_by_type_00(frame)),
            Miscount::Anew => {
                let last = before.last().copied().unwrap_or(0);
                for place in (1..before.len()).rev() {
                    before[place] -= before[place - 1];
                }
                total - last
            }
            Miscount::In8Bits => {
                before.iter_mut().for_each(|before| *before &= 0xFF);
                total & 0xFF
            }
            Miscount::TotalBeside => {
                before.fill(total);
                total
            }
        };
        Skipped { before, total }
    }
}

/// Where the walk over TLVs ends; no other body has one.
fn end_of_walk(frame: &[u8]) -> Option<usize> {
    let code = frame[17];
    let start = list_start(code).filter(|_| code < 2)?;
    Some(list(code, frame).last().map_or(start, |last| last.next))
}

fn is_ended_by_type_00(frame: &[u8]) -> bool {
    end_of_walk(frame).is_some_and(|end| end < frame.len())
}

/// Unknown TLVs behind the type 00 that ends the walk, up to the next one.
fn unknown_behind_end(frame: &[u8]) -> usize {
    if !is_ended_by_type_00(frame) {
        return 0;
    }
    let code = frame[17];
    let behind = list(code, &without_end(code, frame)).into_iter();
    behind.filter(|tlv| tlv.part == Listed::Skipped).count()
}
