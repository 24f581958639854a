//! Lines as a field engineer's records would hold them, for measuring speed:
//! mostly Information frames of 60 octets, a few of everything else.

use super::damage::any_damage;
use super::lines::{of_frame, spoilt};
use super::messages::any_code;
use super::valid::{loose, plain, quiet};
use super::Made;
use crate::paper::code;
use crate::random::Random;

/// A kind of line and how many of a hundred it makes up.
pub struct Kind {
    pub name: &'static str,
    pub share: usize,
    make: fn(&mut Random) -> Vec<u8>,
}

/// The mix; the shares add up to a hundred. It has no storms: the figures of listers are
/// comparable only on the same lines, and a seed gives those of before change request (vi).
pub const TRAFFIC: [Kind; 9] = [
    Kind {
        name: "Information, plain",
        share: 70,
        make: |random| of_frame(plain(random, code::INFORMATION)).text,
    },
    Kind {
        name: "Information with unknown TLVs and other loose forms",
        share: 4,
        make: |random| of_frame(loose_information(random)).text,
    },
    Kind {
        name: "Event Notification, 1 to 4 events",
        share: 10,
        make: |random| of_frame(quiet(random, code::NOTIFICATION)).text,
    },
    Kind {
        name: "Variable Request, 1 to 32 descriptors",
        share: 4,
        make: |random| of_frame(plain(random, code::REQUEST)).text,
    },
    Kind {
        name: "Variable Response, up to 1,514 octets",
        share: 4,
        make: |random| of_frame(plain(random, code::RESPONSE)).text,
    },
    Kind {
        name: "Loopback Control",
        share: 2,
        make: |random| of_frame(plain(random, code::LOOPBACK)).text,
    },
    Kind {
        name: "organization specific, up to 1,514 octets",
        share: 4,
        make: |random| of_frame(plain(random, code::ORGANIZATION)).text,
    },
    Kind {
        name: "damaged frames, most of them refused",
        share: 1,
        make: |random| {
            let code = any_code(random);
            of_frame(any_damage(random, code)).text
        },
    },
    Kind {
        name: "lines that are not hexadecimal",
        share: 1,
        make: |random| {
            let frame = plain(random, code::INFORMATION).frame;
            spoilt(random, &frame).text
        },
    },
];

/// Loose, but not crowded with unknown TLVs: no record holds such a frame.
fn loose_information(random: &mut Random) -> Made {
    const MOST_SKIPPED: usize = 20;
    loop {
        let layout = loose(random, code::INFORMATION);
        if layout.message.skipped.total <= MOST_SKIPPED {
            return layout.made();
        }
    }
}

/// A line without its newline, and the place of its kind in `TRAFFIC`.
pub fn traffic_line(random: &mut Random) -> (usize, Vec<u8>) {
    let mut left = random.below(100);
    let mut place = 0;
    while left >= TRAFFIC[place].share {
        left -= TRAFFIC[place].share;
        place += 1;
    }
    (place, (TRAFFIC[place].make)(random))
}
