//! Numbers that are too great for their field.

use crate::paper::EVENTS;
use crate::random::Random;

/// A number of `of` bits beyond the first `bits` of them: the least one, the
/// greatest, one that has only a single bit too many, or any.
pub fn beyond(random: &mut Random, bits: u32, of: u32) -> u64 {
    let least = 1 << bits;
    let greatest = u64::MAX >> (64 - of);
    let further = 1 << random.between(bits as usize, of as usize - 1);
    match random.below(4) {
        0 => least,
        1 => greatest,
        2 => (random.number() % least) | further,
        _ => random.number() & greatest | further,
    }
}

/// A number that is no event type, though its lowest octet may be one.
pub fn no_event_type(random: &mut Random) -> u64 {
    match random.below(4) {
        0 => 0,
        1 => EVENTS.len() as u64 + 1,
        2 => u64::from(random.octet_between(1, 4)) | beyond(random, 8, 64) & !0xFF,
        _ => random.number() | 8,
    }
}

/// The places among an event's seven numbers whose field has less than 64 bits,
/// and how many it has.
pub fn narrow_fields(kind: u8) -> Vec<(usize, u32)> {
    let (_, widths) = EVENTS[usize::from(kind) - 1];
    let bits = widths.map(|width| 8 * width as u32);
    (1..).zip(bits).filter(|&(_, bits)| bits < 64).collect()
}

#[cfg(test)]
mod tests {
    use super::*;

    #[test]
    fn numbers_beyond_are_beyond_and_reach_both_ends() {
        let mut random = Random::new(1);
        for (bits, of) in [(3, 64), (24, 32), (24, 64), (48, 64), (32, 64)] {
            let drawn: Vec<u64> = (0..200).map(|_| beyond(&mut random, bits, of)).collect();
            let greatest = u64::MAX >> (64 - of);
            assert!(drawn.iter().all(|&number| number >> bits > 0));
            assert!(drawn.iter().all(|&number| number <= greatest));
            assert!(drawn.contains(&(1 << bits)) && drawn.contains(&greatest));
        }
    }

    #[test]
    fn no_event_type_is_one() {
        let mut random = Random::new(2);
        let drawn: Vec<u64> = (0..500).map(|_| no_event_type(&mut random)).collect();
        assert!(drawn.iter().all(|kind| !(1..=4).contains(kind)));
        assert!(drawn.contains(&0) && drawn.contains(&5));
        assert!(drawn.iter().any(|&kind| (1..=4).contains(&(kind as u8))));
    }

    #[test]
    fn the_narrow_fields_are_the_tables() {
        assert_eq!(narrow_fields(1), [(1, 16), (6, 32)]);
        assert_eq!(
            narrow_fields(2),
            [(1, 16), (2, 16), (3, 32), (4, 32), (6, 32)]
        );
        assert_eq!(
            narrow_fields(3),
            [(1, 16), (2, 32), (3, 32), (4, 32), (6, 32)]
        );
        assert_eq!(
            narrow_fields(4),
            [(1, 16), (2, 16), (3, 16), (4, 16), (5, 32), (6, 32)]
        );
    }
}
