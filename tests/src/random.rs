//! A small seeded generator (splitmix64), so that every run can be repeated.

use std::time::{SystemTime, UNIX_EPOCH};

#[derive(Clone)]
pub struct Random {
    state: u64,
}

/// A seed for a run that was given none.
pub fn seed_from_clock() -> u64 {
    let since = SystemTime::now()
        .duration_since(UNIX_EPOCH)
        .unwrap_or_default();
    since.as_micros() as u64
}

impl Random {
    pub fn new(seed: u64) -> Self {
        Random { state: seed }
    }

    pub fn number(&mut self) -> u64 {
        self.state = self.state.wrapping_add(0x9E37_79B9_7F4A_7C15);
        let mut mixed = self.state;
        mixed = (mixed ^ (mixed >> 30)).wrapping_mul(0xBF58_476D_1CE4_E5B9);
        mixed = (mixed ^ (mixed >> 27)).wrapping_mul(0x94D0_49BB_1331_11EB);
        mixed ^ (mixed >> 31)
    }

    /// A number from 0 to `bound` - 1.
    pub fn below(&mut self, bound: usize) -> usize {
        (self.number() % bound as u64) as usize
    }

    /// A number from `low` to `high`, both included.
    pub fn between(&mut self, low: usize, high: usize) -> usize {
        low + self.below(high - low + 1)
    }

    /// True once in `count` times.
    pub fn one_in(&mut self, count: usize) -> bool {
        self.below(count) == 0
    }

    pub fn pick<T: Copy>(&mut self, choices: &[T]) -> T {
        choices[self.below(choices.len())]
    }

    pub fn octet(&mut self) -> u8 {
        self.number() as u8
    }

    /// An octet from `low` to `high`, both included.
    pub fn octet_between(&mut self, low: u8, high: u8) -> u8 {
        self.between(low.into(), high.into()) as u8
    }

    /// An octet that is not `old`.
    pub fn other_octet(&mut self, old: u8) -> u8 {
        old ^ self.octet_between(1, 255)
    }

    pub fn array<const N: usize>(&mut self) -> [u8; N] {
        std::array::from_fn(|_| self.octet())
    }

    /// The octets of a number of `N` octets, often all zeros or all ones.
    pub fn field<const N: usize>(&mut self) -> [u8; N] {
        let octets = self.value(N).to_be_bytes();
        std::array::from_fn(|place| octets[octets.len() - N + place])
    }

    pub fn octets(&mut self, count: usize) -> Vec<u8> {
        (0..count).map(|_| self.octet()).collect()
    }

    /// A number of `width` octets, often the least or the greatest one.
    pub fn value(&mut self, width: usize) -> u64 {
        let greatest = u64::MAX >> (64 - 8 * width);
        match self.below(6) {
            0 => 0,
            1 => greatest,
            _ => self.number() & greatest,
        }
    }
}

#[cfg(test)]
mod tests {
    use super::*;

    #[test]
    fn same_seed_gives_same_numbers() {
        let draw = |seed| {
            let mut random = Random::new(seed);
            [random.number(), random.number(), random.number()]
        };
        assert_eq!(draw(7), draw(7));
        assert_ne!(draw(7), draw(8));
    }

    #[test]
    fn first_numbers_of_seed_zero_are_the_published_ones() {
        let mut random = Random::new(0);
        assert_eq!(random.number(), 0xE220_A839_7B1D_CDAF);
        assert_eq!(random.number(), 0x6E78_9E6A_A1B9_65F4);
    }

    #[test]
    fn bounds_are_kept_and_reached() {
        let mut random = Random::new(1);
        let drawn: Vec<usize> = (0..1000).map(|_| random.between(3, 6)).collect();
        assert!(drawn.iter().all(|number| (3..=6).contains(number)));
        assert!((3..=6).all(|number| drawn.contains(&number)));
    }

    #[test]
    fn values_fit_their_width_and_reach_both_ends() {
        let mut random = Random::new(2);
        for width in [1, 2, 4, 8] {
            let greatest = u64::MAX >> (64 - 8 * width);
            let drawn: Vec<u64> = (0..100).map(|_| random.value(width)).collect();
            assert!(drawn.iter().all(|&value| value <= greatest));
            assert!(drawn.contains(&0) && drawn.contains(&greatest));
        }
    }

    #[test]
    fn fields_reach_both_ends() {
        let mut random = Random::new(4);
        let drawn: Vec<[u8; 3]> = (0..100).map(|_| random.field()).collect();
        assert!(drawn.contains(&[0; 3]) && drawn.contains(&[0xFF; 3]));
        assert!((0..3).all(|place| drawn.iter().any(|field| field[place] % 0xFF != 0)));
    }

    #[test]
    fn another_octet_is_never_the_old_one() {
        let mut random = Random::new(3);
        assert!((0..=255).all(|old| random.other_octet(old) != old));
    }
}
