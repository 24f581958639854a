//! Memory that is lent to a call.

use crate::paper::LONGEST;
use crate::random::Random;

/// Elements behind a lent slice that no call may touch; before it there are as
/// many or more, so that octets begin at odd places too.
const GUARD: usize = 16;

/// A slice amid guards, all filled at random so that a stray store shows.
#[derive(Clone, Debug)]
pub struct Lent<T> {
    memory: Vec<T>,
    start: usize,
    length: usize,
}

/// Where two memories differ first.
#[derive(Debug, PartialEq, Eq)]
pub struct Stray<T> {
    /// The place in the slice; one before the slice is below 0.
    pub place: isize,
    pub expected: T,
    pub found: T,
}

impl Lent<u8> {
    pub fn octets(random: &mut Random, length: usize) -> Self {
        Lent::filled(random, length, |random| random.number().to_be_bytes())
    }
}

impl Lent<u32> {
    pub fn descriptors(random: &mut Random, length: usize) -> Self {
        Lent::filled(random, length, |random| [random.number() as u32])
    }
}

impl Lent<u64> {
    pub fn numbers(random: &mut Random, length: usize) -> Self {
        Lent::filled(random, length, |random| [random.number()])
    }
}

impl<T: Copy + PartialEq> Lent<T> {
    /// Filled by draws of so many elements each.
    fn filled<const N: usize>(
        random: &mut Random,
        length: usize,
        draw: fn(&mut Random) -> [T; N],
    ) -> Self {
        let start = random.between(GUARD, 2 * GUARD - 1);
        let count = start + length + GUARD;
        let mut memory = Vec::with_capacity(count + N);
        while memory.len() < count {
            memory.extend(draw(random));
        }
        memory.truncate(count);
        Lent {
            memory,
            start,
            length,
        }
    }

    pub fn len(&self) -> usize {
        self.length
    }

    pub fn slice(&self) -> &[T] {
        &self.memory[self.start..self.start + self.length]
    }

    pub fn slice_mut(&mut self) -> &mut [T] {
        &mut self.memory[self.start..self.start + self.length]
    }

    /// The first place, guards included, where `found` is not as expected here.
    pub fn stray(&self, found: &Self) -> Option<Stray<T>> {
        let mut pairs = self.memory.iter().zip(&found.memory);
        let place = pairs.position(|(expected, found)| expected != found)?;
        Some(Stray {
            place: place as isize - self.start as isize,
            expected: self.memory[place],
            found: found.memory[place],
        })
    }
}

/// How much room is lent for what is to be written.
#[derive(Clone, Copy, Debug, PartialEq, Eq, PartialOrd, Ord)]
pub enum Room {
    Exact,
    OneLess,
    More,
    None,
    Any,
    /// As much as the longest frame has octets, whatever is to be written.
    Longest,
}

impl Room {
    /// Those that go by the length of what is to be written.
    pub const BY_LENGTH: [Room; 5] = [
        Room::Exact,
        Room::OneLess,
        Room::More,
        Room::None,
        Room::Any,
    ];

    /// Those for a frame; in more than one of four a short frame leaves much that must
    /// keep its value.
    pub fn for_frames() -> impl Iterator<Item = Room> {
        Room::BY_LENGTH.into_iter().chain([Room::Longest; 2])
    }

    /// The room for `length` elements, one or more of them.
    pub fn of(self, random: &mut Random, length: usize) -> usize {
        match self {
            Room::Exact => length,
            Room::OneLess => length - 1,
            Room::More => length + random.between(1, 100),
            Room::None => 0,
            Room::Any => random.below(2 * length),
            Room::Longest => LONGEST,
        }
    }
}

#[cfg(test)]
mod tests {
    use super::*;

    #[test]
    fn a_store_anywhere_is_found() {
        let mut random = Random::new(1);
        for length in [0, 1, 60] {
            let expected = Lent::octets(&mut random, length);
            assert_eq!(expected.stray(&expected.clone()), None);
            assert!(expected.start >= GUARD);
            for place in 0..expected.start + length + GUARD {
                let mut found = expected.clone();
                found.memory[place] ^= 1;
                let stray = expected.stray(&found).expect("a difference");
                assert_eq!(stray.place, place as isize - expected.start as isize);
                assert_eq!(stray.expected ^ 1, stray.found);
            }
        }
    }

    #[test]
    fn the_slice_is_lent_without_its_guards() {
        let mut lent = Lent::numbers(&mut Random::new(2), 9);
        let before = lent.clone();
        assert_eq!((lent.len(), lent.slice().len()), (9, 9));
        lent.slice_mut()[0] += 1;
        assert_eq!(before.stray(&lent).map(|stray| stray.place), Some(0));
    }

    #[test]
    fn rooms_are_as_they_say() {
        let mut random = Random::new(3);
        for length in [1, 60, 1514] {
            assert_eq!(Room::Exact.of(&mut random, length), length);
            assert_eq!(Room::OneLess.of(&mut random, length), length - 1);
            assert!(Room::More.of(&mut random, length) > length);
            assert_eq!(Room::None.of(&mut random, length), 0);
            assert_eq!(Room::Longest.of(&mut random, length), 1514);
        }
    }
}
