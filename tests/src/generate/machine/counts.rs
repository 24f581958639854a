//! Counts of bad frames, a tick each: mostly none, and then bursts of a few, of many,
//! or of more than a field holds.

use crate::library::machine::{Call, Turn};
use crate::random::Random;

/// The most ticks that go one way.
const LONGEST_MOOD: usize = 40;

#[derive(Default)]
pub struct Counts {
    mood: Mood,
    /// Ticks left in this mood.
    left: usize,
}

#[derive(Clone, Copy, Default)]
enum Mood {
    #[default]
    Quiet,
    Few,
    Burst,
    Storm,
}

impl Counts {
    pub fn next(&mut self, random: &mut Random) -> u64 {
        if self.left == 0 {
            self.mood = match random.below(8) {
                0 => Mood::Few,
                1 => Mood::Burst,
                2 => Mood::Storm,
                _ => Mood::Quiet,
            };
            self.left = random.between(1, LONGEST_MOOD);
        }
        self.left -= 1;
        match self.mood {
            Mood::Few => random.one_in(8).into(),
            Mood::Burst => random.below(20) as u64,
            Mood::Storm if random.one_in(4) => great(random),
            Mood::Quiet | Mood::Storm => 0,
        }
    }

    /// The turn with a count of its own, where it is a tick.
    pub fn on(&mut self, random: &mut Random, turn: Turn) -> Turn {
        match turn.call {
            Call::Tick(_) => Turn {
                call: Call::Tick(self.next(random)),
                ..turn
            },
            _ => turn,
        }
    }
}

/// As many as the errors' field holds, one less or more, or any.
fn great(random: &mut Random) -> u64 {
    let any = random.number();
    let most = u64::from(u32::MAX);
    random.pick(&[most - 1, most, most + 1, u64::MAX, any])
}
