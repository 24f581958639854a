//! A script as far as it was played, kept so that it can be told.

use super::bout::{Bout, Made};
use super::limiting::{Limiting, Owing};
use crate::compare::last_lines;
use crate::library::machine::{Call, Machine, Setup, Turn, STATE_OCTETS};
use crate::paper::machine::End;
use crate::random::Random;

/// A longer script is not shortened.
const MOST_SHORTENED: usize = 2_000;

pub struct Played<'a> {
    library: &'a dyn Machine,
    setup: Setup,
    pub bout: Bout<'a>,
    /// What is known of the frame that is owed, and what came of the limit by the
    /// last call.
    pub owing: Owing,
    pub limiting: Vec<Limiting>,
    turns: Vec<Turn>,
}

impl<'a> Played<'a> {
    pub fn new(library: &'a dyn Machine, setup: Setup, bout: Bout<'a>) -> Self {
        Played {
            library,
            setup,
            bout,
            owing: Owing::default(),
            limiting: Vec::new(),
            turns: Vec::new(),
        }
    }

    pub fn library(&self) -> &'a dyn Machine {
        self.library
    }

    pub fn end(&self) -> End {
        self.bout.end()
    }

    pub fn last_call(&self) -> &Call {
        &self.turns.last().expect("a call was made").call
    }

    /// Plays a turn: what came of it, or the difference with the script that led to
    /// it, as short as it can be.
    pub fn turn(&mut self, random: &mut Random, turn: Turn) -> Result<Made, String> {
        let made = self.bout.turn(random, &turn);
        self.turns.push(turn);
        made.map_err(|difference| self.told(difference))
    }

    fn told(&self, difference: String) -> String {
        let mut turns = self.turns.clone();
        let mut difference = difference;
        if turns.len() <= MOST_SHORTENED {
            if let Some(shorter) = self.shortened(&turns) {
                (turns, difference) = shorter;
            }
        }
        let setup = &self.setup;
        let calls = turns[..turns.len() - 1].iter().map(Turn::to_string);
        let script = last_lines(calls).join("\n    ");
        format!(
            "{difference}\n  in the state that these calls led to\n    {setup:x?}\n    {script}"
        )
    }

    /// Leaves out as many turns as it can, so long as there is a difference.
    fn shortened(&self, turns: &[Turn]) -> Option<(Vec<Turn>, String)> {
        let with_room = |turn: &Turn| Turn::with_room(turn.call.clone());
        let without_count = |turn: Turn| match turn.call {
            Call::Tick(_) => Turn::with_room(Call::Tick(0)),
            _ => turn,
        };
        let roomy: Vec<Turn> = turns.iter().map(with_room).collect();
        let quiet: Vec<Turn> = roomy.iter().cloned().map(without_count).collect();
        let ways = [&quiet, &roomy, turns];
        let mut shortest = ways.into_iter().find_map(|turns| self.failing(turns))?;
        let mut size = turns.len() / 2;
        while size > 0 {
            let mut start = 0;
            while start < shortest.0.len() {
                let behind = (start + size).min(shortest.0.len());
                let fewer = [&shortest.0[..start], &shortest.0[behind..]].concat();
                match self.failing(&fewer) {
                    Some(shorter) => shortest = shorter,
                    None => start += size,
                }
            }
            size /= 2;
        }
        Some(shortest)
    }

    /// Plays turns anew, up to the first difference.
    fn failing(&self, turns: &[Turn]) -> Option<(Vec<Turn>, String)> {
        let mut random = Random::new(0);
        let bout = Bout::fresh(self.library, &mut random, &self.setup, STATE_OCTETS);
        let mut bout = bout.ok()??;
        for (turn, count) in turns.iter().zip(1..) {
            if let Err(difference) = bout.turn(&mut random, turn) {
                return Some((turns[..count].to_vec(), difference));
            }
        }
        None
    }
}
