//! One call of a library and of the paper's machine, each with a state of its
//! own, and all that must be alike behind it.

use super::difference::Differences;
use crate::library::machine::{Machine, Setup, State, Turn, SHOWN_NUMBERS, STATE_OCTETS};
use crate::paper::answer;
use crate::paper::machine::End;
use crate::random::Random;
use crate::trial::lent::Lent;

#[derive(Clone)]
pub struct Bout<'a> {
    library: &'a dyn Machine,
    /// The paper's state, with all counts of the bout.
    paper: State,
    /// Its octets.
    expected: Lent<u8>,
    /// The library's.
    found: Lent<u8>,
}

impl<'a> Bout<'a> {
    /// Fresh ends in states of this length; none where both refuse.
    pub fn fresh(
        library: &'a dyn Machine,
        random: &mut Random,
        setup: &Setup,
        length: usize,
    ) -> Result<Option<Self>, String> {
        let mut expected = Lent::octets(random, length);
        let mut found = expected.clone();
        let paper = State::fresh(setup).ok();
        let paper = paper.filter(|_| length == STATE_OCTETS);
        let expected_answer = match paper {
            Some(_) => answer::ACCEPTED,
            None => answer::VALUES,
        };
        let found_answer = library.fresh(setup, found.slice_mut());
        let mut differences = Differences::default();
        differences.number("answer", expected_answer.into(), found_answer);
        let told = || format!("oam_fresh {setup:x?}, lent {length}");
        let Some(paper) = paper else {
            differences.state(&expected, &found);
            return differences.none_or(told).map(|()| None);
        };
        expected.slice_mut().copy_from_slice(&paper.octets());
        let bout = Bout {
            library,
            paper,
            expected,
            found,
        };
        if differences.are_none() {
            bout.show(random, &mut differences);
        }
        differences.state(&bout.expected, &bout.found);
        differences.none_or(told)?;
        Ok(Some(bout))
    }

    /// A library's state, and the paper's that is to be the same.
    pub fn at(library: &'a dyn Machine, found: Lent<u8>, paper: State) -> Self {
        let mut expected = found.clone();
        expected.slice_mut().copy_from_slice(&paper.octets());
        Bout {
            library,
            paper,
            expected,
            found,
        }
    }

    pub fn paper(&self) -> &State {
        &self.paper
    }

    /// The end in the paper's state.
    pub fn end(&self) -> End {
        self.paper.end
    }

    /// The library's state.
    pub fn state(&self) -> &[u8] {
        self.found.slice()
    }

    /// Makes a call of both, and gives what came of it where nothing differs.
    pub fn turn(&mut self, random: &mut Random, turn: &Turn) -> Result<Made, String> {
        let mut expected_numbers = Lent::numbers(random, turn.numbers);
        let mut found_numbers = expected_numbers.clone();
        let mut expected_out = Lent::octets(random, turn.out);
        let mut found_out = expected_out.clone();
        let expected = self.paper.call(
            &turn.call,
            expected_numbers.slice_mut(),
            expected_out.slice_mut(),
        );
        let octets = self.paper.octets();
        self.expected.slice_mut().copy_from_slice(&octets);
        let given = turn.call.clone();
        let found = self.library.call(
            &given,
            found_numbers.slice_mut(),
            self.found.slice_mut(),
            found_out.slice_mut(),
        );
        let mut differences = Differences::default();
        differences.outcome(expected, found);
        let what = if turn.call.is_tick() {
            "the events"
        } else {
            "the header"
        };
        differences.memory(what, &expected_numbers, &found_numbers);
        differences.memory("the output", &expected_out, &found_out);
        differences.given(&turn.call, &given);
        self.show(random, &mut differences);
        differences.state(&self.expected, &self.found);
        differences.none_or(|| turn.to_string())?;
        Ok(Made {
            outcome: expected,
            numbers: found_numbers,
            out: found_out,
        })
    }

    /// Compares the numbers of both states; now and then with too little room.
    fn show(&self, random: &mut Random, differences: &mut Differences) {
        let room = match random.below(32) {
            0 => random.below(SHOWN_NUMBERS),
            _ => SHOWN_NUMBERS + random.below(3),
        };
        let mut expected = Lent::numbers(random, room);
        let mut found = expected.clone();
        let expected_answer = self.paper.show(expected.slice_mut());
        let found_answer = self.library.show(self.found.slice(), found.slice_mut());
        differences.number("oam_show answers", expected_answer, found_answer);
        differences.shown(&expected, &found);
    }
}

/// What came of a call.
pub struct Made {
    pub outcome: u64,
    /// What was lent, as the library left it.
    pub numbers: Lent<u64>,
    pub out: Lent<u8>,
}
