//! What a state's octets hold by the paper: an end, and the watch over the bad
//! frames of its link; and the calls that step both.

use super::{Call, Setup, ARISEN, END_OCTETS, RECEIVED, STATE_OCTETS};
use crate::library::by_paper::header_of;
use crate::paper::machine::{Breach, End, Shown, Step, END_NUMBERS, PACKED_NUMBERS};
use crate::paper::windows::{Watch, WatchNumbers, WATCH_NUMBERS};
use crate::paper::{answer, joined, read, NUMBERS};

/// The numbers that a state is shown as: the end's, then the watch's.
pub const SHOWN_NUMBERS: usize = END_NUMBERS + WATCH_NUMBERS;

/// The octets in which each number of an end is packed.
const END_WIDTHS: [usize; PACKED_NUMBERS] = [
    1, 2, 3, 4, 6, 1, // settings
    1, 1, 1, // link up, lost-link count, kept field
    1, 1, 2, 1, 1, 2, 3, 4, // the record
    1, 2, // the last event number
    1, 1, 6, 2, 2, // role, ticks, the intervals, revision, next event number
    1, 1, 1, // dying gasp, critical event, owed
];
/// The octets in which each number of a watch is packed, behind them.
const WATCH_WIDTHS: [usize; WATCH_NUMBERS] = [
    2, 4, 2, 4, 8, 4, // frames: length, threshold, at, errors, total, events
    2, 2, 2, 2, 4, 4, // seconds
    2, 1, // stamp, bad
];

#[derive(Clone, Debug)]
pub struct State {
    pub end: End,
    /// It keeps all counts since fresh, or since it was taken out of octets.
    pub watch: Watch,
}

impl State {
    /// A fresh end and its watch, or 10 for what is out of range.
    pub fn fresh(setup: &Setup) -> Result<Self, u8> {
        Ok(State {
            end: End::fresh(&setup.settings)?,
            watch: Watch::fresh(&setup.windows)?,
        })
    }

    /// What is in a state's octets, if calls can lead to it.
    pub fn from_octets(octets: &[u8]) -> Option<Self> {
        State::from_octets_with(octets, &[])
    }

    /// The same, where an end may also break these rules.
    pub fn from_octets_with(octets: &[u8], breaches: &[Breach]) -> Option<Self> {
        let octets: &[u8; STATE_OCTETS] = octets.try_into().ok()?;
        let end = End::at_rest(&unpacked(&END_WIDTHS, &mut &octets[..END_OCTETS]))?;
        let allowed = end.breaches().iter().all(|b| breaches.contains(b));
        State::of(end, &watch_in(octets)).filter(|_| allowed)
    }

    /// What is shown in these numbers, if calls can lead to it.
    pub fn from_numbers(numbers: &[u64; SHOWN_NUMBERS]) -> Option<Self> {
        let end = End::from_numbers(numbers.first_chunk()?)?;
        State::of(end, &WatchNumbers::from_shown(numbers.last_chunk()?))
    }

    /// An end and a watch that may stand beside it: seconds and the end's ten ticks
    /// run from one fresh.
    fn of(end: End, watch: &WatchNumbers) -> Option<Self> {
        let together = watch.are_in_range() && watch.phase() == end.ticks.into();
        together.then(|| State {
            end,
            watch: Watch::given(watch),
        })
    }

    pub fn octets(&self) -> [u8; STATE_OCTETS] {
        packed(&self.end, &self.watch.numbers())
    }

    pub fn numbers(&self) -> [u64; SHOWN_NUMBERS] {
        let mut numbers = [0; SHOWN_NUMBERS];
        let (end, watch) = numbers.split_at_mut(END_NUMBERS);
        end.copy_from_slice(&self.end.numbers());
        watch.copy_from_slice(&self.watch.numbers().shown());
        numbers
    }

    /// Stores the numbers, or 9.
    pub fn show(&self, numbers: &mut [u64]) -> u64 {
        match numbers.get_mut(..SHOWN_NUMBERS) {
            Some(room) => {
                room.copy_from_slice(&self.numbers());
                answer::ACCEPTED.into()
            }
            None => answer::OUTPUT.into(),
        }
    }

    /// Makes a call: the next state, what it stores, and its outcome. A refused one
    /// takes no count.
    pub fn call(&mut self, call: &Call, numbers: &mut [u64], out: &mut [u8]) -> u64 {
        let step = match numbers.len() < call.least_numbers() {
            true => Err(answer::OUTPUT),
            false => call.step(&self.end, out),
        };
        let step = match step {
            Ok(step) => step,
            Err(refusal) => return outcome(refusal, &unmoved(self.end)),
        };
        self.end = step.end;
        let arisen = match call {
            Call::Tick(count) => self.count(*count, numbers),
            Call::Receive(frame) => {
                numbers[..RECEIVED].copy_from_slice(&received(frame, step.shown));
                0
            }
            _ => 0,
        };
        outcome(answer::ACCEPTED, &step) | arisen << 50
    }

    /// Takes a tick's count, stores the events that arise, and gives their number.
    fn count(&mut self, count: u64, numbers: &mut [u64]) -> u64 {
        let arisen = self.watch.take(count);
        let rows = numbers[..ARISEN].chunks_exact_mut(NUMBERS);
        for (row, event) in rows.zip(&arisen) {
            row.copy_from_slice(&event.numbers());
        }
        arisen.len() as u64
    }
}

fn unmoved(end: End) -> Step {
    Step {
        end,
        length: 0,
        shown: Shown::Nothing,
    }
}

fn outcome(answer: u8, step: &Step) -> u64 {
    let octet = step.end.role.octet();
    u64::from(answer)
        | (step.length as u64) << 8
        | u64::from(octet) << 40
        | (step.shown as u64) << 48
}

/// What an accepted frame stores.
fn received(frame: &[u8], shown: Shown) -> [u64; RECEIVED] {
    let message = read(frame).expect("an accepted frame");
    let [source, flags, code, fixed, skipped] = header_of(&message);
    let number = match shown {
        Shown::Events => fixed,
        Shown::Frame | Shown::Nothing => 0,
    };
    [source, flags, code, number, skipped]
}

/// The octets of an end and of a watch that stands so.
pub fn packed(end: &End, watch: &WatchNumbers) -> [u8; STATE_OCTETS] {
    let mut state = [0; STATE_OCTETS];
    pack(&END_WIDTHS, &end.packed_numbers(), &mut state[..END_OCTETS]);
    pack_watch(watch, &mut state);
    state
}

/// Stores a watch in a state's octets, behind the end.
pub fn pack_watch(watch: &WatchNumbers, state: &mut [u8; STATE_OCTETS]) {
    pack(&WATCH_WIDTHS, &watch.packed(), &mut state[END_OCTETS..]);
}

/// The numbers of the watch in a state's octets, in range or not.
pub fn watch_in(state: &[u8; STATE_OCTETS]) -> WatchNumbers {
    WatchNumbers::from_packed(&unpacked(&WATCH_WIDTHS, &mut &state[END_OCTETS..]))
}

fn pack(widths: &[usize], numbers: &[u64], octets: &mut [u8]) {
    let mut rest = octets;
    for (number, &width) in numbers.iter().zip(widths) {
        let (here, behind) = rest.split_at_mut(width);
        here.copy_from_slice(&number.to_be_bytes()[8 - width..]);
        rest = behind;
    }
}

/// Takes numbers of these widths off the octets.
fn unpacked<const N: usize>(widths: &[usize; N], rest: &mut &[u8]) -> [u64; N] {
    widths.map(|width| {
        let (here, behind) = rest.split_at(width);
        *rest = behind;
        joined(here)
    })
}

#[cfg(test)]
mod tests {
    use super::*;

    #[test]
    fn the_widths_fill_a_state() {
        let (end, watch): (usize, usize) = (END_WIDTHS.iter().sum(), WATCH_WIDTHS.iter().sum());
        assert_eq!((end, watch), (END_OCTETS, STATE_OCTETS - END_OCTETS));
    }
}
