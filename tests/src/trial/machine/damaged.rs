//! Damaged states: each is refused, and nothing changes, or it is a state, and
//! then behaves like the paper's machine at the numbers that it shows. The paper's
//! own packing says which of the two must come. States that no calls make are made
//! on purpose.

use super::bout::Bout;
use super::lend;
use super::played::Played;
use super::unmade::{all_refuse, Unmade};
use super::unwatched::Unwatched;
use crate::compare::hex;
use crate::generate::machine::Script;
use crate::library::machine::{
    Call, Machine, State, Turn, ARISEN, END_OCTETS, SHOWN_NUMBERS, STATE_OCTETS,
};
use crate::paper::answer;
use crate::paper::machine::{End, MOST_FRAMES, SECOND, STRETCH};
use crate::random::Random;
use crate::trial::lent::Lent;
use crate::trial::report::{Report, Tally};
use std::ops::Range;

/// Calls of an end whose state was damaged.
const CALLS: usize = 12;

/// Where the ticks and the intervals of an end are packed, and bit 44 of the latter.
pub const TICKS_AT: usize = 39;
pub const INTERVALS_AT: Range<usize> = 40..46;
pub const BIT_44: u8 = 1 << 4;
/// Where the watch is packed.
const WATCH_AT: Range<usize> = END_OCTETS..STATE_OCTETS;

#[derive(Clone, Copy, Debug, PartialEq, Eq, PartialOrd, Ord)]
enum Damage {
    OtherLength,
    Bits,
    Octet,
    AllOctets,
    Zeros,
    Ones,
    TicksTen,
    /// Ten frames in the intervals, which is a state.
    TenFrames,
    ElevenFrames,
    /// A bit above the eleven intervals.
    Bit44,
    /// Bits or an octet of the watch.
    WatchBits,
    WatchOctet,
}

impl Damage {
    fn is_of_watch(self) -> bool {
        matches!(self, Damage::WatchBits | Damage::WatchOctet)
    }

    const ALL: [Damage; 12] = [
        Damage::OtherLength,
        Damage::Bits,
        Damage::Octet,
        Damage::AllOctets,
        Damage::Zeros,
        Damage::Ones,
        Damage::TicksTen,
        Damage::TenFrames,
        Damage::ElevenFrames,
        Damage::Bit44,
        Damage::WatchBits,
        Damage::WatchOctet,
    ];

    fn befall(self, random: &mut Random, state: &mut Vec<u8>) {
        let length = state.len();
        match self {
            Damage::OtherLength => {
                let any = random.below(2 * length);
                let other = random.pick(&[0, length - 1, length + 1, any]);
                state.resize(if other == length { 0 } else { other }, 0);
            }
            Damage::Bits => flip_bits(random, state),
            Damage::Octet => state[random.below(length)] = random.octet(),
            Damage::AllOctets => *state = random.octets(length),
            Damage::Zeros => state.fill(0),
            Damage::Ones => state.fill(0xFF),
            Damage::TicksTen => state[TICKS_AT] = SECOND,
            Damage::TenFrames => {
                state[INTERVALS_AT].copy_from_slice(&intervals_of(random, MOST_FRAMES));
            }
            Damage::ElevenFrames => {
                state[INTERVALS_AT].copy_from_slice(&intervals_of(random, MOST_FRAMES + 1));
            }
            Damage::Bit44 => state[INTERVALS_AT.start] |= BIT_44,
            Damage::WatchBits => flip_bits(random, &mut state[WATCH_AT]),
            Damage::WatchOctet => {
                state[WATCH_AT][random.below(WATCH_AT.len())] = random.octet();
            }
        }
    }
}

fn flip_bits(random: &mut Random, octets: &mut [u8]) {
    for _ in 0..random.between(1, 3) {
        octets[random.below(octets.len())] ^= 1 << random.below(8);
    }
}

/// So many frames in any of eleven intervals, as they are packed.
fn intervals_of(random: &mut Random, frames: u8) -> Vec<u8> {
    let frame = |random: &mut Random| 1_u64 << (4 * random.below(STRETCH));
    let intervals: u64 = (0..frames).map(|_| frame(random)).sum();
    intervals.to_be_bytes()[8 - INTERVALS_AT.len()..].to_vec()
}

pub struct Damaged {
    /// States by whether they still were ones.
    states: Tally<(Damage, bool)>,
    /// Calls of a state that is none.
    refused: Tally<&'static str>,
    calls: usize,
    unmade: Unmade,
    unwatched: Unwatched,
}

impl Damaged {
    pub fn new() -> Self {
        let refusable = |damage: &Damage| *damage != Damage::TenFrames;
        let refused = Damage::ALL.into_iter().filter(refusable);
        let taken = [
            Damage::Bits,
            Damage::Octet,
            Damage::TenFrames,
            Damage::WatchBits,
            Damage::WatchOctet,
        ];
        let taken = taken.map(|damage| (damage, true));
        Damaged {
            states: Tally::expecting(refused.map(|damage| (damage, false)).chain(taken)),
            refused: Tally::expecting(Call::NAMES),
            calls: 0,
            unmade: Unmade::new(),
            unwatched: Unwatched::new(),
        }
    }

    /// Damages the state that a script has left in every way.
    pub fn try_one(
        &mut self,
        random: &mut Random,
        script: &mut Script,
        played: &Played,
    ) -> Result<(), String> {
        for damage in Damage::ALL {
            let mut octets = played.bout.state().to_vec();
            damage.befall(random, &mut octets);
            let mut state = Lent::octets(random, octets.len());
            state.slice_mut().copy_from_slice(&octets);
            let library = played.library();
            let told = |fault| {
                let octets = hex(&octets);
                format!("on the state {octets}, of {damage:?}\n  {fault}")
            };
            let shown = shown(library, random, &state).map_err(told)?;
            self.states.count((damage, shown.is_some()));
            if State::from_octets(&octets).is_some() != shown.is_some() {
                let does = if shown.is_some() { "takes" } else { "refuses" };
                return Err(told(format!("oam_show {does} it, and the paper does not")));
            }
            match shown {
                None if damage.is_of_watch() => {
                    all_refuse(library, random, &state, &mut self.refused)
                }
                None => self.refuse(library, random, script, state, &played.end()),
                Some(paper) => self.play(library, random, script, state, paper),
            }
            .map_err(told)?;
        }
        self.unmade.try_one(random, played)?;
        self.unwatched.try_some(random, played)
    }

    /// A call of a state that is none.
    fn refuse(
        &mut self,
        library: &dyn Machine,
        random: &mut Random,
        script: &mut Script,
        state: Lent<u8>,
        end: &End,
    ) -> Result<(), String> {
        let call = script.call(random, end);
        self.refused.count(call.name());
        let (mut turn, _) = lend(random, call, end);
        turn.numbers = random.below(2 * ARISEN);
        refuses(library, random, &turn, &state)
    }

    /// Calls of a state that shows this one.
    fn play(
        &mut self,
        library: &dyn Machine,
        random: &mut Random,
        script: &mut Script,
        state: Lent<u8>,
        paper: State,
    ) -> Result<(), String> {
        let mut bout = Bout::at(library, state, paper);
        for _ in 0..CALLS {
            let end = bout.end();
            let call = script.call(random, &end);
            let (turn, _) = lend(random, call, &end);
            let numbers = bout.paper().numbers();
            let told = |difference| format!("of {numbers:?}\n  {difference}");
            bout.turn(random, &turn).map_err(told)?;
            self.calls += 1;
        }
        Ok(())
    }

    pub fn report(&self, report: &mut Report) {
        report.add("damaged states", &self.states, |(damage, taken)| {
            let taken = if *taken { "still a state" } else { "refused" };
            format!("{damage:?}, {taken}")
        });
        report.add("calls of those refused", &self.refused, |name| {
            name.to_string()
        });
        report.count(self.calls, "calls of those that still were states");
        self.unmade.report(report);
        self.unwatched.report(report);
    }
}

/// A call of a state that is none is 10 alone, and changes nothing.
pub fn refuses(
    library: &dyn Machine,
    random: &mut Random,
    turn: &Turn,
    state: &Lent<u8>,
) -> Result<(), String> {
    let numbers = Lent::numbers(random, turn.numbers);
    let out = Lent::octets(random, turn.out);
    let (mut found_state, mut found_numbers, mut found_out) =
        (state.clone(), numbers.clone(), out.clone());
    let outcome = library.call(
        &turn.call,
        found_numbers.slice_mut(),
        found_state.slice_mut(),
        found_out.slice_mut(),
    );
    let kept = state.stray(&found_state).is_none()
        && numbers.stray(&found_numbers).is_none()
        && out.stray(&found_out).is_none();
    match (outcome == answer::VALUES.into(), kept) {
        (true, true) => Ok(()),
        (false, _) => Err(format!("{turn} gives {outcome:#x} where oam_show gives 10")),
        (true, false) => Err(format!("{turn} is refused and changes what was lent")),
    }
}

/// What a state shows; nothing where it is refused.
pub fn shown(
    library: &dyn Machine,
    random: &mut Random,
    state: &Lent<u8>,
) -> Result<Option<State>, String> {
    let before = Lent::numbers(random, SHOWN_NUMBERS);
    let mut numbers = before.clone();
    match library.show(state.slice(), numbers.slice_mut()) {
        0 if state.len() == STATE_OCTETS => {
            let shown = numbers.slice().first_chunk().and_then(State::from_numbers);
            let told = || format!("no state has the numbers {:?}", numbers.slice());
            shown.map(Some).ok_or_else(told)
        }
        10 if before.stray(&numbers).is_none() => Ok(None),
        10 => Err(String::from("oam_show refuses and stores")),
        other => Err(format!("oam_show gives {other:#x}")),
    }
}
