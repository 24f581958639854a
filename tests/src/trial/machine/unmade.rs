//! States of ends that no calls make, made on purpose: every entry refuses each of
//! them, and takes it once its one fault is mended.

use super::damaged::{refuses, shown};
use super::played::Played;
use crate::generate::any_frame;
use crate::library::machine::{packed, Call, Machine, Response, State, Turn, ARISEN, STATE_OCTETS};
use crate::paper::machine::{configuration, Breach, End, Report as Reported, Role, COMPLETE};
use crate::paper::windows::WatchNumbers;
use crate::paper::{Information, LONGEST, NUMBERS};
use crate::random::Random;
use crate::trial::lent::Lent;
use crate::trial::report::{Report, Tally};

pub struct Unmade {
    /// The rule that is broken, and the role.
    states: Tally<(Breach, Role)>,
    calls: Tally<&'static str>,
}

impl Unmade {
    pub fn new() -> Self {
        let of_each = |breach| roles(breach).iter().map(move |role| (breach, *role));
        Unmade {
            states: Tally::expecting(Breach::ALL.into_iter().flat_map(of_each)),
            calls: Tally::expecting(Call::NAMES),
        }
    }

    /// Breaks each rule at the end that a script has left, where that is the only
    /// one broken.
    pub fn try_one(&mut self, random: &mut Random, played: &Played) -> Result<(), String> {
        let (end, watch) = (played.end(), played.bout.paper().watch.numbers());
        for breach in Breach::ALL {
            let role = random.pick(roles(breach));
            let (faulty, mended) = broken(random, (&end, &watch), breach, role);
            if faulty.breaches() == [breach] && mended.breaches().is_empty() {
                let told = |fault| format!("of {breach:?}, {:?}\n  {fault}", faulty.numbers());
                self.states.count((breach, role));
                let library = played.library();
                let state = lent(random, &packed(&faulty, &watch));
                all_refuse(library, random, &state, &mut self.calls)
                    .and_then(|()| takes(library, random, &packed(&mended, &watch)))
                    .map_err(told)?;
            }
        }
        Ok(())
    }

    pub fn report(&self, report: &mut Report) {
        report.add(
            "states that no calls make",
            &self.states,
            |(breach, role)| format!("{breach:?}, {role:?}"),
        );
        report.add("calls of those", &self.calls, |name| name.to_string());
    }
}

/// Every entry refuses a state, whatever else is wrong.
pub fn all_refuse(
    library: &dyn Machine,
    random: &mut Random,
    state: &Lent<u8>,
    names: &mut Tally<&'static str>,
) -> Result<(), String> {
    if shown(library, random, state)?.is_some() {
        return Err(String::from("oam_show takes it"));
    }
    for call in calls(random) {
        names.count(call.name());
        let numbers = random.below(2 * ARISEN);
        let out = random.pick(&[0, LONGEST]);
        refuses(library, random, &Turn { call, numbers, out }, state)?;
    }
    Ok(())
}

/// The roles with which a rule alone can be broken.
fn roles(breach: Breach) -> &'static [Role] {
    match breach {
        Breach::RoleOutsideSendAny => &[Role::Asking, Role::Holding, Role::Ending, Role::Looping],
        Breach::LoopingWithoutBit2 => &[Role::Looping],
        Breach::AskingOfAPassiveEnd => &[Role::Asking, Role::Holding, Role::Ending],
        _ => &[Role::Idle],
    }
}

/// An end like this one that breaks a rule, and the same with that fault mended.
/// Either may still break others.
fn broken(
    random: &mut Random,
    (end, watch): (&End, &WatchNumbers),
    breach: Breach,
    role: Role,
) -> (End, End) {
    let (mut faulty, mut mended) = (End { role, ..*end }, End { role, ..*end });
    match breach {
        Breach::RoleOutsideSendAny => mended.role = Role::Idle,
        Breach::LoopingWithoutBit2 => with_bit(&mut faulty, &mut mended, configuration::LOOPBACK),
        Breach::AskingOfAPassiveEnd => with_bit(&mut faulty, &mut mended, configuration::ACTIVE),
        Breach::OwedWhereNotAllowed => (faulty.owed, mended.owed) = (true, false),
        Breach::PeerKeptWithLinkDown if random.one_in(2) => {
            faulty.peer = Information::from_numbers(&[0; NUMBERS]);
        }
        Breach::PeerKeptWithLinkDown => faulty.kept_field = random.octet_between(1, COMPLETE),
        Breach::EventWithoutRecord => {
            for end in [&mut faulty, &mut mended] {
                (end.peer, end.last_event, end.owed) = (None, None, false);
            }
            faulty.last_event = Some(random.value(2) as u16);
        }
    }
    (at_rest(&faulty, watch), at_rest(&mended, watch))
}

fn with_bit(faulty: &mut End, mended: &mut End, bit: u8) {
    faulty.settings.configuration &= !bit;
    mended.settings.configuration |= bit;
}

/// The end, its discovery where the moves take it.
fn at_rest(end: &End, watch: &WatchNumbers) -> End {
    let state = State::from_octets_with(&packed(end, watch), &Breach::ALL);
    state.expect("numbers in range").end
}

/// A state with these octets.
pub fn lent(random: &mut Random, octets: &[u8; STATE_OCTETS]) -> Lent<u8> {
    let mut state = Lent::octets(random, octets.len());
    state.slice_mut().copy_from_slice(octets);
    state
}

/// A state that calls may make is shown as it is.
pub fn takes(
    library: &dyn Machine,
    random: &mut Random,
    octets: &[u8; STATE_OCTETS],
) -> Result<(), String> {
    let state = lent(random, octets);
    match shown(library, random, &state)? {
        Some(found) if found.octets() == *octets => Ok(()),
        other => Err(format!("with the fault mended it is shown as {other:?}")),
    }
}

/// A call of each entry, and a report that is none.
fn calls(random: &mut Random) -> [Call; 10] {
    [
        Call::Tick(1),
        Call::Report(Reported::LinkUp as u8),
        Call::Report(Reported::ALL.len() as u8),
        Call::Receive(any_frame(random).frame),
        Call::Start,
        Call::Stop,
        Call::Request(vec![0x07_0001]),
        Call::Notify(vec![4, 0, 0, 0, 0, 0, 0]),
        Call::Organization {
            oui: 1,
            octets: vec![0; 39],
        },
        Call::Respond(Response {
            attributes: vec![0x07_0001, 2],
            values: vec![0; 2],
            descriptors: vec![0x07_0001],
        }),
    ]
}
