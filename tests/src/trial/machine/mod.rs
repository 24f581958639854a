//! The link machine: scripts of calls, each made of a library and of the paper's
//! machine, damaged states, and long runs of ticks.

mod bout;
mod damaged;
mod difference;
mod happening;
mod limiting;
mod notifying;
mod played;
mod responding;
mod skipping;
mod storming;
mod unmade;
mod unwatched;
mod watching;

#[cfg(test)]
pub mod tests;

use super::lent::Room;
use super::report::{Report, Tally};
use crate::generate::machine::{
    any_setup, directed_scripts, wrapping_round, wrapping_start, Counts, Script, SettingsFault,
    WRAPPING, WRAPPING_ROUNDS,
};
use crate::library::machine::{Call, Machine, Outcome, Setup, Turn, ARISEN, STATE_OCTETS};
use crate::library::Library;
use crate::paper::machine::{Discovery, End, Role};
use crate::paper::{answer, LONGEST, SHORTEST};
use crate::random::Random;
use bout::Bout;
use damaged::Damaged;
use happening::{Happening, Seen};
use limiting::Limiting;
use played::Played;
use responding::Responding;
use skipping::Skipping;
use storming::Storming;
use watching::Watching;

/// The fewest and the most calls of a script.
const SCRIPT_CALLS: (usize, usize) = (100, 400);

/// Makes `calls` calls in scripts, those of some directed scripts, some on damaged
/// states, and twice as many ticks with windows of every sort. What arises there is
/// read back and logged by `notes`. It ends with the first difference.
pub fn machine(library: &dyn Machine, notes: &dyn Library, seed: u64, calls: usize) -> Report {
    let mut trial = Trial::new(library, notes, seed, calls);
    let difference = trial.run(calls).err();
    trial.report(difference)
}

struct Trial<'a> {
    library: &'a dyn Machine,
    random: Random,
    calls: usize,
    scripts: usize,
    /// Scripts in which SEND_ANY was reached.
    complete: usize,
    fresh: Tally<u8>,
    settings_faults: Tally<SettingsFault>,
    answers: Tally<(&'static str, u8)>,
    rooms: Tally<(Room, bool)>,
    /// The shortest frames in the longest outputs, by call.
    short_in_long: Tally<&'static str>,
    stands: Tally<(Discovery, Role)>,
    happenings: Tally<Happening>,
    limiting: Tally<Limiting>,
    skipping: Tally<Skipping>,
    storming: Tally<Storming>,
    /// Refusals with a State octet other than 00.
    busy: Tally<(&'static str, u8)>,
    responding: Responding,
    damaged: Damaged,
    watching: Watching<'a>,
}

impl<'a> Trial<'a> {
    fn new(library: &'a dyn Machine, notes: &'a dyn Library, seed: u64, calls: usize) -> Self {
        Trial {
            library,
            random: Random::new(seed),
            calls: 0,
            scripts: 0,
            complete: 0,
            fresh: Tally::expecting([answer::ACCEPTED, answer::VALUES]),
            settings_faults: Tally::expecting(SettingsFault::ALL),
            answers: Tally::expecting(possible_answers()),
            rooms: Tally::expecting(possible_rooms()),
            short_in_long: Tally::expecting(Call::NAMES),
            stands: Tally::expecting(possible_stands()),
            happenings: Tally::expecting(Happening::ALL),
            limiting: Limiting::tally(calls),
            skipping: Skipping::tally(calls),
            storming: Storming::tally(calls),
            busy: Tally::expecting(possible_busy()),
            responding: Responding::new(calls),
            damaged: Damaged::new(),
            watching: Watching::new(library, notes, calls),
        }
    }

    fn run(&mut self, calls: usize) -> Result<(), String> {
        while self.calls < calls {
            self.script()?;
        }
        self.directed_scripts()?;
        self.watching.run(&mut self.random, calls)
    }

    /// A script from a fresh end on, and a damaged state of the end that it left.
    fn script(&mut self) -> Result<(), String> {
        let Some(mut played) = self.begin()? else {
            return Ok(());
        };
        let mut script = Script::new(&mut self.random, &played.end().settings);
        let (least, most) = SCRIPT_CALLS;
        let mut complete = false;
        for _ in 0..self.random.between(least, most) {
            let end = played.end();
            complete |= end.discovery == Discovery::SendAny;
            let call = script.call(&mut self.random, &end);
            self.call(&mut played, call)?;
        }
        self.complete += usize::from(complete);
        self.damaged.try_one(&mut self.random, &mut script, &played)
    }

    /// Fresh ends, if the settings are in range and the state has its length.
    fn begin(&mut self) -> Result<Option<Played<'a>>, String> {
        let (setup, fault) = any_setup(&mut self.random);
        let length = match self.random.below(8) {
            0 => self.random.below(2 * STATE_OCTETS),
            _ => STATE_OCTETS,
        };
        self.scripts += 1;
        if let Some(fault) = fault {
            self.settings_faults.count(fault);
        }
        let bout = Bout::fresh(self.library, &mut self.random, &setup, length)?;
        self.fresh.count(match bout {
            Some(_) => answer::ACCEPTED,
            None => answer::VALUES,
        });
        Ok(bout.map(|bout| Played::new(self.library, setup, bout)))
    }

    /// The scripts for what chance would hardly find, and the long one in which
    /// the revision, the event number and the timestamp wrap.
    fn directed_scripts(&mut self) -> Result<(), String> {
        for (setup, turns) in directed_scripts(&mut self.random) {
            self.directed(&setup, turns.into_iter())?;
        }
        let rounds = (0..WRAPPING_ROUNDS).flat_map(|_| wrapping_round());
        let calls = wrapping_start().into_iter().chain(rounds);
        let (mut random, mut counts) = (self.random.clone(), Counts::default());
        let turns = calls.map(|call| counts.on(&mut random, Turn::with_room(call)));
        self.directed(&WRAPPING, turns)
    }

    fn directed(&mut self, setup: &Setup, turns: impl Iterator<Item = Turn>) -> Result<(), String> {
        let bout = Bout::fresh(self.library, &mut self.random, setup, STATE_OCTETS)?;
        let bout = bout.ok_or("the settings of a directed script are refused")?;
        let mut played = Played::new(self.library, *setup, bout);
        for turn in turns {
            if let Call::Respond(_) = turn.call {
                self.without_room(&mut played, &turn.call)?;
            }
            self.turn(&mut played, turn)?;
        }
        Ok(())
    }

    /// Makes a call that would write, one octet short of room.
    fn without_room(&mut self, played: &mut Played, call: &Call) -> Result<(), String> {
        let step = call.step(&played.end(), &mut [0; LONGEST]);
        let Ok(length @ 1..) = step.map(|step| step.length) else {
            return Ok(());
        };
        let mut turn = Turn::with_room(call.clone());
        turn.out = length - 1;
        self.turn(played, turn).map(drop)
    }

    /// Makes a call with any room. What comes of the limit must come of such calls, so
    /// that it comes in many ways.
    fn call(&mut self, played: &mut Played, call: Call) -> Result<u8, String> {
        let (turn, room) = lend(&mut self.random, call, &played.end());
        let answer = self.turn(played, turn)?;
        self.rooms.count((room, answer == answer::OUTPUT));
        for limiting in &played.limiting {
            self.limiting.count(*limiting);
        }
        Ok(answer)
    }

    /// The paper's answer.
    fn turn(&mut self, played: &mut Played, turn: Turn) -> Result<u8, String> {
        let before = played.end();
        let name = turn.call.name();
        let (short, out) = (turn.is_short_of_numbers(), turn.out);
        let outcome = Outcome::of(played.turn(&mut self.random, turn)?.outcome);
        self.calls += 1;
        self.answers.count((name, outcome.answer));
        if (out, outcome.length) == (LONGEST, SHORTEST) {
            self.short_in_long.count(name);
        }
        if outcome.answer != answer::ACCEPTED && before.role != Role::Idle {
            let name = if short { short_of_numbers(name) } else { name };
            self.busy.count((name, outcome.answer));
        }
        let after = played.end();
        self.stands.count((after.discovery, after.role));
        let seen = Seen::new(&before, played.last_call(), &after, &outcome);
        for happening in seen.happenings() {
            self.happenings.count(happening);
        }
        if let Some(skipping) = Skipping::of(&seen) {
            self.skipping.count(skipping);
        }
        for storming in Storming::of(&seen) {
            self.storming.count(storming);
        }
        let limits = played.owing.after(&seen);
        self.responding.note(&before, played.last_call(), &outcome);
        (played.owing, played.limiting) = limits;
        Ok(outcome.answer)
    }

    fn report(self, difference: Option<String>) -> Report {
        let differs = difference.is_some();
        let mut report = Report::with(difference.into_iter().collect());
        if differs {
            return report; // all that follows would be missed
        }
        report.count(self.scripts, "scripts begun");
        report.count(self.complete, "of them came to SEND_ANY");
        report.count(self.calls, "calls compared");
        report.add("calls of oam_fresh", &self.fresh, |answer| {
            format!("answered {answer}")
        });
        report.add_many("settings out of range", &self.settings_faults, |fault| {
            format!("{fault:?}")
        });
        let answered = |(name, answer): &(&str, u8)| format!("{name}, answered {answer}");
        report.add("calls", &self.answers, answered);
        report.add("refusals in a role", &self.busy, answered);
        report.add("outputs", &self.rooms, |(room, short)| {
            let answered = if *short { "9" } else { "otherwise" };
            format!("of the length {room:?}, answered {answered}")
        });
        let title = "frames of 60 octets in outputs of 1,514";
        report.add(title, &self.short_in_long, |name| name.to_string());
        self.report_calls(&mut report);
        self.responding.report(&mut report);
        self.damaged.report(&mut report);
        self.watching.report(&mut report);
        report
    }

    /// What came of the calls.
    fn report_calls(&self, report: &mut Report) {
        report.add("calls that left an end in", &self.stands, |stand| {
            format!("{:?}, {:?}", stand.0, stand.1)
        });
        report.add("what came of calls", &self.happenings, |happening| {
            format!("{happening:?}")
        });
        report.add("what came of the limit", &self.limiting, |limiting| {
            format!("{limiting:?}")
        });
        let title = "frames received with TLVs that are skipped";
        report.add(title, &self.skipping, |skipping| format!("{skipping:?}"));
        let title = "notifications of more than four events";
        report.add(title, &self.storming, |storming| format!("{storming:?}"));
    }
}

/// Lends a call the room for the frame that it would write, less or more.
fn lend(random: &mut Random, call: Call, end: &End) -> (Turn, Room) {
    let step = call.step(end, &mut [0; LONGEST]);
    let length = step.map_or(SHORTEST, |step| step.length.max(SHORTEST));
    let room = match random.below(16) {
        0 => random.pick(&[Room::OneLess, Room::None, Room::Any]),
        1..=4 => Room::More,
        5..=8 => Room::Longest,
        _ => Room::Exact,
    };
    let least = call.least_numbers();
    let numbers = match random.below(32) {
        0 => random.below(least.max(1)),
        1..=4 => random.between(least + 1, least + ARISEN),
        _ => least,
    };
    let out = room.of(random, length);
    (Turn { call, numbers, out }, room)
}

/// A loopback command has 60 octets, which no maximum size forbids.
fn possible_answers() -> Vec<(&'static str, u8)> {
    let answers_of = |name: &'static str| -> Vec<u8> {
        match name {
            "oam_tick" => vec![0, 9],
            "oam_report" => vec![0, 9, 10],
            "oam_receive" => (0..=9).collect(),
            "oam_start" | "oam_stop" => vec![0, 9, 11, 13, 15],
            "oam_request" => vec![0, 9, 10, 11, 12, 13, 15],
            "oam_respond" => vec![0, 9, 10, 11, 13, 15],
            _ => vec![0, 9, 10, 11, 12, 13],
        }
    };
    let each = |name| {
        answers_of(name)
            .into_iter()
            .map(move |answer| (name, answer))
    };
    Call::NAMES.into_iter().flat_map(each).collect()
}

/// A call that was lent too few numbers, of which only two need any.
fn short_of_numbers(name: &str) -> &'static str {
    match name {
        "oam_tick" => "oam_tick, of too few events",
        _ => "oam_receive, of a short header",
    }
}

/// The answers that a role other than Idle leaves, which is in SEND_ANY.
fn possible_busy() -> Vec<(&'static str, u8)> {
    let refusal =
        |(_, answer): &(&str, u8)| ![answer::ACCEPTED, answer::NOT_SEND_ANY].contains(answer);
    let mut possible: Vec<_> = possible_answers().into_iter().filter(refusal).collect();
    let short = ["oam_tick", "oam_receive"].map(short_of_numbers);
    possible.extend(short.map(|name| (name, answer::OUTPUT)));
    possible
}

/// Of enough room only too few numbers are answered 9.
fn possible_rooms() -> Vec<(Room, bool)> {
    let each = |room| [(room, false), (room, true)];
    Room::for_frames().flat_map(each).collect()
}

/// Only in SEND_ANY a role is other than Idle.
fn possible_stands() -> Vec<(Discovery, Role)> {
    let idle = Discovery::ALL.map(|discovery| (discovery, Role::Idle));
    let any = Role::ALL.map(|role| (Discovery::SendAny, role));
    idle.into_iter().chain(any).collect()
}
