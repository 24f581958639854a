//! Two ends of a library, joined by a link that loses, delays, repeats and
//! reorders frames, and the third demand tested at every moment from outside.

mod link;
mod side;

#[cfg(test)]
mod tests;

use super::report::{Report, Tally};
use crate::compare::last_lines;
use crate::generate::machine::{any_request, paired_setups, Counts};
use crate::library::machine::{Call, Machine, Setup, Turn};
use crate::paper::machine::{Report as LinkReport, LOST_LINK};
use crate::paper::LONGEST;
use crate::random::Random;
use link::{Arrival, Link};
use side::{Side, Sight};

/// The fewest and the most calls of a script.
const SCRIPT_CALLS: (usize, usize) = (300, 900);

/// Makes `calls` calls of two ends; it ends with the first moment at which the
/// demand does not hold.
pub fn pair(library: &dyn Machine, seed: u64, calls: usize) -> Report {
    let mut trial = Trial {
        random: Random::new(seed),
        calls: 0,
        scripts: 0,
        arrivals: Tally::expecting(Arrival::ALL),
        sights: Tally::expecting(Sight::ALL),
        looping: Tally::expecting([0, 1, 2]),
    };
    while trial.calls < calls {
        if let Err(fault) = trial.script(library) {
            return Report::with(vec![fault]);
        }
    }
    trial.report()
}

struct Trial {
    random: Random,
    calls: usize,
    scripts: usize,
    arrivals: Tally<Arrival>,
    sights: Tally<Sight>,
    /// Moments, by how many of the two ends loop.
    looping: Tally<usize>,
}

/// Two ends and the link between them.
struct Pair<'a> {
    sides: [Side<'a>; 2],
    link: Link,
    weather: Weather,
    /// Calls left in this weather.
    left: usize,
    /// The bad frames of both ends' ticks.
    counts: Counts,
    /// Who was called, and how.
    turns: Vec<(usize, Turn)>,
}

/// How the link treats its frames.
#[derive(Clone, Copy)]
enum Weather {
    /// All arrive in order.
    Calm,
    /// They are lost, delayed, repeated and reordered.
    Rough,
    /// Nothing arrives at this end.
    Silent(usize),
}

impl Weather {
    fn any(random: &mut Random) -> (Self, usize) {
        match random.below(8) {
            0..=4 => (Weather::Calm, random.between(20, 120)),
            5 | 6 => (Weather::Rough, random.between(10, 80)),
            _ => {
                let calls = usize::from(LOST_LINK) + random.below(20);
                (Weather::Silent(random.below(2)), calls)
            }
        }
    }
}

impl Trial {
    fn script(&mut self, library: &dyn Machine) -> Result<(), String> {
        let setups = paired_setups(&mut self.random);
        let mut pair = Pair::fresh(library, setups)?;
        self.scripts += 1;
        let (least, most) = SCRIPT_CALLS;
        for _ in 0..self.random.between(least, most) {
            if let Err(fault) = self.call(&mut pair) {
                return Err(pair.told(&fault));
            }
        }
        Ok(())
    }

    /// One call of one end.
    fn call(&mut self, pair: &mut Pair) -> Result<(), String> {
        if pair.left == 0 {
            (pair.weather, pair.left) = Weather::any(&mut self.random);
        }
        pair.left -= 1;
        let side = match pair.weather {
            Weather::Silent(side) if !self.random.one_in(4) => side,
            _ => self.random.below(2),
        };
        match self.arrival(pair, side) {
            Some(arrival) => self.arrive(pair, side, arrival)?,
            None => {
                let call = act(&mut self.random, pair, side);
                self.make(pair, side, call, false)?;
            }
        }
        let [one, other] = &pair.sides;
        one.hold(other)?;
        other.hold(one)?;
        let looping = pair.sides.iter().filter(|side| side.is_looping()).count();
        self.looping.count(looping);
        Ok(())
    }

    /// What the link does to a frame under way to an end, if anything.
    fn arrival(&mut self, pair: &Pair, side: usize) -> Option<Arrival> {
        let random = &mut self.random;
        let arrival = match (pair.weather, random.below(8)) {
            (Weather::Silent(silent), _) if silent == side => return None,
            (Weather::Rough, 0) => Arrival::Lost,
            (Weather::Rough, 1) => Arrival::Again,
            (Weather::Rough, 2) => Arrival::OutOfOrder,
            (Weather::Rough, 3..) | (_, 6..) => return None,
            _ => Arrival::InOrder,
        };
        pair.link.can(side, arrival).then_some(arrival)
    }

    fn arrive(&mut self, pair: &mut Pair, side: usize, arrival: Arrival) -> Result<(), String> {
        self.arrivals.count(arrival);
        match pair.link.take(&mut self.random, side, arrival) {
            None => Ok(()), // it is lost
            Some(sent) => {
                let call = Call::Receive(sent.frame);
                self.make(pair, side, call, sent.is_rightful_enable)
            }
        }
    }

    fn make(
        &mut self,
        pair: &mut Pair,
        side: usize,
        call: Call,
        is_rightful_enable: bool,
    ) -> Result<(), String> {
        let out = match self.random.below(24) {
            0 => self.random.pick(&[0, 59]),
            _ => LONGEST,
        };
        let turn = Turn {
            out,
            ..Turn::with_room(call)
        };
        let turn = pair.counts.on(&mut self.random, turn);
        pair.turns.push((side, turn.clone()));
        self.calls += 1;
        let end = &mut pair.sides[side];
        let sent = end.turn(&turn, is_rightful_enable, &mut self.sights)?;
        pair.link.sent(1 - side, sent);
        Ok(())
    }

    fn report(self) -> Report {
        let mut report = Report::with(Vec::new());
        report.count(self.scripts, "pairs of ends");
        report.count(self.calls, "calls, and the demand held after each");
        report.add("frames under way", &self.arrivals, |arrival| {
            format!("{arrival:?}")
        });
        report.add("what was seen", &self.sights, |sight| format!("{sight:?}"));
        report.add("moments at which", &self.looping, |looping| {
            format!("{looping} of the two ends looped")
        });
        report
    }
}

impl<'a> Pair<'a> {
    fn fresh(library: &'a dyn Machine, setups: [Setup; 2]) -> Result<Self, String> {
        let [one, other] = setups.map(|setup| Side::fresh(library, setup));
        Ok(Pair {
            sides: [one?, other?],
            link: Link::default(),
            weather: Weather::Calm,
            left: 60,
            counts: Counts::default(),
            turns: Vec::new(),
        })
    }

    /// The smaller of both maximum sizes.
    fn smaller_size(&self) -> usize {
        let sizes = self.sides.each_ref().map(|side| side.settings.size);
        sizes[0].min(sizes[1]).into()
    }

    fn told(&self, fault: &str) -> String {
        let turns = self.turns.iter();
        let lines = turns.map(|(side, turn)| format!("end {side}: {turn}"));
        let lines = last_lines(lines).join("\n    ");
        let settings = self.sides.each_ref().map(|side| side.settings);
        format!("{fault}\n  after these calls\n    {settings:x?}\n    {lines}")
    }
}

/// A call that does not come over the link.
fn act(random: &mut Random, pair: &Pair, side: usize) -> Call {
    let silent = matches!(pair.weather, Weather::Silent(silent) if silent == side);
    let end = &pair.sides[side];
    if !end.link_is_up && random.one_in(3) {
        return Call::Report(LinkReport::LinkUp as u8);
    }
    match random.below(32) {
        _ if silent && !random.one_in(16) => Call::Tick(0),
        0..=3 => Call::Start,
        4 | 5 => Call::Stop,
        6..=8 => any_request(random, pair.smaller_size()),
        9 => Call::Report(random.octet_between(2, 5)),
        10 if random.one_in(4) => Call::Report(random.octet_between(0, 1)),
        _ => Call::Tick(0),
    }
}
