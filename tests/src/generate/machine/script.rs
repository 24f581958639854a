//! Scripts of calls: for some calls at a time they go one way, so that even what
//! needs many calls of one kind is reached often.

use super::counts::Counts;
use super::peer::Peer;
use super::requests::any_request;
use crate::generate::any_frame;
use crate::library::machine::Call;
use crate::paper::machine::{Discovery, End, Report, Role, Settings, LOST_LINK, SMALLEST_SIZE};
use crate::random::Random;

pub struct Script {
    peer: Peer,
    counts: Counts,
    mood: Mood,
    /// Calls left in this mood.
    left: usize,
}

/// What a script goes after.
#[derive(Clone, Copy, Debug, PartialEq, Eq)]
enum Mood {
    /// Everything.
    Mixed,
    /// Loopback, of either end.
    Loopback,
    /// Requests without ticks.
    Flood,
    /// Ticks alone.
    Silence,
    /// Reports.
    Reports,
    /// Frames of all makers, damaged ones too.
    Hostile,
}

impl Mood {
    fn any(random: &mut Random) -> Self {
        match random.below(20) {
            0..=6 => Mood::Mixed,
            7..=13 => Mood::Loopback,
            14..=16 => Mood::Flood,
            17 => Mood::Silence,
            18 => Mood::Reports,
            _ => Mood::Hostile,
        }
    }

    fn calls(self, random: &mut Random) -> usize {
        match self {
            Mood::Silence => random.between(40, usize::from(LOST_LINK) + 20),
            Mood::Reports | Mood::Hostile => random.between(2, 8),
            Mood::Flood => random.between(8, 16),
            Mood::Mixed | Mood::Loopback => random.between(10, 40),
        }
    }
}

impl Script {
    pub fn new(random: &mut Random, settings: &Settings) -> Self {
        Script {
            peer: Peer::of(random, settings),
            counts: Counts::default(),
            mood: Mood::Mixed,
            left: random.between(0, 20),
        }
    }

    /// The next call of an end that stands so.
    pub fn call(&mut self, random: &mut Random, end: &End) -> Call {
        if self.left == 0 {
            self.mood = Mood::any(random);
            self.left = self.mood.calls(random);
            if random.one_in(16) {
                self.peer = Peer::of(random, &end.settings);
            }
        }
        self.left -= 1;
        if end.owed && random.one_in(16) {
            return settling(random);
        }
        let idle = matches!(self.mood, Mood::Silence | Mood::Reports | Mood::Hostile);
        if !idle && end.discovery != Discovery::SendAny && random.one_in(2) {
            return self.nearer(random, end);
        }
        match self.mood {
            Mood::Mixed => self.mixed(random, end),
            Mood::Loopback => self.loopback(random, end),
            Mood::Flood => self.flood(random, end),
            Mood::Silence => self.silence(random, end),
            Mood::Reports => Call::Report(report(random)),
            Mood::Hostile => Call::Receive(any_frame(random).frame),
        }
    }

    /// A call that brings the end nearer to SEND_ANY.
    fn nearer(&mut self, random: &mut Random, end: &End) -> Call {
        match end.link_up {
            false => Call::Report(Report::LinkUp as u8),
            true if random.one_in(8) => Call::Receive(self.peer.other(random)),
            true => Call::Receive(self.peer.complete(random, end)),
        }
    }

    fn mixed(&mut self, random: &mut Random, end: &End) -> Call {
        match random.below(16) {
            0..=5 => self.tick(random),
            6..=8 => Call::Receive(self.peer.information(random, end)),
            9 => Call::Receive(self.peer.notification(random)),
            10 => Call::Receive(self.peer.command(random)),
            11 => Call::Receive(self.peer.other(random)),
            12 => Call::Receive(any_frame(random).frame),
            13 if random.one_in(4) => Call::Report(report(random)),
            _ => any_request(random, smaller_size(end)),
        }
    }

    fn loopback(&mut self, random: &mut Random, end: &End) -> Call {
        match random.below(12) {
            0 | 1 => Call::Start,
            2 if !random.one_in(3) => self.tick(random),
            2 => Call::Stop,
            3 | 4 if matches!(end.role, Role::Holding | Role::Ending) => Call::Stop,
            3..=5 => Call::Receive(self.peer.command(random)),
            6 | 7 => self.tick(random),
            8 => any_request(random, smaller_size(end)),
            _ => Call::Receive(self.peer.information(random, end)),
        }
    }

    fn flood(&mut self, random: &mut Random, end: &End) -> Call {
        match random.below(16) {
            0 => self.tick(random),
            1 => Call::Receive(self.peer.information(random, end)),
            2 => Call::Receive(self.peer.command(random)),
            3 => Call::Report(random.octet_between(2, 5)),
            _ => any_request(random, smaller_size(end)),
        }
    }

    fn silence(&mut self, random: &mut Random, end: &End) -> Call {
        match random.one_in(64) {
            true => any_request(random, smaller_size(end)),
            false => self.tick(random),
        }
    }

    fn tick(&mut self, random: &mut Random) -> Call {
        Call::Tick(self.counts.next(random))
    }
}

/// The smaller of both maximum sizes; the own one where no peer is known.
fn smaller_size(end: &End) -> usize {
    let peer = end.peer.map(|peer| peer.maximum_size());
    let size = peer.map_or(end.settings.size, |peer| peer.min(end.settings.size));
    size.max(SMALLEST_SIZE).into()
}

/// A report that may write what is owed, or a link down, which mostly drops it.
fn settling(random: &mut Random) -> Call {
    match random.one_in(3) {
        true => Call::Report(Report::LinkDown as u8),
        false => Call::Report(report(random)),
    }
}

/// A report; one in eight is none.
fn report(random: &mut Random) -> u8 {
    let last = Report::ALL.len() as u8 - 1;
    match random.below(16) {
        0 => last + 1,
        1 => random.octet_between(last + 1, 255),
        _ => random.octet_between(0, last),
    }
}
