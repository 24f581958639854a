//! Scripts of the limit: ten frames, some ticks and a request, for each number of
//! ticks to beyond the stretch and for each phase at which the ten are written.

use super::directed::{reported, settings, with_room, Uncounted};
use super::wraps::{local, received, COMPLETE};
use crate::library::machine::{Call, Turn};
use crate::paper::machine::{configuration, Report, MOST_FRAMES, SECOND, STRETCH};
use crate::paper::SHORTEST;

const ACTIVE: u8 = configuration::ACTIVE;
/// Sends with the link down too.
const UNIDIRECTIONAL: u8 = ACTIVE | configuration::UNIDIRECTIONAL;

pub fn stretch_scripts() -> Vec<Uncounted> {
    let phases = 0..usize::from(SECOND);
    let each = |phase| (1..=STRETCH + 1).flat_map(move |ticks| scripts(phase, ticks));
    phases.flat_map(each).collect()
}

/// So many ticks behind the ten frames in every way: the link up, each but for a
/// refused one before it, and the link down at the first or at the last of them.
fn scripts(phase: usize, ticks: usize) -> Vec<Uncounted> {
    let (more, fewer) = (ticks.div_ceil(2), ticks / 2);
    let refused = vec![vec![refused_tick(), Turn::with_room(Call::Tick(0))]; ticks];
    let at_first = [down_for(more), vec![Call::Tick(0); fewer]];
    let at_last = [vec![Call::Tick(0); fewer], down_for(more)];
    let [at_first, at_last] = [at_first, at_last].map(|calls| with_room(calls.concat()));
    let ways = [
        (ACTIVE, with_room(vec![Call::Tick(0); ticks])),
        (ACTIVE, refused.concat()),
        (ACTIVE, at_first.clone()),
        (ACTIVE, at_last.clone()),
        (UNIDIRECTIONAL, at_first),
        (UNIDIRECTIONAL, at_last),
    ];
    let script = |(mode, between): (u8, Vec<Turn>)| {
        let turns = [
            with_room(ten_frames(phase)),
            between,
            with_room(vec![request()]),
        ];
        (settings(mode), turns.concat())
    };
    ways.into_iter().map(script).collect()
}

/// Ten frames in one interval, so many ticks from fresh: those of coming up, and
/// requests until one of them is too many.
fn ten_frames(phase: usize) -> Vec<Call> {
    let mut calls = vec![Call::Tick(0); phase];
    calls.extend(coming_up());
    calls.extend(vec![request(); usize::from(MOST_FRAMES) - 1]);
    calls
}

/// The calls that lead to SEND_ANY.
fn coming_up() -> [Call; 2] {
    [reported(Report::LinkUp), received(COMPLETE, local())]
}

/// Ticks with the link down, which then comes up.
fn down_for(ticks: usize) -> Vec<Call> {
    let mut calls = vec![reported(Report::LinkDown)];
    calls.extend(vec![Call::Tick(0); ticks]);
    calls.extend(coming_up());
    calls
}

/// A tick that is answered 9.
fn refused_tick() -> Turn {
    Turn {
        out: SHORTEST - 1,
        ..Turn::with_room(Call::Tick(0))
    }
}

fn request() -> Call {
    Call::Organization {
        oui: 1,
        octets: vec![7; 39],
    }
}
