//! Scripts for what chance would hardly find.

use super::counts::Counts;
use super::responding::responding_scripts;
use super::storms::storm_scripts;
use super::stretch::stretch_scripts;
use super::windows::{any_windows, windows_scripts};
use super::wraps::{local, received, stretch_of_ticks};
use crate::library::machine::{Call, Setup, Turn};
use crate::paper::machine::{configuration, Report, Settings, LOST_LINK, MOST_FRAMES, SECOND};
use crate::paper::Body;
use crate::random::Random;

/// A script: what its fresh end is given, and its calls.
pub type Directed = (Setup, Vec<Turn>);

/// A script that is not about windows, and has neither them nor counts yet.
pub type Uncounted = (Settings, Vec<Turn>);

/// For ends of every mode: a link without a peer is lost, with and without a frame
/// owed; one is owed while a link that is down comes up; a peer's field is kept
/// before there is a record of it. And the scripts of responses, of storms and of the
/// limit, all with any windows and counts, and the scripts of windows with theirs.
pub fn directed_scripts(random: &mut Random) -> Vec<Directed> {
    let modes = 0..=configuration::ACTIVE | configuration::UNIDIRECTIONAL;
    let each = |mode| {
        let calls = [
            lost_link(Vec::new()),
            lost_link(flags_changed()),
            owed_at_link_up(),
            field_first(),
        ];
        calls.map(|calls| (settings(mode), with_room(calls)))
    };
    let scripts = modes.flat_map(each).chain(responding_scripts());
    let scripts = scripts.chain(storm_scripts()).chain(stretch_scripts());
    let mut scripts: Vec<Directed> = scripts.map(|script| counted(random, script)).collect();
    scripts.extend(windows_scripts());
    scripts
}

/// The script with any windows, and a count at each of its ticks.
fn counted(random: &mut Random, (settings, turns): Uncounted) -> Directed {
    let windows = any_windows(random);
    let mut counts = Counts::default();
    let turns = turns.into_iter().map(|turn| counts.on(random, turn));
    (Setup { settings, windows }, turns.collect())
}

pub fn with_room(calls: Vec<Call>) -> Vec<Turn> {
    calls.into_iter().map(Turn::with_room).collect()
}

/// The link is lost at a tick that is no tenth one, just behind `last`.
fn lost_link(last: Vec<Call>) -> Vec<Call> {
    let mut calls = vec![Call::Tick(0); 3];
    calls.push(reported(Report::LinkUp));
    calls.extend(vec![Call::Tick(0); usize::from(LOST_LINK) - 1]);
    calls.extend(last);
    calls.extend(stretch_of_ticks());
    calls
}

fn owed_at_link_up() -> Vec<Call> {
    let mut calls = flags_changed();
    calls.push(reported(Report::LinkUp));
    calls.extend(stretch_of_ticks());
    calls
}

/// The fields 1 and 2 come without a Local TLV, then one comes with field 3.
fn field_first() -> Vec<Call> {
    let mut calls = vec![reported(Report::LinkUp)];
    for field in [1, 2] {
        calls.push(received(field << 3, Body::Information(Vec::new())));
        calls.extend(vec![Call::Tick(0); SECOND.into()]);
    }
    calls.push(received(3 << 3, local()));
    calls
}

/// Changes of the flags, one more than there may be frames.
fn flags_changed() -> Vec<Call> {
    let changes = [Report::DyingGaspSet, Report::DyingGaspCleared];
    let changes = changes.into_iter().cycle().map(reported);
    changes.take(usize::from(MOST_FRAMES) + 1).collect()
}

pub fn reported(report: Report) -> Call {
    Call::Report(report as u8)
}

pub fn settings(mode: u8) -> Settings {
    Settings {
        configuration: mode,
        size: 64,
        oui: 1,
        vendor: 2,
        source: 3,
        required: 0,
    }
}
