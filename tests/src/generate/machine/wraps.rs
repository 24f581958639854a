//! One long script in which the revision, the event number and the timestamp pass
//! 65,535.

use crate::generate::encode;
use crate::library::machine::{Call, Setup};
use crate::paper::machine::{configuration, Report, Settings, MOST_FRAMES, STRETCH};
use crate::paper::windows::Windows;
use crate::paper::{Body, Information, Message, Part};

/// What its end is given; its peer has the same settings.
pub const WRAPPING: Setup = Setup {
    settings: Settings {
        configuration: configuration::ACTIVE | configuration::LOOPBACK,
        size: 1518,
        oui: 0x00_1B21,
        vendor: 0,
        source: 0x0200_0000_0001,
        required: 0,
    },
    windows: Windows {
        frame_window: 100,
        frame_threshold: 3,
        seconds_window: 200,
        seconds_threshold: 2,
    },
};

/// Its rounds: in each of them all notifications are written and all commands obeyed.
pub const WRAPPING_ROUNDS: usize = 65_536 / NOTIFICATIONS + 1;
/// One or two Information frames stand in the stretch beside them.
const NOTIFICATIONS: usize = MOST_FRAMES as usize - 2;
/// Enables and disables, as many as notifications.
const COMMANDS: usize = NOTIFICATIONS;

/// The calls that lead to SEND_ANY, and to room for the first round.
pub fn wrapping_start() -> Vec<Call> {
    let mut calls = vec![
        Call::Report(Report::LinkUp as u8),
        received(COMPLETE, local()),
    ];
    calls.extend(stretch_of_ticks());
    calls
}

/// The calls of one round.
pub fn wrapping_round() -> Vec<Call> {
    let event = vec![4, 1, 2, 3, 4, 5, 6];
    let mut calls = vec![Call::Notify(event); NOTIFICATIONS];
    let commands = [1, 2].into_iter().cycle().take(COMMANDS);
    calls.extend(commands.map(|command| received(COMPLETE, Body::Loopback { command })));
    calls.extend(stretch_of_ticks());
    calls
}

/// Ticks after which no frame counts that was written before them.
pub fn stretch_of_ticks() -> Vec<Call> {
    vec![Call::Tick(0); STRETCH]
}

/// The flags of a peer whose discovery is complete.
pub const COMPLETE: u16 = 0x0050;

/// The peer's Local TLV.
pub fn local() -> Body<'static> {
    Body::Information(vec![Part::Local(Information {
        version: 1,
        revision: 0,
        state: 0,
        configuration: WRAPPING.settings.configuration,
        pdu_configuration: WRAPPING.settings.size,
        oui: [0; 3],
        vendor: [0; 4],
    })])
}

/// A frame of the peer.
pub fn received(flags: u16, body: Body) -> Call {
    let source = [2, 0, 0, 0, 0, 2];
    let message = Message::without_skips(source, flags, body);
    Call::Receive(encode::plain(&message))
}
