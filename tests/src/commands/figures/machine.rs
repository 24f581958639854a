//! The archive's link machine beside the paper's, each call from the same state
//! every time. Of a tick the paper's end is taken, and windows with running sums.

use super::frames::{frame, storm, EVENTS};
use super::meter::Meter;
use crate::commands::Outcome;
use oam_tests::by_hand::windows::Watch;
use oam_tests::library::machine::{
    Call, Machine, Response, Setup, State, ARISEN, SHOWN_NUMBERS, STATE_OCTETS,
};
use oam_tests::library::Archive;
use oam_tests::paper::machine::{Discovery, Report, Role, Settings, LOST_LINK, SECOND};
use oam_tests::paper::windows::Windows;
use oam_tests::paper::{answer, code, BODY, LONGEST, MOST_ASKED, MOST_ATTRIBUTES};
use std::hint::black_box;

/// A passive end with loopback, events and retrieval; its peer is active. Both
/// windows are the shortest.
const SETUP: Setup = Setup {
    settings: Settings {
        configuration: 0x1C,
        size: 1518,
        oui: 0x00_1B21,
        vendor: 0xDEAD_BEEF,
        source: 0x0200_0000_0002,
        required: 0,
    },
    windows: Windows {
        frame_window: 10,
        frame_threshold: 1,
        seconds_window: 100,
        seconds_threshold: 1,
    },
};
/// A tick of a link without, and one of a link with bad frames.
const QUIET: Call = Call::Tick(0);
const BAD: Call = Call::Tick(3);

pub fn measure(meter: &mut impl Meter) -> Outcome {
    let any = Stand::in_send_any()?;
    let last = any.after(&vec![QUIET; usize::from(SECOND) - 1])?;
    let both = any.before_both_windows_end()?;
    let information = Call::Receive(frame(code::INFORMATION)?);
    let notification = Call::Receive(frame(code::NOTIFICATION)?);
    let enable = Call::Receive(frame(code::LOOPBACK)?);
    let broken = Call::Receive(broken()?);
    any.measure(meter, "tick that writes nothing", &BAD, (0, 0))?;
    any.measure(meter, "tick with count 0", &QUIET, (0, 0))?;
    last.measure(meter, "tenth tick that writes", &QUIET, (0, 60))?;
    both.measure(meter, "tick that ends both windows", &BAD, (0, 60))?;
    any.measure(
        meter,
        "receive Information, nothing owed",
        &information,
        (0, 0),
    )?;
    any.measure(
        meter,
        "receive Notification, four new events",
        &notification,
        (0, 0),
    )?;
    any.measure(
        meter,
        "receive Loopback enable, obey and write",
        &enable,
        (0, 60),
    )?;
    any.measure(
        meter,
        "receive a broken frame, answer 6",
        &broken,
        (answer::BROKEN, 0),
    )?;
    measure_requests(meter, &any)?;
    any.measure_show(meter);
    Ok(())
}

/// Notifications of a few events and of a storm; all eight counters of eight; and as many
/// answers as fit to the most that can be asked, where the most are held and none of those.
fn measure_requests(meter: &mut impl Meter, any: &Stand) -> Outcome {
    let notify = Call::Notify(EVENTS.concat());
    any.measure(meter, "notify of four events, granted", &notify, (0, 132))?;
    let notify = Call::Notify(storm());
    any.measure(meter, "notify of 16 events, granted", &notify, (0, 660))?;
    let counters = |count: u32| (1..=count).map(|leaf| 0x07_0000 | leaf);
    let eight = respond(counters(8), counters(8));
    any.measure(meter, "respond with 8 of 8", &eight, (0, 114))?;
    let unknown = vec![0x08_0001; MOST_ASKED];
    let full = respond(counters(MOST_ATTRIBUTES as u32), unknown.into_iter());
    any.measure(meter, "respond with 374 of 498 x 64", &full, (0, 1514))
}

/// A response of an end that holds counters of eight octets.
fn respond(held: impl Iterator<Item = u32>, asked: impl Iterator<Item = u32>) -> Call {
    let attributes: Vec<u32> = held.flat_map(|counter| [counter, 8]).collect();
    Call::Respond(Response {
        values: vec![0x5A; 8 * attributes.len() / 2],
        attributes,
        descriptors: asked.collect(),
    })
}

/// Information whose second TLV has no room for its fields.
fn broken() -> Result<Vec<u8>, String> {
    let mut frame = frame(code::INFORMATION)?;
    frame[BODY + 17] = 1; // the length of the second TLV
    Ok(frame)
}

/// The same state in the archive's octets and by the paper.
#[derive(Clone)]
pub struct Stand {
    pub state: [u8; STATE_OCTETS],
    paper: State,
}

impl Stand {
    fn fresh() -> Result<Self, String> {
        let mut state = [0; STATE_OCTETS];
        let paper = State::fresh(&SETUP).map_err(|answer| format!("fresh: {answer}"))?;
        match Archive.fresh(&SETUP, &mut state) {
            0 => Ok(Stand { state, paper }),
            outcome => Err(format!("oam_fresh answers {outcome}")),
        }
    }

    /// An end in SEND_ANY that owes nothing, its peer as the measured frames say.
    pub fn in_send_any() -> Result<Self, String> {
        let up = Call::Report(Report::LinkUp as u8);
        let peer = Call::Receive(frame(code::INFORMATION)?);
        let stand = Stand::fresh()?.after(&[up, peer])?;
        let end = &stand.paper.end;
        match end.discovery == Discovery::SendAny && end.role == Role::Idle && !end.owed {
            true => Ok(stand),
            false => Err(format!("the end is not in SEND_ANY: {end:?}")),
        }
    }

    /// The state in which the next tick ends both windows, with an event each, and
    /// writes. The peer is heard often enough.
    fn before_both_windows_end(&self) -> Result<Self, String> {
        let heard = Call::Receive(frame(code::INFORMATION)?);
        let ticks = SETUP.windows.seconds_window as usize - 1;
        let mut calls = Vec::new();
        for ticks in vec![BAD; ticks].chunks(usize::from(LOST_LINK) / 2) {
            calls.push(heard.clone());
            calls.extend_from_slice(ticks);
        }
        let stand = self.after(&calls)?;
        match stand.clone().step(&BAD)? >> 50 {
            2 => Ok(stand),
            arisen => Err(format!("{arisen} events arise where both windows end")),
        }
    }

    /// The state behind these calls.
    fn after(&self, calls: &[Call]) -> Result<Self, String> {
        let mut stand = self.clone();
        for call in calls {
            stand.step(call)?;
        }
        Ok(stand)
    }

    /// Makes a call on both sides, and gives its outcome.
    fn step(&mut self, call: &Call) -> Result<u64, String> {
        let (mut numbers, mut own_numbers) = ([0; ARISEN], [0; ARISEN]);
        let (mut out, mut own_out) = ([0; LONGEST], [0; LONGEST]);
        let outcome = Archive.call(call, &mut numbers, &mut self.state, &mut out);
        let expected = self.paper.call(call, &mut own_numbers, &mut own_out);
        let same = outcome == expected && numbers == own_numbers && out == own_out;
        match same && self.numbers() == self.paper.numbers() {
            true => Ok(outcome),
            false => Err(format!("{call} differs; see the command machine")),
        }
    }

    fn numbers(&self) -> [u64; SHOWN_NUMBERS] {
        let mut numbers = [0; SHOWN_NUMBERS];
        Archive.show(&self.state, &mut numbers);
        numbers
    }

    /// Measures a call that gives this answer and length. The archive's state is
    /// put back before each call, and so are windows; the paper's end leaves its own
    /// as it was.
    fn measure(
        &self,
        meter: &mut impl Meter,
        what: &str,
        call: &Call,
        (answer, length): (u8, u64),
    ) -> Outcome {
        let outcome = self.clone().step(call)?;
        if outcome & 0xFF_FFFF_FFFF != length << 8 | u64::from(answer) {
            return Err(format!("{what}: the outcome is {outcome:x}").into());
        }
        let (mut numbers, mut own_numbers) = ([0; ARISEN], [0; ARISEN]);
        let stands = Watch::at(&self.paper.watch.numbers());
        let (mut state, mut watch) = (self.state, stands);
        let (mut out, mut own_out) = ([0; LONGEST], [0; LONGEST]);
        meter.row(
            what,
            || {
                state = self.state;
                Archive.call(black_box(call), &mut numbers, &mut state, &mut out)
            },
            || {
                let call = black_box(call);
                let step = call.step(black_box(&self.paper.end), &mut own_out);
                watch = stands;
                let arisen = match call {
                    Call::Tick(count) => black_box(&mut watch).take(*count, &mut own_numbers),
                    _ => 0,
                };
                (step, arisen)
            },
        );
        Ok(())
    }

    fn measure_show(&self, meter: &mut impl Meter) {
        let mut numbers = [0; SHOWN_NUMBERS];
        meter.row(
            "show an end",
            || Archive.show(black_box(&self.state), &mut numbers),
            || black_box(&self.paper).numbers(),
        );
    }
}
