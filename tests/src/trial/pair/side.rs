//! One of two ends, and what is known of it from outside: from the calls made of
//! it, their outcomes, and the frames it wrote, as the paper's reader reads them.

use super::link::Sent;
use crate::library::machine::{Call, Machine, Outcome, Setup, Turn, SHOWN_NUMBERS, STATE_OCTETS};
use crate::paper::machine::{
    Discovery, Report, Role, Settings, COMPLETE, LOST_LINK, MOST_FRAMES, STRETCH,
};
use crate::paper::{answer, read, Body, LONGEST, NUMBERS, PLAIN_EVENTS};
use crate::trial::report::Tally;

pub struct Side<'a> {
    library: &'a dyn Machine,
    pub settings: Settings,
    state: [u8; STATE_OCTETS],
    /// The State octet of its last outcome.
    octet: u8,
    in_send_any: bool,
    pub link_is_up: bool,
    /// Frames written in each tick interval from fresh on, the present one last.
    frames: Vec<u8>,
    /// Accepted ticks since a frame was accepted, if ever one was.
    silence: Option<usize>,
    /// It has sent a frame that says its discovery was complete.
    said_complete: bool,
    /// In its present stay in SEND_ANY it has received a rightful enable.
    enabled: bool,
}

/// What can be seen of an end.
#[derive(Clone, Copy, Debug, PartialEq, Eq, PartialOrd, Ord)]
pub enum Sight {
    FrameWritten,
    ResponseWritten,
    /// A notification of as many events as there may be.
    StormWritten,
    FrameAccepted,
    Refused,
    RefusedWith13,
    StretchFull,
    SendAnyBegun,
    SendAnyLeft,
    LinkLost,
    LoopBegun,
    LoopBegunWithSendAny,
    LoopingAfter49Ticks,
    LoopEndedByFrame,
    LoopEndedByTick,
    LoopEndedByReport,
}

impl Sight {
    pub const ALL: [Sight; 16] = [
        Sight::FrameWritten,
        Sight::ResponseWritten,
        Sight::StormWritten,
        Sight::FrameAccepted,
        Sight::Refused,
        Sight::RefusedWith13,
        Sight::StretchFull,
        Sight::SendAnyBegun,
        Sight::SendAnyLeft,
        Sight::LinkLost,
        Sight::LoopBegun,
        Sight::LoopBegunWithSendAny,
        Sight::LoopingAfter49Ticks,
        Sight::LoopEndedByFrame,
        Sight::LoopEndedByTick,
        Sight::LoopEndedByReport,
    ];
}

impl<'a> Side<'a> {
    pub fn fresh(library: &'a dyn Machine, setup: Setup) -> Result<Self, String> {
        let mut state = [0; STATE_OCTETS];
        match library.fresh(&setup, &mut state) {
            0 => Ok(Side {
                library,
                settings: setup.settings,
                state,
                octet: Role::Idle.octet(),
                in_send_any: false,
                link_is_up: false,
                frames: vec![0],
                silence: None,
                said_complete: false,
                enabled: false,
            }),
            other => Err(format!("oam_fresh {setup:x?} gives {other:#x}")),
        }
    }

    pub fn is_looping(&self) -> bool {
        self.octet == Role::Looping.octet()
    }

    /// Makes a call, and gives what was sent.
    pub fn turn(
        &mut self,
        turn: &Turn,
        is_rightful_enable: bool,
        sights: &mut Tally<Sight>,
    ) -> Result<Option<Sent>, String> {
        let mut out = [0; LONGEST];
        let (mut numbers, room) = (vec![0; turn.numbers], &mut out[..turn.out]);
        let number = self
            .library
            .call(&turn.call, &mut numbers, &mut self.state, room);
        let outcome = Outcome::of(number);
        let (was_any, was_looping) = (self.in_send_any, self.is_looping());
        self.octet = outcome.octet;
        if outcome.answer != answer::ACCEPTED {
            sights.count(Sight::Refused);
            return self.refused(&turn.call, outcome.answer, sights);
        }
        self.note(&turn.call);
        self.in_send_any = self.is_in_send_any();
        if !was_any || !self.in_send_any {
            self.enabled = false; // a stay begins, or there is none
        }
        self.enabled |= self.in_send_any && is_rightful_enable;
        let frame = out
            .get(..outcome.length)
            .ok_or("a length beyond the output")?;
        let sent = self.sent(frame, was_any)?;
        for sight in self.sights(&turn.call, was_any, was_looping, sent.is_some()) {
            sights.count(sight);
        }
        Ok(sent)
    }

    /// Nothing is sent. 13 is for requests that find ten frames in the stretch; that
    /// none of those is granted is the demand.
    fn refused(
        &self,
        call: &Call,
        answer: u8,
        sights: &mut Tally<Sight>,
    ) -> Result<Option<Sent>, String> {
        let limited = answer == answer::LIMIT;
        if limited {
            sights.count(Sight::RefusedWith13);
        }
        let written = self.written();
        match limited && !(call.is_request() && written == MOST_FRAMES) {
            true => Err(format!("{call} is 13, and frames written are {written}")),
            false => Ok(None),
        }
    }

    /// Notes an accepted call.
    fn note(&mut self, call: &Call) {
        match call {
            Call::Tick(_) => {
                self.silence = self.silence.map(|ticks| ticks + 1);
                self.frames.push(0);
            }
            Call::Receive(_) => self.silence = Some(0),
            Call::Report(number) if *number == Report::LinkUp as u8 => self.link_is_up = true,
            Call::Report(number) if *number == Report::LinkDown as u8 => self.link_is_up = false,
            _ => {}
        }
    }

    /// Notes a written frame.
    fn sent(&mut self, frame: &[u8], was_any: bool) -> Result<Option<Sent>, String> {
        if frame.is_empty() {
            return Ok(None);
        }
        let message = read(frame).map_err(|answer| format!("a written frame reads as {answer}"))?;
        *self.frames.last_mut().expect("an interval") += 1;
        let field = (message.flags >> 3 & 3) as u8;
        self.said_complete |= field == COMPLETE;
        let enable = Body::Loopback { command: 1 };
        let in_send_any = was_any && self.in_send_any;
        Ok(Some(Sent {
            is_rightful_enable: message.body == enable && in_send_any && self.settings.is_active(),
            frame: frame.to_vec(),
        }))
    }

    /// Asks by a request that is refused for its output, if for nothing else:
    /// only outside SEND_ANY the answer is 11.
    fn is_in_send_any(&self) -> bool {
        let probe = Call::Organization {
            oui: 0,
            octets: vec![0; 39],
        };
        let mut state = self.state;
        let number = self.library.call(&probe, &mut [], &mut state, &mut []);
        Outcome::of(number).answer != answer::NOT_SEND_ANY
    }

    fn sights(&self, call: &Call, was_any: bool, was_looping: bool, wrote: bool) -> Vec<Sight> {
        let (any, looping) = (self.in_send_any, self.is_looping());
        let accepted = matches!(call, Call::Receive(_));
        let report = matches!(call, Call::Report(_));
        let (tick, ended) = (call.is_tick(), was_looping && !looping);
        let begun = looping && !was_looping;
        let silent = |ticks: u8| self.silence == Some(ticks.into());
        let full = self.written() == MOST_FRAMES;
        let most = NUMBERS * PLAIN_EVENTS;
        let storm = matches!(call, Call::Notify(events) if events.len() == most);
        let seen = [
            (Sight::FrameWritten, wrote),
            (
                Sight::ResponseWritten,
                wrote && matches!(call, Call::Respond(_)),
            ),
            (Sight::StormWritten, wrote && storm),
            (Sight::FrameAccepted, accepted),
            (Sight::StretchFull, wrote && full),
            (Sight::SendAnyBegun, any && !was_any),
            (Sight::SendAnyLeft, was_any && !any),
            (
                Sight::LinkLost,
                tick && was_any && !any && silent(LOST_LINK),
            ),
            (Sight::LoopBegun, begun),
            (Sight::LoopBegunWithSendAny, begun && !was_any),
            (
                Sight::LoopingAfter49Ticks,
                looping && tick && silent(LOST_LINK - 1),
            ),
            (Sight::LoopEndedByFrame, ended && accepted),
            (Sight::LoopEndedByTick, ended && tick),
            (Sight::LoopEndedByReport, ended && report),
        ];
        let seen = seen.into_iter().filter(|(_, holds)| *holds);
        seen.map(|(sight, _)| sight).collect()
    }

    /// The newest eleven intervals, the present one first. Every stretch of eleven is
    /// this one at some moment.
    fn newest(&self) -> impl Iterator<Item = u8> + '_ {
        self.frames.iter().rev().take(STRETCH).copied()
    }

    fn written(&self) -> u8 {
        self.newest().sum()
    }

    /// The same as they are shown, four bits each, the present one lowest.
    fn intervals(&self) -> u64 {
        let digits = self.newest().zip(0..);
        digits
            .map(|(frames, place)| u64::from(frames) << (4 * place))
            .sum()
    }

    /// The third demand, of this end.
    pub fn hold(&self, other: &Side) -> Result<(), String> {
        let numbers = self.shown()?;
        let any = numbers[27] == Discovery::SendAny as u64;
        let looping = self.is_looping();
        let recent = self.silence.is_some_and(|ticks| ticks < LOST_LINK.into());
        let demands = [
            (
                "an end that loops is in SEND_ANY",
                !looping || self.in_send_any,
            ),
            (
                "an end that loops has received an enable",
                !looping || self.enabled,
            ),
            (
                "each end has said that its discovery was complete",
                !looping || (self.said_complete && other.said_complete),
            ),
            ("fewer than fifty ticks have passed", !looping || recent),
            ("discovery as it is shown", any == self.in_send_any),
            (
                "the role as it is shown",
                (numbers[19] == Role::Looping as u64) == looping,
            ),
        ];
        let mut demands = demands.into_iter().chain(self.limits(&numbers));
        match demands.find(|(_, holds)| !holds) {
            None => Ok(()),
            Some((demand, _)) => Err(format!(
                "this does not hold: {demand}; frames written {}, silence {:?}, numbers {numbers:?}",
                self.written(),
                self.silence
            )),
        }
    }

    /// The demand's limit, and the numbers that speak of it.
    fn limits(&self, numbers: &[u64; SHOWN_NUMBERS]) -> [(&'static str, bool); 3] {
        let written = self.written();
        [
            (
                "ten frames over eleven tick intervals",
                written <= MOST_FRAMES,
            ),
            (
                "the number of frames written",
                numbers[21] == written.into(),
            ),
            (
                "the intervals as they are shown",
                numbers[28] == self.intervals(),
            ),
        ]
    }

    fn shown(&self) -> Result<[u64; SHOWN_NUMBERS], String> {
        let mut numbers = [0; SHOWN_NUMBERS];
        match self.library.show(&self.state, &mut numbers) {
            0 => Ok(numbers),
            other => Err(format!("oam_show gives {other:#x}")),
        }
    }
}
