//! A machine with one slip.

mod limit;
mod responding;
mod skips;
mod storms;
mod windows;

use crate::library::machine::{
    Call, Machine, Outcome, Setup, State, RECEIVED, SHOWN_NUMBERS, STATE_OCTETS,
};
use crate::library::ByPaper;
use crate::paper::machine::{
    configuration, Breach, Discovery, End, Report, Role, COMPLETE, LOST_LINK, MOST_FRAMES,
    SMALLEST_SIZE,
};
use crate::paper::{answer, check, code, joined, read, Body, Heading, LONGEST, SHORTEST};
use crate::trial::tests::miscount::Miscount;
use std::cell::Cell;

#[derive(Clone, Copy, Debug, PartialEq, Eq)]
pub enum Slip {
    LosesTheLinkAt49,
    LosesTheLinkAt51,
    RefusedFrameRestartsTheCount,
    RefusedTickCounts,
    Field3Overwrites,
    EnableObeyedBeforeSendAny,
    EnableObeyedAtEqualAddress,
    LoopsWithoutEnable,
    NineFrames,
    ElevenFrames,
    RoleKeptOutsideSendAny,
    NoRevisionAtLinkDown,
    RequestSettlesWhatIsOwed,
    OwedWhereNotAllowed,
    RepeatsShowEvents,
    RepeatStoresItsNumber,
    KeptFieldSentWithoutRecord,
    RemoteStateAsReceived,
    ClearsOutput,
    CopiesItsBuffer,
    RefusalStoresHeader,
    RefusalHasNoOctet,
    DiscoveryBeforeValues,
    LimitBeforeSize,
    TakesSize63,
    TakesLongerStates,
    BadStateClearsOutput,
    ShowsNothingOwed,
    ShowsWithLessRoom,
    LostLinkOwesInActiveSendLocal,
    LostLinkDropsWhatIsOwed,
    LinkDownClearsTheCount,
    LinkUpKeepsTheCount,
    RecordActsAtStart,
    DisableNeedsAnActivePeer,
    StartNeedsNoLoopbackOfThePeer,
    FirstNumberIs1,
    NumberWrapsTo1,
    RevisionStopsAt65535,
    EventKeptOutsideSendAny,
    EventKeptOverFault,
    OnlyTheOwnSizeCounts,
    ReadsBeforeOutput,
    LoopsWithoutBit2,
    PassiveEndAsks,
    TakesLoopingWithoutBit2,
    TakesAskingOfAPassiveEnd,
    TakesEventsWithoutRecord,
    TakesTenTicks,
    TakesElevenFrames,
    TakesBit44,
    IntervalsLittleEndian,
    ShortHeaderHasNoOctet,
    UnknownReportHasNoOctet,
    HeaderBeforeState,
    OutputBeforeReport,
    RefusesSixteenEvents,
    TakesSeventeenEvents,
    WritesFourEvents,
    SizeBeforeNumberOfEvents,
    Miscounts(Miscount),
    NoneSkippedWithLinkDown,
    NoneSkippedOutsideSendAny,
    NoneSkippedInRepeats,
    SkippedLeftFromBefore,
    AboveThresholdOnly,
    TotalNotGrown,
    ItselfNotCounted,
    SecondFromNextTick,
    CutOneLess,
    WindowOneLonger,
    TotalsOfEventsOnly,
    ErrorsThatWrap,
    WindowsStopWithTheLinkDown,
    RefusedTickTakesItsCount,
    Type4First,
    TimestampBeforeTheTick,
    ErrorTotalsStop,
    EventTotalsStop,
    ThirteenNumbersTaken,
    ClearsNumbersBehindEvents,
    RefusalStoresEvents,
    ArisenNotTold,
    LinkUpBeginsWindowsAnew,
    TakesWindow9,
    TakesWindow601,
    TakesWindow105,
    TakesThreshold0,
    TakesThresholdsBeyond,
    TakesFullWindows,
    TakesErrorsAtTheStart,
    TakesBadBetweenSeconds,
    TakesAnotherPhase,
    EventsBeforeState,
    TimerSecond,
    TenIntervals,
    TwelveIntervals,
    RefusedTickOpensAnInterval,
    LinkDownTicksOpenNone,
    DueWrittenAsEleventh,
    DueLostWhereFull,
    TicksFrameInTheIntervalBefore,
    Width128As80,
    IndicationWithoutBit7,
    FcsNotCounted,
    GoesOnAfterTheFirst,
    TwiceAtTheFirstOnly,
    Bit3ForBit4,
    Takes499Descriptors,
    TakesOneValueOctetLess,
    TakesOneValueOctetMore,
    ResponseGives12,
    ActiveEndAnswersAPassivePeer,
}

impl Slip {
    pub const ALL: [Slip; 117] = [
        Slip::LosesTheLinkAt49,
        Slip::LosesTheLinkAt51,
        Slip::RefusedFrameRestartsTheCount,
        Slip::RefusedTickCounts,
        Slip::Field3Overwrites,
        Slip::EnableObeyedBeforeSendAny,
        Slip::EnableObeyedAtEqualAddress,
        Slip::LoopsWithoutEnable,
        Slip::NineFrames,
        Slip::ElevenFrames,
        Slip::RoleKeptOutsideSendAny,
        Slip::NoRevisionAtLinkDown,
        Slip::RequestSettlesWhatIsOwed,
        Slip::OwedWhereNotAllowed,
        Slip::RepeatsShowEvents,
        Slip::RepeatStoresItsNumber,
        Slip::KeptFieldSentWithoutRecord,
        Slip::RemoteStateAsReceived,
        Slip::ClearsOutput,
        Slip::CopiesItsBuffer,
        Slip::RefusalStoresHeader,
        Slip::RefusalHasNoOctet,
        Slip::DiscoveryBeforeValues,
        Slip::LimitBeforeSize,
        Slip::TakesSize63,
        Slip::TakesLongerStates,
        Slip::BadStateClearsOutput,
        Slip::ShowsNothingOwed,
        Slip::ShowsWithLessRoom,
        Slip::LostLinkOwesInActiveSendLocal,
        Slip::LostLinkDropsWhatIsOwed,
        Slip::LinkDownClearsTheCount,
        Slip::LinkUpKeepsTheCount,
        Slip::RecordActsAtStart,
        Slip::DisableNeedsAnActivePeer,
        Slip::StartNeedsNoLoopbackOfThePeer,
        Slip::FirstNumberIs1,
        Slip::NumberWrapsTo1,
        Slip::RevisionStopsAt65535,
        Slip::EventKeptOutsideSendAny,
        Slip::EventKeptOverFault,
        Slip::OnlyTheOwnSizeCounts,
        Slip::ReadsBeforeOutput,
        Slip::LoopsWithoutBit2,
        Slip::PassiveEndAsks,
        Slip::TakesLoopingWithoutBit2,
        Slip::TakesAskingOfAPassiveEnd,
        Slip::TakesEventsWithoutRecord,
        Slip::TakesTenTicks,
        Slip::TakesElevenFrames,
        Slip::TakesBit44,
        Slip::IntervalsLittleEndian,
        Slip::ShortHeaderHasNoOctet,
        Slip::UnknownReportHasNoOctet,
        Slip::HeaderBeforeState,
        Slip::OutputBeforeReport,
        Slip::RefusesSixteenEvents,
        Slip::TakesSeventeenEvents,
        Slip::WritesFourEvents,
        Slip::SizeBeforeNumberOfEvents,
        Slip::Miscounts(Miscount::KnownToo),
        Slip::Miscounts(Miscount::BehindEnd),
        Slip::Miscounts(Miscount::EndToo),
        Slip::Miscounts(Miscount::Anew),
        Slip::Miscounts(Miscount::In8Bits),
        Slip::NoneSkippedWithLinkDown,
        Slip::NoneSkippedOutsideSendAny,
        Slip::NoneSkippedInRepeats,
        Slip::SkippedLeftFromBefore,
        Slip::AboveThresholdOnly,
        Slip::TotalNotGrown,
        Slip::ItselfNotCounted,
        Slip::SecondFromNextTick,
        Slip::CutOneLess,
        Slip::WindowOneLonger,
        Slip::TotalsOfEventsOnly,
        Slip::ErrorsThatWrap,
        Slip::WindowsStopWithTheLinkDown,
        Slip::RefusedTickTakesItsCount,
        Slip::Type4First,
        Slip::TimestampBeforeTheTick,
        Slip::ErrorTotalsStop,
        Slip::EventTotalsStop,
        Slip::ThirteenNumbersTaken,
        Slip::ClearsNumbersBehindEvents,
        Slip::RefusalStoresEvents,
        Slip::ArisenNotTold,
        Slip::LinkUpBeginsWindowsAnew,
        Slip::TakesWindow9,
        Slip::TakesWindow601,
        Slip::TakesWindow105,
        Slip::TakesThreshold0,
        Slip::TakesThresholdsBeyond,
        Slip::TakesFullWindows,
        Slip::TakesErrorsAtTheStart,
        Slip::TakesBadBetweenSeconds,
        Slip::TakesAnotherPhase,
        Slip::EventsBeforeState,
        Slip::TimerSecond,
        Slip::TenIntervals,
        Slip::TwelveIntervals,
        Slip::RefusedTickOpensAnInterval,
        Slip::LinkDownTicksOpenNone,
        Slip::DueWrittenAsEleventh,
        Slip::DueLostWhereFull,
        Slip::TicksFrameInTheIntervalBefore,
        Slip::Width128As80,
        Slip::IndicationWithoutBit7,
        Slip::FcsNotCounted,
        Slip::GoesOnAfterTheFirst,
        Slip::TwiceAtTheFirstOnly,
        Slip::Bit3ForBit4,
        Slip::Takes499Descriptors,
        Slip::TakesOneValueOctetLess,
        Slip::TakesOneValueOctetMore,
        Slip::ResponseGives12,
        Slip::ActiveEndAnswersAPassivePeer,
    ];

    /// Those in what only a response does: the last ones.
    pub fn in_responses() -> impl Iterator<Item = Slip> {
        Slip::ALL.into_iter().skip_while(Slip::is_before_responses)
    }

    /// Those in the limit over eleven intervals: the ones before them.
    pub fn in_limit() -> impl Iterator<Item = Slip> {
        let others = |slip: &Slip| *slip != Slip::TimerSecond;
        let limit = Slip::ALL.into_iter().skip_while(others);
        limit.take_while(Slip::is_before_responses)
    }

    /// Those in the number of events that a notification takes: the ones before what a
    /// receive shows.
    pub fn in_storms() -> impl Iterator<Item = Slip> {
        let others = |slip: &Slip| *slip != Slip::RefusesSixteenEvents;
        let storms = Slip::ALL.into_iter().skip_while(others);
        storms.take_while(|slip| *slip != Slip::Miscounts(Miscount::KnownToo))
    }

    /// Those in what a receive shows of TLVs that are skipped: the ones before a
    /// tick's.
    pub fn in_skips() -> impl Iterator<Item = Slip> {
        let others = |slip: &Slip| *slip != Slip::Miscounts(Miscount::KnownToo);
        let skips = Slip::ALL.into_iter().skip_while(others);
        skips.take_while(|slip| *slip != Slip::AboveThresholdOnly)
    }

    /// Those in what a tick makes of its count.
    pub fn in_windows() -> impl Iterator<Item = Slip> {
        let others = |slip: &Slip| *slip != Slip::AboveThresholdOnly;
        let windows = Slip::ALL.into_iter().skip_while(others);
        windows.take_while(|slip| *slip != Slip::TakesWindow9)
    }

    fn is_before_responses(&self) -> bool {
        *self != Slip::Width128As80
    }

    /// The rules that ends break which it makes or takes.
    fn breaches(self) -> &'static [Breach] {
        match self {
            Slip::EnableObeyedBeforeSendAny | Slip::RoleKeptOutsideSendAny => {
                &[Breach::RoleOutsideSendAny, Breach::LoopingWithoutBit2]
            }
            Slip::LoopsWithoutEnable | Slip::LoopsWithoutBit2 | Slip::TakesLoopingWithoutBit2 => {
                &[Breach::LoopingWithoutBit2]
            }
            Slip::PassiveEndAsks | Slip::TakesAskingOfAPassiveEnd => &[Breach::AskingOfAPassiveEnd],
            Slip::OwedWhereNotAllowed => &[Breach::OwedWhereNotAllowed],
            Slip::EventKeptOverFault => &[Breach::PeerKeptWithLinkDown, Breach::EventWithoutRecord],
            Slip::EventKeptOutsideSendAny | Slip::TakesEventsWithoutRecord => {
                &[Breach::EventWithoutRecord]
            }
            _ => &[],
        }
    }
}

/// The paper's machine with one slip.
pub struct Slipping {
    slip: Slip,
    /// The lost-link count stood still once.
    late: Cell<bool>,
    /// Frames of the interval that was the oldest before the last tick.
    twelfth: Cell<u8>,
    /// TLVs skipped in the last frame.
    left: Cell<u64>,
}

impl Machine for Slipping {
    fn fresh(&self, setup: &Setup, state: &mut [u8]) -> u64 {
        let mut setup = *setup;
        if self.slip == Slip::TakesSize63 && setup.settings.size == 63 {
            setup.settings.size = 64;
        }
        windows::set_up(self.slip, &mut setup.windows);
        self.twelfth.set(0);
        self.left.set(0);
        ByPaper.fresh(&setup, state)
    }

    fn call(&self, call: &Call, numbers: &mut [u64], state: &mut [u8], out: &mut [u8]) -> u64 {
        let length = state.len();
        let state = match self.slip {
            Slip::TakesLongerStates => &mut state[..length.min(STATE_OCTETS)],
            _ => state,
        };
        let Some(held) = self.unpacked(state) else {
            return self.bad_state(call, numbers, out);
        };
        let (before, mut watch) = (held.end, held.watch.numbers());
        let (mut end, mut given) = (before, call.clone());
        self.prepare(&mut end, &mut given);
        if responding::gives_12(self.slip, &end, &given) {
            return u64::from(answer::SIZE) | u64::from(end.role.octet()) << 40;
        }
        let mut working = State { end, ..held };
        let outcome = windows::called(self.slip, &mut working, &given, numbers, out, &mut watch);
        let mut after = working.end;
        let Outcome { answer, length, .. } = Outcome::of(outcome);
        let outcome = if answer == answer::ACCEPTED {
            self.restore(&before, &end, call, &mut after, numbers);
            limit::accepted(self.slip, &before, &end, call, &mut after);
            self.note_tick(call, &before);
            self.accepted(&before, call, &mut after);
            self.stored(&after, call, length, numbers, out);
            self.recount(&before, call, &after, Outcome::of(outcome).shown, numbers);
            outcome & !(0xFF << 40) | u64::from(after.role.octet()) << 40
        } else {
            after = before;
            self.refused(&mut after, call, outcome, numbers, out)
        };
        state.copy_from_slice(&limit::packed(self.slip, &after, &watch));
        outcome
    }

    fn show(&self, state: &[u8], numbers: &mut [u64]) -> u64 {
        if self.slip == Slip::ShowsWithLessRoom && numbers.len() == SHOWN_NUMBERS - 1 {
            return answer::ACCEPTED.into();
        }
        let outcome = match self.unpacked(state) {
            Some(held) => held.show(numbers),
            None => answer::VALUES.into(),
        };
        if self.slip == Slip::ShowsNothingOwed && outcome == 0 {
            numbers[26] = 0;
        }
        outcome
    }
}

impl Slipping {
    pub fn new(slip: Slip) -> Self {
        Slipping {
            slip,
            late: Cell::new(false),
            twelfth: Cell::new(0),
            left: Cell::new(0),
        }
    }

    /// What is in a state, if it is taken.
    fn unpacked(&self, state: &[u8]) -> Option<State> {
        let mut mended: [u8; STATE_OCTETS] = state.try_into().ok()?;
        limit::mend(self.slip, &mut mended);
        windows::mend(self.slip, &mut mended);
        State::from_octets_with(&mended, self.slip.breaches())
    }

    /// Alters what the paper's machine is given.
    fn prepare(&self, end: &mut End, call: &mut Call) {
        limit::prepare(self.slip, self.twelfth.get(), call, end);
        match (self.slip, call) {
            (Slip::LosesTheLinkAt49, Call::Tick(_)) if end.lost_link == LOST_LINK - 2 => {
                end.lost_link += 1;
            }
            (Slip::LosesTheLinkAt51, Call::Tick(_)) if end.link_up => {
                let late = end.lost_link == LOST_LINK - 1 && !self.late.get();
                end.lost_link -= u8::from(late);
                self.late.set(late);
            }
            (Slip::Field3Overwrites, Call::Receive(frame)) if has_field_3(frame) => {
                frame[16] &= !0x18;
            }
            (Slip::EnableObeyedAtEqualAddress, Call::Receive(frame))
                if is_command(frame, 1) && joined(&frame[6..12]) == end.settings.source =>
            {
                let lower = end.settings.source.saturating_sub(1).to_be_bytes();
                frame[6..12].copy_from_slice(&lower[2..]);
            }
            (Slip::RepeatsShowEvents, Call::Receive(frame)) if is_notification(frame) => {
                end.last_event = None;
            }
            (Slip::PassiveEndAsks, Call::Start) => {
                end.settings.configuration |= configuration::ACTIVE;
            }
            (slip, call @ Call::Respond(_)) => {
                self.prepare_peer(end);
                responding::prepare(slip, end, call);
            }
            (slip, Call::Notify(events)) => {
                self.prepare_peer(end);
                storms::prepare(slip, events);
            }
            (_, call) if call.is_request() => self.prepare_peer(end),
            _ => {}
        }
    }

    /// Alters the refusal of a state that is none.
    fn bad_state(&self, call: &Call, numbers: &[u64], out: &mut [u8]) -> u64 {
        if self.slip == Slip::BadStateClearsOutput {
            out.fill(0);
        }
        let short = numbers.len() < call.least_numbers();
        match (self.slip, call) {
            (Slip::HeaderBeforeState, Call::Receive(_))
            | (Slip::EventsBeforeState, Call::Tick(_))
                if short =>
            {
                answer::OUTPUT.into()
            }
            _ => answer::VALUES.into(),
        }
    }

    /// Alters the record for a request.
    fn prepare_peer(&self, end: &mut End) {
        let Some(peer) = &mut end.peer else {
            return;
        };
        match self.slip {
            Slip::OnlyTheOwnSizeCounts if peer.maximum_size() >= SMALLEST_SIZE => {
                peer.pdu_configuration |= 0x07FF;
            }
            Slip::StartNeedsNoLoopbackOfThePeer => peer.configuration |= configuration::LOOPBACK,
            _ => {}
        }
    }

    /// Takes back what was altered, where the call did not overwrite it.
    fn restore(&self, before: &End, given: &End, call: &Call, after: &mut End, header: &mut [u64]) {
        after.settings = before.settings;
        if after.peer == given.peer {
            after.peer = before.peer;
        }
        if let Call::Receive(frame) = call {
            header[0] = joined(&frame[6..12]);
            header[1] = joined(&frame[15..17]);
        }
    }

    fn note_tick(&self, call: &Call, before: &End) {
        if call.is_tick() {
            self.twelfth.set(limit::oldest(before));
        }
    }

    /// Alters the end that an accepted call leaves.
    fn accepted(&self, before: &End, call: &Call, after: &mut End) {
        match call {
            Call::Tick(_) => self.ticked(before, after),
            Call::Report(number) => self.reported(*number, before, after),
            Call::Receive(frame) => self.received(frame, before, after),
            _ => self.requested(call, before, after),
        }
        let any = |end: &End| end.discovery == Discovery::SendAny;
        match self.slip {
            Slip::RoleKeptOutsideSendAny if any(before) && !any(after) => after.role = before.role,
            Slip::OwedWhereNotAllowed if !after.allows_information() => after.owed = before.owed,
            Slip::EventKeptOverFault if after.last_event.is_none() => {
                after.last_event = before.last_event;
            }
            Slip::RevisionStopsAt65535 if before.revision == u16::MAX => {
                after.revision = before.revision;
            }
            _ => {}
        }
    }

    fn ticked(&self, before: &End, after: &mut End) {
        let lost = after.lost_link < before.lost_link;
        let lost_alone = lost && before.discovery == Discovery::ActiveSendLocal;
        match self.slip {
            Slip::LostLinkOwesInActiveSendLocal if lost_alone => after.owed = true,
            Slip::LostLinkDropsWhatIsOwed if lost_alone => after.owed = false,
            _ => {}
        }
    }

    fn reported(&self, number: u8, before: &End, after: &mut End) {
        let down = number == Report::LinkDown as u8;
        match self.slip {
            Slip::NoRevisionAtLinkDown if down => after.revision = before.revision,
            Slip::LinkDownClearsTheCount if down => after.lost_link = 0,
            Slip::LinkUpKeepsTheCount => after.lost_link = before.lost_link,
            _ => {}
        }
    }

    fn received(&self, frame: &[u8], before: &End, after: &mut End) {
        let any = after.discovery == Discovery::SendAny;
        let passive_peer = after.peer.is_some_and(|peer| !peer.is_active());
        match self.slip {
            Slip::EnableObeyedBeforeSendAny if is_command(frame, 1) && after.link_up => {
                after.role = Role::Looping;
            }
            Slip::LoopsWithoutEnable if any => after.role = Role::Looping,
            Slip::LoopsWithoutBit2 if any && is_command(frame, 1) && before.role == Role::Idle => {
                after.role = Role::Looping;
            }
            Slip::DisableNeedsAnActivePeer if any && is_command(frame, 2) && passive_peer => {
                after.role = before.role;
            }
            Slip::EventKeptOutsideSendAny if is_notification(frame) && after.link_up => {
                after.last_event = Some(joined(&frame[18..20]) as u16);
            }
            _ => {}
        }
    }

    fn requested(&self, call: &Call, before: &End, after: &mut End) {
        let looped = |end: &End| end.peer.is_some_and(|peer| peer.state & 7 == 5);
        match (self.slip, call) {
            (Slip::RequestSettlesWhatIsOwed, _) => after.owed = false,
            (Slip::RecordActsAtStart, Call::Start) if looped(before) => after.role = Role::Holding,
            (Slip::NumberWrapsTo1, Call::Notify(_)) if after.event_number == 0 => {
                after.event_number = 1;
            }
            _ => {}
        }
    }

    /// Alters what an accepted call stores.
    fn stored(&self, after: &End, call: &Call, length: usize, header: &mut [u64], out: &mut [u8]) {
        let wrote_information = length > 0 && out[17] == code::INFORMATION;
        match (self.slip, call) {
            (Slip::RepeatStoresItsNumber, Call::Receive(frame)) if is_notification(frame) => {
                header[3] = joined(&frame[18..20]);
            }
            (Slip::FirstNumberIs1, Call::Notify(_)) => {
                out[18..20].copy_from_slice(&after.event_number.to_be_bytes());
            }
            (Slip::KeptFieldSentWithoutRecord, _) if wrote_information => {
                out[16] |= after.kept_field.min(COMPLETE) << 5;
            }
            (Slip::RemoteStateAsReceived, _) if wrote_information && out[34] == 2 => {
                out[39] = after.peer.map_or(0, |peer| peer.state);
            }
            (Slip::ClearsOutput, _) => out[length..].fill(0),
            (Slip::CopiesItsBuffer, _) if out.len() == LONGEST => out[length..].fill(0),
            (slip, Call::Respond(_)) => responding::stored(slip, &mut out[..length]),
            _ => {}
        }
    }

    /// Alters a refusal.
    fn refused(
        &self,
        end: &mut End,
        call: &Call,
        outcome: u64,
        header: &mut [u64],
        out: &[u8],
    ) -> u64 {
        let answer = Outcome::of(outcome).answer;
        let (unknown, full) = (answer == answer::VALUES, end.written() == MOST_FRAMES);
        match (self.slip, call) {
            (Slip::ShortHeaderHasNoOctet, Call::Receive(_)) if header.len() < RECEIVED => {
                return answer.into();
            }
            (Slip::UnknownReportHasNoOctet, Call::Report(_)) if unknown => return answer.into(),
            (Slip::OutputBeforeReport, Call::Report(_)) if unknown && out.len() < SHORTEST => {
                return outcome - 1;
            }
            (Slip::RefusedFrameRestartsTheCount, Call::Receive(_)) => end.lost_link = 0,
            (Slip::RefusalStoresHeader, Call::Receive(_)) => header.fill(0),
            (Slip::RefusalHasNoOctet, _) => return answer.into(),
            (_, Call::Tick(_)) => self.refused_tick(end),
            (Slip::ReadsBeforeOutput, Call::Receive(frame)) if header.len() >= RECEIVED => {
                let reading = check(frame).err().unwrap_or(answer);
                return outcome - u64::from(answer) + u64::from(reading);
            }
            (Slip::DiscoveryBeforeValues, Call::Notify(_))
                if answer == answer::VALUES && end.discovery != Discovery::SendAny =>
            {
                return outcome + 1;
            }
            (slip, Call::Notify(events)) if storms::gives_12(slip, end, events) => {
                return outcome + 2;
            }
            (Slip::LimitBeforeSize, _) if answer == answer::SIZE && full => return outcome + 1,
            _ => {}
        }
        outcome
    }

    fn refused_tick(&self, end: &mut End) {
        match self.slip {
            Slip::RefusedTickCounts => end.ticks = (end.ticks + 1) % 10,
            Slip::RefusedTickOpensAnInterval => end.intervals = limit::turned(&end.intervals),
            _ => {}
        }
    }
}

fn has_field_3(frame: &[u8]) -> bool {
    check(frame).is_ok_and(|Heading { flags, .. }| flags & 0x18 == 0x18)
}

fn is_notification(frame: &[u8]) -> bool {
    check(frame).is_ok_and(|Heading { code, .. }| code == code::NOTIFICATION)
}

fn is_command(frame: &[u8], wanted: u8) -> bool {
    let body = read(frame).map(|message| message.body);
    matches!(body, Ok(Body::Loopback { command }) if command == wanted)
}
