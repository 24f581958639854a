//! The paper's own library passes every trial, and one with a single slip fails
//! the trial that is there for it.

pub mod miscount;
mod storms;

use super::*;
use crate::library::{
    answer_of, kind, length_of, ByHand, ByPaper, Library, HEADER, HEADER_SKIPPED, ROW, ROW_SKIPPED,
};
use crate::paper::log::{read_up_to, FIELDS, OLD_LAST_POSITION};
use crate::paper::walk::next_container;
use crate::paper::{
    answer, asked, code, list, Draft, DraftBody, Listed, BODY, LONGEST, MOST_PARTS,
    PLAIN_CONTAINER_OCTETS, SHORTEST,
};
use miscount::Miscount;
use std::cell::Cell;
use storms::{log_read_up_to, seventeen_written};

const SEED: u64 = 57;

type Trying = fn(&dyn Library, u64, usize) -> Report;

#[test]
fn the_papers_library_passes() {
    let trials: [(Trying, usize); 3] = [(writers, 3_000), (reading, 40_000), (log, 3_000)];
    for (trial, times) in trials {
        let report = trial(&ByPaper, SEED, times);
        assert!(report.faults.is_empty(), "{:#?}", report.faults);
        assert!(!report.counts.is_empty());
    }
}

#[test]
fn the_hand_written_reading_passes() {
    let report = reading(&ByHand, SEED, 60_000);
    assert!(report.faults.is_empty(), "{:#?}", report.faults);
}

#[test]
fn too_few_calls_do_not_pass() {
    for trial in [writers, log] {
        let report = trial(&ByPaper, SEED, 1);
        let missed = |fault: &String| fault.starts_with("never reached: ");
        assert!(!report.faults.is_empty() && report.faults.iter().all(missed));
    }
}

/// The functions that are found to differ.
fn differing(trial: Trying, times: usize, slip: Slip) -> Vec<String> {
    let report = trial(&Slipping::new(slip), SEED, times);
    let name = |fault: &String| fault.split(':').next().map(String::from);
    let names = report.faults.iter().filter_map(name);
    names.filter(|name| name != "never reached").collect()
}

#[test]
fn each_slip_in_writing_is_found() {
    use Slip::*;
    for (slip, function) in [
        (ClearsOutput, "oam_write_loopback"),
        (CopiesItsBuffer, "oam_write_loopback"),
        (CopiesItsBuffer, "oam_write_information"),
        (WritesThenRefuses, "oam_write_loopback"),
        (KeepsPadding, "oam_write_loopback"),
        (LengthOffByOne, "oam_write_loopback"),
        (OutputBeforeValues, "oam_write_information"),
        (TakesCommandAsRefusal8, "oam_write_loopback"),
        (MasksSource, "oam_write_request"),
        (MasksFlags, "oam_write_organization"),
        (MasksState, "oam_write_information"),
        (MasksOui, "oam_write_organization"),
        (DropsRemoteAlone, "oam_write_information"),
        (DropsFurtherEvents, "oam_write_notification"),
        (MasksBranch, "oam_write_request"),
        (TakesEndBeforeLast, "oam_write_response"),
        (TakesEndAsLast, "oam_write_response"),
        (DropsCutContainer, "oam_write_response"),
        (DropsFurtherContainers, "oam_write_response"),
        (RefusesNoContainer, "oam_write_response"),
    ] {
        let found = differing(writers, 400, slip);
        assert!(
            found.iter().any(|name| name == function),
            "{slip:?}: {found:?}"
        );
    }
}

/// The slips of change request (vi).
#[test]
fn each_slip_in_storms_is_found() {
    use Slip::*;
    for slip in [RefusesSixteenEvents, TakesSeventeenEvents, WritesFourEvents] {
        let found = differing(writers, 1_000, slip);
        for function in ["oam_write_notification", "a frame, read and written again"] {
            assert!(
                found.iter().any(|name| name == function),
                "{slip:?}: {found:?}"
            );
        }
    }
}

#[test]
fn each_slip_in_reading_is_found() {
    use Slip::*;
    const BOTH: &[&str] = &["oam_read", "oam_read_all"];
    const ALL: &[&str] = &["oam_read_all"];
    for (slip, functions) in [
        (StoresRefusedHeader, BOTH),
        (StoresBehindHeader, BOTH),
        (MasksReadFlags, BOTH),
        (TakesShortHeader, BOTH),
        (FrameBeforeHeader, ALL),
        (HeaderOnlyWithRows, ALL),
        (StoresRefusedRows, ALL),
        (StoresBehindRows, ALL),
        (StoresCutRow, ALL),
        (KeepsRowEnd, ALL),
        (StoresAtOwnPlace, ALL),
        (RefusesShortRows, ALL),
        (CountsFromFirst, ALL),
        (CountsStored, ALL),
        (CountsSkipped, ALL),
        (CountsIn8Bits, ALL),
        (FirstIn8Bits, ALL),
        (FirstCountsSkipped, ALL),
        (GreatestFirstIsNone, ALL),
        (NextOffByOne, ALL),
        (WidthAsReceived, ALL),
        (WidthBeforeStart, ALL),
        (StartInBody, ALL),
        (RemoteAsLocal, ALL),
    ] {
        let found = differing(reading, 0, slip);
        for function in functions {
            assert!(
                found.iter().any(|name| name == function),
                "{slip:?} in {function}: {found:?}"
            );
        }
    }
}

/// The slips of change request (v). Only rows have a number beside a part.
#[test]
fn each_slip_in_counting_what_is_skipped_is_found() {
    let miscounts = Miscount::ALL.map(Slip::Miscounts).into_iter();
    for slip in miscounts.chain([Slip::CountsLeftFromBefore, Slip::CountsSkippedFromFirst]) {
        let rows_only = [
            Slip::CountsSkippedFromFirst,
            Slip::Miscounts(Miscount::TotalBeside),
        ];
        let functions: &[&str] = match rows_only.contains(&slip) {
            true => &["oam_read_all"],
            false => &["oam_read", "oam_read_all"],
        };
        let found = differing(reading, 0, slip);
        let of_calls = found.iter().filter(|name| name.starts_with("oam_"));
        assert_eq!(of_calls.collect::<Vec<_>>(), functions, "{slip:?}");
    }
}

#[test]
fn each_slip_in_reading_descriptors_is_found() {
    for slip in [
        Slip::StoresBeforeRoom,
        Slip::StoresBehindDescriptors,
        Slip::StoresWhatHasRoom,
        Slip::TakesOtherCodes,
        Slip::CodeBeforeFrame,
        Slip::RoomBeforeCode,
        Slip::RefusesNoDescriptor,
        Slip::CountsDescriptorsIn8Bits,
    ] {
        let found = differing(reading, 0, slip);
        assert_eq!(found, ["oam_descriptors"], "{slip:?}");
    }
}

/// Slips in reading are seen from the writers' side too.
#[test]
fn a_slip_in_reading_is_found_where_frames_are_read_back() {
    for slip in [Slip::NextOffByOne, Slip::RemoteAsLocal] {
        let found = differing(writers, 200, slip);
        let again = "a frame, read and written again";
        let back = "what was written, read back";
        assert!(
            found.iter().any(|name| name == again || name == back),
            "{slip:?}: {found:?}"
        );
    }
}

#[test]
fn each_slip_in_the_log_is_found() {
    use Slip::*;
    for (slip, function) in [
        (TakesLeadingZero, "oam_log_read"),
        (TakesCarriageReturn, "oam_log_read"),
        (TakesNoNewline, "oam_log_read"),
        (StoresRefusedValues, "oam_log_read"),
        (StoresBehindValues, "oam_log_read"),
        (TakesShortValues, "oam_log_read"),
        (MasksNumber, "oam_log_write"),
        (TakesPosition0, "oam_log_write"),
        (TakesPosition17, "oam_log_write"),
        (TakesPosition17, "oam_log_read"),
        (RefusesPosition16, "oam_log_write"),
        (RefusesPosition16, "oam_log_read"),
        (CutsPosition, "oam_log_write"),
        (CutsPosition, "oam_log_read"),
        (RefusesOldPositions, "a line, as the old build reads it"),
        (LogOutputBeforeValues, "oam_log_write"),
        (ClearsLogOutput, "oam_log_write"),
    ] {
        let found = differing(log, 400, slip);
        assert!(
            found.iter().any(|name| name == function),
            "{slip:?}: {found:?}"
        );
    }
}

#[derive(Clone, Copy, Debug, PartialEq, Eq)]
enum Slip {
    ClearsOutput,
    /// The frame is put together in a buffer of 1,514 octets, which is copied out whole
    /// where there is room for it.
    CopiesItsBuffer,
    WritesThenRefuses,
    KeepsPadding,
    LengthOffByOne,
    OutputBeforeValues,
    TakesCommandAsRefusal8,
    MasksSource,
    MasksFlags,
    MasksState,
    MasksOui,
    DropsRemoteAlone,
    DropsFurtherEvents,
    RefusesSixteenEvents,
    TakesSeventeenEvents,
    WritesFourEvents,
    MasksBranch,
    TakesEndBeforeLast,
    TakesEndAsLast,
    DropsCutContainer,
    DropsFurtherContainers,
    RefusesNoContainer,
    StoresRefusedHeader,
    StoresBehindHeader,
    MasksReadFlags,
    TakesShortHeader,
    FrameBeforeHeader,
    HeaderOnlyWithRows,
    StoresRefusedRows,
    StoresBehindRows,
    StoresCutRow,
    KeepsRowEnd,
    StoresAtOwnPlace,
    RefusesShortRows,
    CountsFromFirst,
    CountsStored,
    CountsSkipped,
    CountsIn8Bits,
    FirstIn8Bits,
    FirstCountsSkipped,
    GreatestFirstIsNone,
    NextOffByOne,
    WidthAsReceived,
    WidthBeforeStart,
    StartInBody,
    RemoteAsLocal,
    Miscounts(Miscount),
    /// In a body without TLVs the number stays that of the frame before it.
    CountsLeftFromBefore,
    /// Before the first part that is asked for nothing is counted.
    CountsSkippedFromFirst,
    StoresBeforeRoom,
    StoresBehindDescriptors,
    StoresWhatHasRoom,
    TakesOtherCodes,
    CodeBeforeFrame,
    RoomBeforeCode,
    RefusesNoDescriptor,
    CountsDescriptorsIn8Bits,
    TakesLeadingZero,
    TakesCarriageReturn,
    TakesNoNewline,
    StoresRefusedValues,
    StoresBehindValues,
    TakesShortValues,
    MasksNumber,
    TakesPosition0,
    TakesPosition17,
    RefusesPosition16,
    /// Its last digit is written, and one is read.
    CutsPosition,
    RefusesOldPositions,
    LogOutputBeforeValues,
    ClearsLogOutput,
}

/// The paper's library with one slip.
struct Slipping {
    slip: Slip,
    /// TLVs skipped in the last frame.
    left: Cell<u64>,
}

impl Library for Slipping {
    fn write(&self, draft: &Draft, out: &mut [u8]) -> u64 {
        if let (Slip::RefusesNoContainer, DraftBody::Response { containers }) =
            (self.slip, &draft.body)
        {
            if containers.is_empty() {
                return answer::VALUES.into();
            }
        }
        if self.slip == Slip::TakesSeventeenEvents {
            if let Some(outcome) = seventeen_written(draft, out) {
                return outcome;
            }
        }
        let before = out.to_vec();
        let outcome = ByPaper.write(&self.masked(draft), out);
        let (answer, length) = (answer_of(outcome), (outcome >> 8) as usize);
        match (self.slip, answer) {
            (Slip::ClearsOutput, answer::ACCEPTED) => out[length..].fill(0),
            (Slip::CopiesItsBuffer, answer::ACCEPTED) if out.len() == LONGEST => {
                out[length..].fill(0);
            }
            (Slip::WritesThenRefuses, answer::OUTPUT) => out.fill(0),
            (Slip::KeepsPadding, answer::ACCEPTED) if draft.body.code() == code::LOOPBACK => {
                out[19..length].copy_from_slice(&before[19..length]);
            }
            (Slip::LengthOffByOne, answer::ACCEPTED) => return outcome + 0x100,
            (Slip::OutputBeforeValues, answer::VALUES) if out.len() < 60 => {
                return answer::OUTPUT.into()
            }
            (Slip::TakesCommandAsRefusal8, answer::VALUES) => return answer::COMMAND.into(),
            _ => {}
        }
        outcome
    }

    fn log_write(&self, number: u64, position: u64, event: &[u64], out: &mut [u8]) -> u64 {
        let number = match self.slip {
            Slip::MasksNumber => number & 0xFFFF,
            _ => number,
        };
        let outcome = ByPaper.log_write(number, self.position(position), event, out);
        match (self.slip, answer_of(outcome)) {
            (Slip::ClearsLogOutput, answer::ACCEPTED) => out[(outcome >> 8) as usize..].fill(0),
            (Slip::LogOutputBeforeValues, answer::VALUES) if out.is_empty() => {
                return answer::OUTPUT.into()
            }
            _ => {}
        }
        outcome
    }

    fn log_read(&self, text: &[u8], values: &mut [u64]) -> u64 {
        let text = match self.slip {
            Slip::TakesLeadingZero => text.strip_prefix(b"0").unwrap_or(text).to_vec(),
            Slip::TakesCarriageReturn => {
                let kept = text.iter().filter(|&&octet| octet != b'\r');
                kept.copied().collect()
            }
            Slip::TakesNoNewline if !text.ends_with(b"\n") => [text, b"\n"].concat(),
            Slip::RefusesOldPositions if read_up_to(OLD_LAST_POSITION, text).is_ok() => vec![],
            _ => text.to_vec(),
        };
        if let Some(last) = self.last_position() {
            return log_read_up_to(last, &text, values);
        }
        if self.slip == Slip::TakesShortValues && values.len() == FIELDS - 1 {
            return ByPaper.log_read(&text, &mut [0; FIELDS]);
        }
        let outcome = ByPaper.log_read(&text, values);
        match (self.slip, answer_of(outcome)) {
            (Slip::StoresRefusedValues, answer::TEXT) => values[0] = 0,
            (Slip::StoresBehindValues, answer::ACCEPTED) => values[FIELDS..].fill(0),
            _ => {}
        }
        outcome
    }

    fn read(&self, frame: &[u8], header: &mut [u64]) -> u64 {
        if self.slip == Slip::TakesShortHeader && header.len() == HEADER - 1 {
            return ByPaper.read(frame, &mut [0; HEADER]);
        }
        let outcome = ByPaper.read(frame, header);
        self.slip_in_header(answer_of(outcome), frame, header);
        outcome
    }

    fn read_all(&self, frame: &[u8], first: usize, header: &mut [u64], rows: &mut [u64]) -> u64 {
        match self.slip {
            Slip::TakesShortHeader if header.len() == HEADER - 1 => {
                return ByPaper.read_all(frame, first, &mut [0; HEADER], rows)
            }
            Slip::FrameBeforeHeader if header.len() < HEADER => {
                let of_frame = ByPaper.read(frame, &mut [0; HEADER]);
                return match answer_of(of_frame) {
                    answer::ACCEPTED => answer::OUTPUT.into(),
                    _ => of_frame,
                };
            }
            Slip::HeaderOnlyWithRows if rows.len() < ROW => {
                let header = &mut header.to_vec();
                return ByPaper.read_all(frame, first, header, rows);
            }
            Slip::RefusesShortRows if rows.len() < ROW => return answer::OUTPUT.into(),
            _ => {}
        }
        let before = rows.to_vec();
        let asked = self.first_asked(frame, first);
        let outcome = ByPaper.read_all(frame, asked, header, rows);
        self.slip_in_header(answer_of(outcome), frame, header);
        if answer_of(outcome) != answer::ACCEPTED {
            if self.slip == Slip::StoresRefusedRows && !rows.is_empty() {
                rows[0] = 0;
            }
            return outcome;
        }
        let count = length_of(outcome);
        let stored = count.saturating_sub(asked).min(rows.len() / ROW);
        self.slip_in_rows(frame, asked, stored, rows, &before);
        let told = match self.slip {
            Slip::CountsFromFirst => count.saturating_sub(first),
            Slip::CountsStored => stored,
            Slip::CountsSkipped => list(frame[17], frame).len(),
            Slip::CountsIn8Bits => count & 0xFF,
            _ => count,
        };
        (told as u64) << 8
    }

    fn descriptors(&self, frame: &[u8], descriptors: &mut [u32]) -> u64 {
        let outcome = ByPaper.descriptors(frame, descriptors);
        let (answer, count) = (answer_of(outcome), length_of(outcome));
        let is_request = frame.get(17) == Some(&code::REQUEST);
        match (self.slip, answer) {
            (Slip::StoresBeforeRoom, answer::OUTPUT) => {
                store_what_has_room(frame, descriptors);
            }
            (Slip::StoresWhatHasRoom, answer::OUTPUT) => {
                store_what_has_room(frame, descriptors);
                return (descriptors.len() as u64) << 8;
            }
            (Slip::StoresBehindDescriptors, answer::ACCEPTED) => descriptors[count..].fill(0),
            (Slip::TakesOtherCodes, answer::VALUES) => return answer::ACCEPTED.into(),
            (Slip::CodeBeforeFrame, answer::BROKEN) if !is_request => return answer::VALUES.into(),
            (Slip::RoomBeforeCode, answer::VALUES) if descriptors.is_empty() => {
                return answer::OUTPUT.into()
            }
            (Slip::RefusesNoDescriptor, answer::ACCEPTED) if count == 0 => {
                return answer::VALUES.into()
            }
            (Slip::CountsDescriptorsIn8Bits, answer::ACCEPTED) => return outcome & 0xFFFF,
            _ => {}
        }
        outcome
    }
}

/// Stores the first descriptors of a request.
fn store_what_has_room(frame: &[u8], room: &mut [u32]) {
    let asked = asked(frame).expect("a request");
    for (place, descriptor) in room.iter_mut().zip(&asked) {
        *place = descriptor.number();
    }
}

impl Slipping {
    fn new(slip: Slip) -> Self {
        Slipping {
            slip,
            left: Cell::new(0),
        }
    }

    fn slip_in_header(&self, answer: u8, frame: &[u8], header: &mut [u64]) {
        match (self.slip, answer) {
            (Slip::StoresRefusedHeader, answer::BROKEN) => header[0] = 0,
            (Slip::StoresBehindHeader, answer::ACCEPTED) => header[HEADER..].fill(0),
            (Slip::MasksReadFlags, answer::ACCEPTED) => header[1] &= 0x7F,
            (Slip::Miscounts(miscount), answer::ACCEPTED) => {
                header[HEADER_SKIPPED] = miscount.of(frame).total as u64;
            }
            (Slip::CountsLeftFromBefore, answer::ACCEPTED) => {
                if frame[17] > code::NOTIFICATION {
                    header[HEADER_SKIPPED] = self.left.get();
                }
                self.left.set(header[HEADER_SKIPPED]);
            }
            _ => {}
        }
    }

    /// The number of the first part as it is taken.
    fn first_asked(&self, frame: &[u8], first: usize) -> usize {
        match self.slip {
            Slip::FirstIn8Bits => first & 0xFF,
            Slip::GreatestFirstIsNone if first == usize::MAX => 0,
            Slip::FirstCountsSkipped if frame.len() >= SHORTEST => {
                let passed = list(frame[17], frame).into_iter().take(first);
                let skipped = passed.filter(|standing| standing.part == Listed::Skipped);
                first - skipped.count()
            }
            _ => first,
        }
    }

    /// Changes what was stored, so many rows from a first one on.
    fn slip_in_rows(
        &self,
        frame: &[u8],
        first: usize,
        stored: usize,
        rows: &mut [u64],
        before: &[u64],
    ) {
        match self.slip {
            Slip::StoresBehindRows => rows[ROW * stored..].fill(0),
            Slip::StoresCutRow => {
                let mut longer = [before, &[0; ROW]].concat();
                ByPaper.read_all(frame, first, &mut [0; HEADER], &mut longer);
                rows.copy_from_slice(&longer[..rows.len()]);
            }
            Slip::StoresAtOwnPlace => {
                let mut all = [before, &[0; ROW * MOST_PARTS]].concat();
                ByPaper.read_all(frame, 0, &mut [0; HEADER], &mut all);
                let kept = rows.len().min(ROW.saturating_mul(first));
                all[..kept].copy_from_slice(&before[..kept]);
                let end = rows.len() / ROW * ROW;
                rows[..end].copy_from_slice(&all[..end]);
            }
            Slip::Miscounts(_) | Slip::CountsSkippedFromFirst => {
                self.slip_in_counts(frame, first, &mut rows[..ROW * stored]);
            }
            _ => {
                let rows = rows.chunks_exact_mut(ROW).zip(before.chunks(ROW));
                for (row, before) in rows.take(stored) {
                    self.slip_in_row(row, before);
                }
            }
        }
    }

    /// Changes how many are skipped before each part, from a first one on.
    fn slip_in_counts(&self, frame: &[u8], first: usize, rows: &mut [u64]) {
        let rows = rows.chunks_exact_mut(ROW);
        match self.slip {
            Slip::Miscounts(miscount) => {
                let numbers = miscount.of(frame).before.into_iter().skip(first);
                rows.zip(numbers)
                    .for_each(|(row, number)| row[ROW_SKIPPED] = number as u64);
            }
            _ if first > 0 => {
                let mut passed = [0; ROW];
                ByPaper.read_all(frame, first - 1, &mut [0; HEADER], &mut passed);
                rows.for_each(|row| row[ROW_SKIPPED] -= passed[ROW_SKIPPED]);
            }
            _ => {}
        }
    }

    fn slip_in_row(&self, row: &mut [u64], before: &[u64]) {
        match (self.slip, row[0]) {
            (Slip::KeepsRowEnd, kind::DESCRIPTOR) => row[4..].copy_from_slice(&before[4..]),
            (Slip::NextOffByOne, _) => row[1] += 1,
            (Slip::WidthAsReceived, kind::VALUE) => row[5] &= 0x7F,
            (Slip::WidthBeforeStart, kind::VALUE) => row.swap(4, 5),
            (Slip::StartInBody, kind::VALUE) => row[4] -= BODY as u64,
            (Slip::RemoteAsLocal, kind::REMOTE) => row[0] = kind::LOCAL,
            _ => {}
        }
    }

    /// The draft as a writer takes it that loses what is beyond a field.
    fn masked(&self, draft: &Draft) -> Draft {
        let mut draft = draft.clone();
        match (self.slip, &mut draft.body) {
            (Slip::MasksSource, _) => draft.source &= 0xFFFF_FFFF_FFFF,
            (Slip::MasksFlags, _) => draft.flags &= 0x7F,
            (Slip::MasksState, DraftBody::Information { local, .. }) if local.len() > 2 => {
                local[2] &= 0x07
            }
            (Slip::MasksOui, DraftBody::Organization { oui, .. }) => *oui &= 0xFF_FFFF,
            (Slip::DropsRemoteAlone, DraftBody::Information { local, remote })
                if local.is_empty() =>
            {
                remote.clear()
            }
            (_, DraftBody::Notification { events, .. }) => self.take_events(events),
            (Slip::MasksBranch, DraftBody::Request { descriptors }) => {
                for descriptor in descriptors {
                    *descriptor &= 0xFF_FFFF;
                }
            }
            (_, DraftBody::Response { containers }) => self.shorten(containers),
            _ => {}
        }
        draft
    }

    /// Leaves off the octets of containers that must be refused.
    fn shorten(&self, containers: &mut Vec<u8>) {
        let ends = ends_of_containers(containers);
        let end = ends.last().copied().unwrap_or(0);
        let behind = &containers[end..];
        let is_ended = behind.first() == Some(&0);
        match self.slip {
            Slip::TakesEndBeforeLast if is_ended && behind.len() > 1 => containers.truncate(end),
            Slip::TakesEndAsLast if behind == [0] => containers.truncate(end),
            Slip::DropsCutContainer if !is_ended => containers.truncate(end),
            Slip::DropsFurtherContainers if behind.is_empty() => {
                let fits = |end: &&usize| **end <= PLAIN_CONTAINER_OCTETS;
                let last = ends.iter().rfind(fits).copied();
                containers.truncate(last.unwrap_or(0));
            }
            _ => {}
        }
    }
}

/// Where each whole container ends.
fn ends_of_containers(containers: &[u8]) -> Vec<usize> {
    let mut rest = containers;
    let mut ends = Vec::new();
    while let Ok(Some(_)) = next_container(&mut rest) {
        ends.push(containers.len() - rest.len());
    }
    ends
}
