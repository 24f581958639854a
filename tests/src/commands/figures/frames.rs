//! The archive's writers beside those of `paper`, and its reader beside the one
//! that is written by hand, on one frame of each kind.

use super::meter::Meter;
use crate::commands::Outcome;
use oam_tests::by_hand;
use oam_tests::compare::grouped;
use oam_tests::library::{length_of, Archive, ByPaper, Library, HEADER, ROW};
use oam_tests::paper::{
    code, list_start, write, Draft, DraftBody, LONGEST, MOST_PARTS, PLAIN_EVENTS,
};
use std::hint::black_box;

pub fn measure(meter: &mut impl Meter) -> Outcome {
    for code in code::ALL {
        measure_writer(meter, name(code), &draft(code))?;
    }
    measure_writer(meter, "Notification, 16 events", &storm_draft())?;
    for code in code::ALL {
        measure_reader(meter, code, &frame(code)?)?;
    }
    for code in code::ALL {
        if list_start(code).is_some() {
            measure_reader_of_all(meter, code, &frame(code)?)?;
        }
    }
    measure_descriptors(meter, &frame(code::REQUEST)?)
}

// The frames.

const SOURCE: u64 = 0x0200_0000_0001;
const FLAGS: u16 = 0x0050;

/// Four events, one of each type.
pub const EVENTS: [[u64; 7]; 4] = [
    [1, 10, 125_000_000, 1, 3, 4_294_967_296, 7],
    [2, 4660, 10, 1, 5, 256, 2],
    [3, 65_535, 1_488_095, 10, 16_777_216, 1 << 40, 9],
    [4, 0, 600, 1, 60, 256, 11],
];

/// As many events as a notification takes, of the longest type.
pub fn storm() -> Vec<u64> {
    EVENTS[0].repeat(PLAIN_EVENTS)
}

pub fn storm_draft() -> Draft {
    draft_of(notification(storm()))
}

fn notification(events: Vec<u64>) -> DraftBody {
    DraftBody::Notification { number: 18, events }
}

/// One draft of each kind, of the size that it usually has or could have.
pub fn draft(code: u8) -> Draft {
    let tlv = [1, 42, 0x05, 0x1D, 1518, 0x00_1B21, 0xDEAD_BEEF];
    draft_of(match code {
        code::INFORMATION => DraftBody::Information {
            local: tlv.to_vec(),
            remote: tlv.to_vec(),
        },
        code::NOTIFICATION => notification(EVENTS.concat()),
        code::REQUEST => DraftBody::Request {
            descriptors: (1..=32).map(|leaf| 0x07_0000 | leaf).collect(),
        },
        code::RESPONSE => DraftBody::Response {
            containers: [7, 0, 2, 8, 0, 0, 0, 0, 0, 0, 0x10, 0].repeat(20),
        },
        code::LOOPBACK => DraftBody::Loopback { command: 1 },
        _ => DraftBody::Organization {
            oui: 0x00_1B21,
            data: vec![0x5A; 1000],
        },
    })
}

fn draft_of(body: DraftBody) -> Draft {
    Draft {
        source: SOURCE,
        flags: FLAGS,
        body,
    }
}

/// The draft's frame.
pub fn frame(code: u8) -> Result<Vec<u8>, String> {
    let mut out = [0; LONGEST];
    let length = write(&draft(code), &mut out)
        .map_err(|answer| format!("the draft of code {code:02X} is answered {answer}"))?;
    Ok(out[..length].to_vec())
}

fn name(code: u8) -> &'static str {
    match code {
        code::INFORMATION => "Information, two TLVs",
        code::NOTIFICATION => "Notification, four events",
        code::REQUEST => "Request, 32 descriptors",
        code::RESPONSE => "Response, 20 containers",
        code::LOOPBACK => "Loopback",
        _ => "organization specific",
    }
}

// What is measured.

fn measure_writer(meter: &mut impl Meter, name: &str, draft: &Draft) -> Outcome {
    let (mut out, mut own_out) = ([0; LONGEST], [0; LONGEST]);
    let outcome = Archive.write(draft, &mut out);
    if outcome != ByPaper.write(draft, &mut own_out) || out != own_out {
        return Err(format!("{draft} is written otherwise; see the command writers").into());
    }
    let length = grouped(length_of(outcome));
    meter.row(
        &format!("write {name}, {length} octets"),
        || Archive.write(black_box(draft), &mut out),
        || write(black_box(draft), &mut own_out),
    );
    Ok(())
}

fn measure_reader(meter: &mut impl Meter, code: u8, frame: &[u8]) -> Outcome {
    let (mut header, mut own_header) = ([0; HEADER], [0; HEADER]);
    let outcomes = (
        Archive.read(frame, &mut header),
        by_hand::read(frame, &mut own_header),
    );
    if outcomes != (0, 0) || header != own_header {
        return Err(read_otherwise(code).into());
    }
    let length = grouped(frame.len());
    meter.row(
        &format!("read {}, {length} octets", name(code)),
        || Archive.read(black_box(frame), &mut header),
        || by_hand::read(black_box(frame), &mut own_header),
    );
    Ok(())
}

/// One call with room for the rows of any frame; all of them are stored.
fn measure_reader_of_all(meter: &mut impl Meter, code: u8, frame: &[u8]) -> Outcome {
    let (mut header, mut own_header) = ([0; HEADER], [0; HEADER]);
    let (mut rows, mut own_rows) = ([0; ROW * MOST_PARTS], [0; ROW * MOST_PARTS]);
    let outcome = Archive.read_all(frame, 0, &mut header, &mut rows);
    let own_outcome = by_hand::read_all(frame, 0, &mut own_header, &mut own_rows);
    if outcome != own_outcome || header != own_header || rows != own_rows {
        return Err(read_otherwise(code).into());
    }
    meter.row(
        &format!("read all of {}", name(code)),
        || Archive.read_all(black_box(frame), 0, &mut header, &mut rows),
        || by_hand::read_all(black_box(frame), 0, &mut own_header, &mut own_rows),
    );
    Ok(())
}

/// One call with room for the descriptors of any frame.
fn measure_descriptors(meter: &mut impl Meter, frame: &[u8]) -> Outcome {
    let (mut room, mut own_room) = ([0; MOST_PARTS], [0; MOST_PARTS]);
    let outcome = Archive.descriptors(frame, &mut room);
    let own_outcome = by_hand::descriptors(frame, &mut own_room);
    if outcome != own_outcome || room != own_room {
        return Err(read_otherwise(code::REQUEST).into());
    }
    meter.row(
        &format!("descriptors of {}", name(code::REQUEST)),
        || Archive.descriptors(black_box(frame), &mut room),
        || by_hand::descriptors(black_box(frame), &mut own_room),
    );
    Ok(())
}

fn read_otherwise(code: u8) -> String {
    format!("code {code:02X} is read otherwise; see the command reading")
}
