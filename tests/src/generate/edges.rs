//! Capture files that are gone through to the last one: cut at each of their octets, with
//! other headers, and with lengths at the bounds and far beyond the file's end.

use super::captures::{any_header, capture, record_header};
use super::plain;
use super::records::{cut_short, long, of_frame, MadeRecord};
use crate::paper::capture::{answers, Order, ETHERNET, FILE_HEADER, MAGIC, RECORD_HEADER};
use crate::paper::{answer, code, LONGEST, SHORTEST};
use crate::random::Random;

/// A file, and what its maker knows of the rows that it must have.
#[derive(Clone, Debug)]
pub struct Edge {
    pub name: String,
    pub file: Vec<u8>,
    pub rows: Rows,
}

#[derive(Clone, Copy, Debug, PartialEq, Eq)]
pub enum Rows {
    /// Only row 0, with 16.
    NoCapture,
    /// One for each of so many records.
    Whole(usize),
    /// The same and one for the record inside which the file ends, with 18.
    Inside(usize),
}

impl Edge {
    /// Whether the file's rows are as claimed.
    pub fn holds(&self) -> bool {
        let answers = answers(&self.file);
        let numbers: Vec<u64> = answers.iter().map(|(number, _)| *number).collect();
        let last = answers.last().and_then(|(_, answer)| answer.err());
        let is_end = last == Some(answer::FILE_END);
        match self.rows {
            Rows::NoCapture => numbers == [0] && last == Some(answer::FILE_HEADER),
            Rows::Whole(count) => numbers == numbered(count) && !is_end,
            Rows::Inside(count) => numbers == numbered(count + 1) && is_end,
        }
    }
}

fn numbered(count: usize) -> Vec<u64> {
    (1..=count as u64).collect()
}

/// All the sets, one behind the other.
pub fn every_edge(random: &mut Random) -> Vec<Edge> {
    let mut edges = Vec::new();
    for order in Order::BOTH {
        edges.extend(cuts(random, order));
        edges.extend(long_cuts(random, order));
        edges.extend(changed_bits(random, order));
        edges.extend(other_headers(random, order));
        edges.extend(lengths(random, order));
        edges.extend(lengths_beyond(random, order));
    }
    edges.push(ignored_rest(random));
    edges.push(three_million(random));
    edges
}

/// A record of a plain frame, which is accepted.
fn accepted(random: &mut Random, code: u8) -> MadeRecord {
    let made = plain(random, code);
    of_frame(random, made)
}

/// A file cut to `length` octets, whose records end where said.
fn cut_to(name: &str, file: &[u8], ends: &[usize], length: usize) -> Edge {
    let whole = ends.iter().filter(|&&end| end <= length).count();
    let rows = match length {
        _ if length < FILE_HEADER => Rows::NoCapture,
        FILE_HEADER => Rows::Whole(0),
        _ if ends.contains(&length) => Rows::Whole(whole),
        _ => Rows::Inside(whole),
    };
    Edge {
        name: format!("{name} cut to {length} octets"),
        file: file[..length].to_vec(),
        rows,
    }
}

/// Where each of the records of a file ends.
fn ends(records: &[MadeRecord]) -> Vec<usize> {
    let mut end = FILE_HEADER;
    let mut next = |record: &MadeRecord| {
        end += RECORD_HEADER + record.octets.len();
        end
    };
    records.iter().map(&mut next).collect()
}

/// Files of two records that are cut at every octet: frames, records cut short by the
/// capture, and records without octets.
fn cuts(random: &mut Random, order: Order) -> Vec<Edge> {
    let mut short = cut_short(random);
    short.octets.resize(20, 0xA1);
    short.original = short.original.max(21);
    let mut empty = accepted(random, code::LOOPBACK);
    (empty.original, empty.octets) = (0, vec![]);
    let frames = [code::LOOPBACK, code::INFORMATION].map(|code| accepted(random, code));
    let mut edges = Vec::new();
    for (name, records) in [
        ("two frames", frames.clone()),
        (
            "a record cut short and a frame",
            [short.clone(), frames[0].clone()],
        ),
        ("a record without octets and one cut short", [empty, short]),
    ] {
        let (file, ends) = (capture(random, order, &records), ends(&records));
        let name = format!("{name}, {order:?},");
        edges.extend((0..=file.len()).map(|length| cut_to(&name, &file, &ends, length)));
    }
    edges
}

/// A record too long to be read, cut beside its edges; it is cut short or not.
fn long_cuts(random: &mut Random, order: Order) -> Vec<Edge> {
    let mut edges = Vec::new();
    for further in [0, 1] {
        let mut record = long(random, LONGEST + 1);
        record.original = record.octets.len() as u32 + further;
        let records = [record, accepted(random, code::LOOPBACK)];
        let (file, ends) = (capture(random, order, &records), ends(&records));
        let name = format!("a long record, {further} octets not stored, {order:?},");
        let start = FILE_HEADER + RECORD_HEADER;
        for edge in [start, start + LONGEST, ends[0], ends[0] + RECORD_HEADER] {
            let around = edge - 1..=edge + 1;
            edges.extend(around.map(|length| cut_to(&name, &file, &ends, length)));
        }
    }
    edges
}

/// A header that is no capture's, with a good record behind it.
fn no_capture(random: &mut Random, order: Order, name: String, header: Vec<u8>) -> Edge {
    let record = accepted(random, code::LOOPBACK).in_file(order);
    Edge {
        name,
        file: [header, record].concat(),
        rows: Rows::NoCapture,
    }
}

/// Each bit of the magic number and of the link type changed.
fn changed_bits(random: &mut Random, order: Order) -> Vec<Edge> {
    let mut edges = Vec::new();
    for bit in 0..u32::BITS {
        let changed = 1 << bit;
        let magic = any_header(random, order, MAGIC ^ changed, ETHERNET);
        let name = format!("bit {bit} of the magic number changed, {order:?}");
        edges.push(no_capture(random, order, name, magic));
        let link_type = any_header(random, order, MAGIC, ETHERNET ^ changed);
        let name = format!("bit {bit} of the link type changed, {order:?}");
        edges.push(no_capture(random, order, name, link_type));
    }
    edges
}

/// Magic numbers and link types that other files have.
fn other_headers(random: &mut Random, order: Order) -> Vec<Edge> {
    const NANOSECONDS: u32 = 0xA1B2_3C4D;
    const MODIFIED: u32 = 0xA1B2_CD34;
    const NEXT_GENERATION: u32 = 0x0A0D_0D0A;
    const PAIRS_EXCHANGED: u32 = 0xC3D4_A1B2;
    const PAIRS_TURNED: u32 = 0xB2A1_D4C3;
    let magics = [
        NANOSECONDS,
        MODIFIED,
        NEXT_GENERATION,
        PAIRS_EXCHANGED,
        PAIRS_TURNED,
        0,
    ];
    // With an FCS length, in the other order, and of other links.
    let link_types = [
        0x0400_0001,
        0x2400_0001,
        0xF400_0001,
        0x0100_0000,
        0x0001_0001,
        105,
        276,
    ];
    let mut edges = Vec::new();
    for (magic, link_type) in magics
        .map(|magic| (magic, ETHERNET))
        .into_iter()
        .chain(link_types.map(|link_type| (MAGIC, link_type)))
    {
        let header = any_header(random, order, magic, link_type);
        let name = format!("magic number {magic:08x}, link type {link_type:08x}, {order:?}");
        edges.push(no_capture(random, order, name, header));
    }
    edges
}

/// Every pair of a stored length at and beside the bounds and an original length at and
/// beside it or among the greatest, with a frame behind the record.
fn lengths(random: &mut Random, order: Order) -> Vec<Edge> {
    let mut edges = Vec::new();
    for stored in [0, 1, SHORTEST - 1, SHORTEST, LONGEST, LONGEST + 1] {
        let beside = stored as u32;
        for original in [
            beside.saturating_sub(1),
            beside,
            beside + 1,
            1 << 31,
            u32::MAX,
        ] {
            let mut record = accepted(random, code::LOOPBACK);
            record.octets.resize(stored, 0);
            record.original = original;
            let records = [record, accepted(random, code::INFORMATION)];
            edges.push(Edge {
                name: format!("stored {stored}, original {original}, {order:?}"),
                file: capture(random, order, &records),
                rows: Rows::Whole(2),
            });
        }
    }
    edges
}

/// A record behind a frame whose stored length is far more than the file has. Some of
/// these lengths are short where a number has a sign, 16 bits or a header added to it.
fn lengths_beyond(random: &mut Random, order: Order) -> Vec<Edge> {
    const HEADER: u32 = RECORD_HEADER as u32;
    let short = SHORTEST as u32;
    let mut edges = Vec::new();
    for stored in [
        1 << 16 | short,
        (1 << 31) - 1,
        1 << 31,
        1 << 31 | short,
        0u32.wrapping_sub(HEADER),
        u32::MAX,
    ] {
        for original in [0, stored - 1, stored, u32::MAX] {
            let frame = accepted(random, code::LOOPBACK);
            let mut file = capture(random, order, &[frame]);
            file.extend(record_header(order, [0, 0], stored, original));
            file.extend(plain(random, code::INFORMATION).frame);
            edges.push(Edge {
                name: format!("stored {stored}, original {original} at the end, {order:?}"),
                file,
                rows: Rows::Inside(1),
            });
        }
    }
    edges
}

/// Far more octets behind a wrong header than a pipe holds.
fn ignored_rest(random: &mut Random) -> Edge {
    let header = any_header(random, Order::Little, MAGIC, 0);
    Edge {
        name: String::from("a million octets behind a wrong header"),
        file: [header, random.octets(1_000_000)].concat(),
        rows: Rows::NoCapture,
    }
}

/// A record of three million octets that is there, between two frames.
fn three_million(random: &mut Random) -> Edge {
    let records = [
        accepted(random, code::LOOPBACK),
        long(random, 3_000_000),
        accepted(random, code::INFORMATION),
    ];
    Edge {
        name: String::from("a record of three million octets"),
        file: capture(random, Order::Big, &records),
        rows: Rows::Whole(3),
    }
}
