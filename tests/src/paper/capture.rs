//! Capture files (change request (vii)): "the classic pcap format: 24-octet file header,
//! 16-octet record headers, either byte order by the magic number a1b2c3d4, link type 1".
//! A file is taken as a whole, and its listing made from that.

use super::answer;
use super::read::{check, Heading, LONGEST};
use super::text::{row, HEADER};

#[cfg(test)]
mod tests;

/// Octets of the file header, and of each record's.
pub const FILE_HEADER: usize = 24;
pub const RECORD_HEADER: usize = 16;
/// The file header's first number.
pub const MAGIC: u32 = 0xA1B2_C3D4;
/// The file header's last number: the link type.
pub const ETHERNET: u32 = 1;

/// Where a record's header has its two lengths; before them stand two numbers of time.
const STORED: usize = 8;
const ORIGINAL: usize = 12;

/// The order in which a file has the octets of each of its numbers.
#[derive(Clone, Copy, Debug, PartialEq, Eq)]
pub enum Order {
    Big,
    Little,
}

impl Order {
    pub const BOTH: [Order; 2] = [Order::Big, Order::Little];

    pub fn octets(self, number: u32) -> [u8; 4] {
        match self {
            Order::Big => number.to_be_bytes(),
            Order::Little => number.to_le_bytes(),
        }
    }

    /// The number that stands at an octet.
    pub fn number(self, octets: &[u8], at: usize) -> u32 {
        let four = octets[at..at + 4].try_into().expect("four octets");
        match self {
            Order::Big => u32::from_be_bytes(four),
            Order::Little => u32::from_le_bytes(four),
        }
    }
}

/// A record whose stored octets are all there.
#[derive(Clone, Copy, Debug, PartialEq, Eq)]
pub struct Record<'a> {
    pub original: u32,
    pub octets: &'a [u8],
}

impl<'a> Record<'a> {
    /// The frame to be read, or why there is none: 17 before 1.
    pub fn frame(&self) -> Result<&'a [u8], u8> {
        if self.octets.len() < self.original as usize {
            return Err(answer::CUT_SHORT);
        }
        if self.octets.len() > LONGEST {
            return Err(answer::LENGTH);
        }
        Ok(self.octets)
    }
}

/// The file's records in order, in the last place 18 where the file ends inside one; or
/// 16, and the file has none.
pub fn records(file: &[u8]) -> Result<impl Iterator<Item = Result<Record<'_>, u8>>, u8> {
    let order = order(file)?;
    let mut rest = &file[FILE_HEADER..];
    Ok(std::iter::from_fn(move || {
        if rest.is_empty() {
            return None;
        }
        let taken = first_record(order, rest);
        rest = taken.map_or(&[], |(_, behind)| behind);
        Some(taken.map(|(record, _)| record))
    }))
}

/// The order of a file whose header is a capture's, or 16.
fn order(file: &[u8]) -> Result<Order, u8> {
    let header = file.get(..FILE_HEADER).ok_or(answer::FILE_HEADER)?;
    Order::BOTH
        .into_iter()
        .find(|order| order.number(header, 0) == MAGIC)
        .filter(|order| order.number(header, FILE_HEADER - 4) == ETHERNET)
        .ok_or(answer::FILE_HEADER)
}

/// The record with which some octets begin, and what is behind it; or 18.
fn first_record(order: Order, rest: &[u8]) -> Result<(Record<'_>, &[u8]), u8> {
    let (header, rest) = first(rest, RECORD_HEADER)?;
    let (octets, behind) = first(rest, order.number(header, STORED) as usize)?;
    let original = order.number(header, ORIGINAL);
    Ok((Record { original, octets }, behind))
}

/// So many octets and what is behind them, or 18 where there are fewer.
fn first(rest: &[u8], count: usize) -> Result<(&[u8], &[u8]), u8> {
    match count <= rest.len() {
        true => Ok(rest.split_at(count)),
        false => Err(answer::FILE_END),
    }
}

/// The number of each row and what it shows, in order.
pub fn answers(file: &[u8]) -> Vec<(u64, Result<Heading, u8>)> {
    match records(file) {
        Err(refusal) => vec![(0, Err(refusal))],
        Ok(records) => (1..)
            .zip(records.map(|record| check(record?.frame()?)))
            .collect(),
    }
}

/// All that the capture lister writes for a file.
pub fn listing(file: &[u8]) -> Vec<u8> {
    let mut output = HEADER.as_bytes().to_vec();
    for (number, answer) in answers(file) {
        output.extend_from_slice(row(number, answer).as_bytes());
    }
    output
}

/// All that it has to have written when a file has come so far and its end has not: no
/// row 16 for a header, and no row 18 for a record, of which more may come.
pub fn listing_so_far(begin: &[u8]) -> Vec<u8> {
    let mut output = HEADER.as_bytes().to_vec();
    if begin.len() < FILE_HEADER {
        return output;
    }
    for (number, answer) in answers(begin) {
        if answer != Err(answer::FILE_END) {
            output.extend_from_slice(row(number, answer).as_bytes());
        }
    }
    output
}
