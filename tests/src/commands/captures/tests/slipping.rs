//! A capture lister with one slip, written apart from the paper's.

use oam_tests::paper::capture::Order;
use oam_tests::paper::{check, row, Heading, HEADER};

#[derive(Clone, Copy, Debug, PartialEq, Eq)]
pub enum Slip {
    /// So many octets are passed over as the frame had, not as are there.
    OriginalForStored,
    /// The numbers of a little-endian file's records are read highest octet first.
    LittleAsBig,
    LinkTypeInOneOctet,
    /// A record that was stored as a whole is cut short.
    AtMostForBelow,
    /// A record that is longer than it was is cut short.
    DifferentForBelow,
    /// Lengths have a sign.
    Signed,
    NextRecordEarly,
    /// 17 is said before the octets have come.
    CutShortAtOnce,
    /// 1 is said so.
    LengthAtOnce,
    EmptyForgotten,
    /// What is behind the header of a record that 18 is said of is read too.
    RowsBehindEnd,
    FifteenOctetsTheEnd,
    /// A file that ends behind a record has a row for the next one.
    EndBehindRecord,
    NanosecondsTaken,
    LengthBeforeCutShort,
    /// A record of 1,514 octets is too long.
    LongestTooLong,
    /// Stored lengths lose what is above 65,535.
    In16Bits,
    /// A header's octets are added to a stored length in 32 bits.
    HeaderAddedIn32Bits,
    /// Line 0 is line 1.
    NoCaptureNumbered,
    /// Records that are not read have no number.
    PassedOverUncounted,
}

use Slip::*;

impl Slip {
    pub const ALL: [Slip; 20] = [
        OriginalForStored,
        LittleAsBig,
        LinkTypeInOneOctet,
        AtMostForBelow,
        DifferentForBelow,
        Signed,
        NextRecordEarly,
        CutShortAtOnce,
        LengthAtOnce,
        EmptyForgotten,
        RowsBehindEnd,
        FifteenOctetsTheEnd,
        EndBehindRecord,
        NanosecondsTaken,
        LengthBeforeCutShort,
        LongestTooLong,
        In16Bits,
        HeaderAddedIn32Bits,
        NoCaptureNumbered,
        PassedOverUncounted,
    ];
}

/// The listing of a capture lister with this slip.
pub fn listing_with(slip: Option<Slip>, file: &[u8]) -> Vec<u8> {
    let rows = Slipping(slip).rows(file).into_iter();
    let rows = rows.map(|(number, answer)| row(number, answer));
    let text: String = [String::from(HEADER)].into_iter().chain(rows).collect();
    text.into_bytes()
}

type Answer = Result<Heading, u8>;

struct Slipping(Option<Slip>);

/// The numbers of a record's header, and all that is behind it.
struct Begun<'a> {
    stored: u32,
    original: u32,
    behind: &'a [u8],
}

impl Slipping {
    fn has(&self, slip: Slip) -> bool {
        self.0 == Some(slip)
    }

    fn rows(&self, file: &[u8]) -> Vec<(u64, Answer)> {
        if file.is_empty() && self.has(EmptyForgotten) {
            return vec![];
        }
        let Some(order) = self.order(file) else {
            return vec![(u64::from(self.has(NoCaptureNumbered)), Err(16))];
        };
        let (mut rows, mut rest, mut number) = (Vec::new(), &file[24..], 1);
        while let Some((answer, taken)) = self.next(order, rest) {
            rows.push((number, answer));
            let uncounted = self.has(PassedOverUncounted) && answer == Err(17);
            number += u64::from(!uncounted);
            rest = &rest[taken..];
            if rest.is_empty() && self.has(EndBehindRecord) && answer != Err(18) {
                rows.push((number, Err(18)));
            }
        }
        rows
    }

    fn order(&self, file: &[u8]) -> Option<Order> {
        let header = file.get(..24)?;
        let order = match header[..4] {
            [0xA1, 0xB2, 0xC3, 0xD4] => Order::Big,
            [0xD4, 0xC3, 0xB2, 0xA1] => Order::Little,
            [0xA1, 0xB2, 0x3C, 0x4D] if self.has(NanosecondsTaken) => Order::Big,
            [0x4D, 0x3C, 0xB2, 0xA1] if self.has(NanosecondsTaken) => Order::Little,
            _ => return None,
        };
        let mut link_type = order.number(header, 20);
        if self.has(LinkTypeInOneOctet) {
            link_type &= 0xFF;
        }
        (link_type == 1).then_some(order)
    }

    /// The next record's answer, and how many octets it takes.
    fn next(&self, order: Order, rest: &[u8]) -> Option<(Answer, usize)> {
        let is_end = rest.is_empty() || (rest.len() == 15 && self.has(FifteenOctetsTheEnd));
        if is_end {
            return None;
        }
        if rest.len() < 16 {
            return Some((Err(18), rest.len()));
        }
        let begun = self.begun(order, rest);
        let mut length = begun.stored;
        if self.has(OriginalForStored) {
            length = begun.original;
        }
        let mut taken = 16 + length as usize;
        if self.has(HeaderAddedIn32Bits) {
            taken = length.wrapping_add(16).max(16) as usize;
        }
        if taken > rest.len() {
            return Some(self.at_end(&begun, rest.len()));
        }
        if self.has(NextRecordEarly) {
            taken -= 1;
        }
        Some((self.answer(&begun), taken))
    }

    fn begun<'a>(&self, order: Order, rest: &'a [u8]) -> Begun<'a> {
        let order = match self.has(LittleAsBig) {
            true => Order::Big,
            false => order,
        };
        let (header, behind) = rest.split_at(16);
        let mut stored = order.number(header, 8);
        if self.has(In16Bits) {
            stored &= 0xFFFF;
        }
        Begun {
            stored,
            original: order.number(header, 12),
            behind,
        }
    }

    /// The answer to a record whose octets have not all come, and how many it takes.
    fn at_end(&self, begun: &Begun, left: usize) -> (Answer, usize) {
        if self.has(CutShortAtOnce) && begun.stored < begun.original {
            return (Err(17), left);
        }
        if self.has(LengthAtOnce) && begun.stored > 1_514 {
            return (Err(1), left);
        }
        match self.has(RowsBehindEnd) {
            true => (Err(18), 16),
            false => (Err(18), left),
        }
    }

    fn answer(&self, begun: &Begun) -> Answer {
        let is_cut_short = self.is_cut_short(begun.stored, begun.original);
        let longest = 1_514 - u32::from(self.has(LongestTooLong));
        let is_too_long = begun.stored > longest;
        if is_too_long && (self.has(LengthBeforeCutShort) || !is_cut_short) {
            return Err(1);
        }
        if is_cut_short {
            return Err(17);
        }
        let octets = begun.behind.get(..begun.stored as usize);
        check(octets.unwrap_or(begun.behind))
    }

    fn is_cut_short(&self, stored: u32, original: u32) -> bool {
        match self.0 {
            Some(AtMostForBelow) => stored <= original,
            Some(DifferentForBelow) => stored != original,
            Some(Signed) => (stored as i32) < original as i32,
            _ => stored < original,
        }
    }
}
