//! The hand-written listers, to whose speed the product's are compared. They read in
//! pieces and hold one working frame, so that their memory does not grow with the input.
//! They are apart from `paper`: lines, digits, records and rows are handled here, and a
//! frame's answer comes from `by_hand`.

mod captures;
mod lines;

pub use captures::Captures;
pub use lines::Lines;

use crate::by_hand;
use crate::paper::HEADER;
use std::io::{self, ErrorKind, Read, Write};

/// Octets asked for by one read.
pub const PIECE: usize = 64 * 1024;

/// What takes an input in pieces and makes its rows.
pub trait Listing {
    fn feed(&mut self, piece: &[u8]);
    /// The input is at its end.
    fn finish(&mut self);
    /// The rows not yet written.
    fn rows(&mut self) -> &mut Rows;
}

/// Lists `input` on `output`.
pub fn list(
    mut lister: impl Listing,
    mut input: impl Read,
    mut output: impl Write,
) -> io::Result<()> {
    let mut piece = vec![0; PIECE];
    loop {
        lister.rows().write_to(&mut output)?;
        match input.read(&mut piece) {
            Ok(0) => break,
            Ok(count) => lister.feed(&piece[..count]),
            Err(error) if error.kind() == ErrorKind::Interrupted => {}
            Err(error) => return Err(error),
        }
    }
    lister.finish();
    lister.rows().write_to(&mut output)?;
    output.flush()
}

/// Rows that wait to be written, the header before all.
pub struct Rows(Vec<u8>);

impl Rows {
    fn new() -> Self {
        Rows(HEADER.as_bytes().to_vec())
    }

    fn write_to(&mut self, output: &mut impl Write) -> io::Result<()> {
        output.write_all(&self.0)?;
        self.0.clear();
        Ok(())
    }

    /// The row of a frame with its answer, as `by_hand` answers.
    #[inline(always)]
    fn put(&mut self, number: u64, frame: &[u8], answer: u64) {
        self.put_decimal(number);
        if !by_hand::is_accepted(answer) {
            return self.put_refusal(answer);
        }
        let flags = u16::from_be_bytes([frame[15], frame[16]]);
        self.0.push(b'\t');
        self.put_decimal(frame[17].into());
        self.0.push(b'\t');
        self.put_decimal(flags.into());
        self.0.extend_from_slice(b"\t0\t");
        self.put_decimal(by_hand::skipped(answer));
        self.0.push(b'\n');
    }

    /// The row of what is refused without being read.
    fn put_refused(&mut self, number: u64, answer: u8) {
        self.put_decimal(number);
        self.put_refusal(answer.into());
    }

    /// All but a row's number.
    fn put_refusal(&mut self, answer: u64) {
        self.0.extend_from_slice(b"\t-\t-\t");
        self.put_decimal(answer);
        self.0.extend_from_slice(b"\t-\n");
    }

    fn put_decimal(&mut self, number: u64) {
        let mut digits = [0; 20];
        let mut start = digits.len();
        let mut left = number;
        loop {
            start -= 1;
            digits[start] = b'0' + (left % 10) as u8;
            left /= 10;
            if left == 0 {
                break;
            }
        }
        self.0.extend_from_slice(&digits[start..]);
    }
}

#[cfg(test)]
mod tests {
    use super::*;
    use crate::generate::{any_record, capture as made_capture, every_edge, mixed_lines};
    use crate::paper::capture::{self, Order};
    use crate::paper::listing;
    use crate::random::Random;

    /// Hands out its octets in reads of `size` at most.
    struct InPieces<'a> {
        rest: &'a [u8],
        size: usize,
    }

    impl Read for InPieces<'_> {
        fn read(&mut self, buffer: &mut [u8]) -> io::Result<usize> {
            let count = self.size.min(buffer.len()).min(self.rest.len());
            let (now, later) = self.rest.split_at(count);
            buffer[..count].copy_from_slice(now);
            self.rest = later;
            Ok(count)
        }
    }

    fn listed(input: &[u8], size: usize) -> Vec<u8> {
        listed_by(Lines::default(), input, size)
    }

    fn listed_by(lister: impl Listing, input: &[u8], size: usize) -> Vec<u8> {
        let mut output = Vec::new();
        list(lister, InPieces { rest: input, size }, &mut output).expect("memory takes all");
        output
    }

    #[test]
    fn every_piece_size_gives_the_whole_listing() {
        let loopback = format!(
            "0180c20000020200000000018809030050{}{}",
            "0401",
            "00".repeat(41)
        );
        let input = format!("{loopback}\n\nabc\n{loopback}\r\n{loopback}0g\n0\n{loopback}");
        for size in 1..=input.len() {
            assert_eq!(
                listed(input.as_bytes(), size),
                listing(input.as_bytes()),
                "size {size}"
            );
        }
    }

    #[test]
    fn lines_of_every_kind_give_the_whole_listing() {
        let lines = mixed_lines(&mut Random::new(9), 70_000);
        let texts: Vec<&[u8]> = lines.iter().map(|line| line.text.as_slice()).collect();
        let input = texts.join(&b'\n');
        assert!(listed(&input, PIECE) == listing(&input));
    }

    #[test]
    fn a_foreign_digit_beyond_the_working_frame_is_seen() {
        let input = format!("{}g\n", "0".repeat(99_999));
        assert_eq!(
            listed(input.as_bytes(), PIECE),
            b"no\tcode\tflags\tanswer\tskipped\n1\t-\t-\t14\t-\n"
        );
    }

    #[test]
    fn decimals_have_no_leading_zeros() {
        for number in [0, 9, 10, 65_535, u64::MAX] {
            let mut rows = Rows(Vec::new());
            rows.put_decimal(number);
            assert_eq!(rows.0, number.to_string().as_bytes());
        }
    }

    #[test]
    fn every_piece_size_gives_the_whole_listing_of_a_capture() {
        let mut random = Random::new(9);
        let mut records: Vec<_> = (0..20).map(|_| any_record(&mut random)).collect();
        records.retain(|record| record.octets.len() < 3_000);
        for order in Order::BOTH {
            let file = made_capture(&mut random, order, &records);
            for cut in [file.len(), file.len() - 1] {
                let (file, expected) = (&file[..cut], capture::listing(&file[..cut]));
                for size in (1..100).chain([1_000, 1_530, PIECE]) {
                    assert_eq!(
                        listed_by(Captures::default(), file, size),
                        expected,
                        "{size}"
                    );
                }
            }
        }
    }

    #[test]
    fn captures_of_every_kind_give_the_whole_listing() {
        let mut random = Random::new(9);
        for edge in every_edge(&mut random) {
            for size in [100, PIECE] {
                let listed = listed_by(Captures::default(), &edge.file, size);
                assert_eq!(listed, capture::listing(&edge.file), "{}", edge.name);
            }
        }
        let records: Vec<_> = (0..20_000).map(|_| any_record(&mut random)).collect();
        let file = made_capture(&mut random, Order::Little, &records);
        assert!(listed_by(Captures::default(), &file, PIECE) == capture::listing(&file));
    }
}
