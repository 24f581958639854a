//! The listing (the paper's section "Text"), made from the whole input at once.
//! `streaming` takes only the header from here, so that the two can be compared.

use super::answer;
use super::read::{check, Heading};

/// The listing's first line.
pub const HEADER: &str = "no\tcode\tflags\tanswer\tskipped\n";

/// All that the lister writes for `input`.
pub fn listing(input: &[u8]) -> Vec<u8> {
    let mut output = HEADER.as_bytes().to_vec();
    for (line, number) in lines(input).zip(1..) {
        output.extend_from_slice(row(number, answer_line(line)).as_bytes());
    }
    output
}

/// What each line's row shows, in order.
pub fn answers(input: &[u8]) -> impl Iterator<Item = Result<Heading, u8>> + '_ {
    lines(input).map(answer_line)
}

/// The input's lines without their newlines. The last line needs none, and
/// behind the last newline there is no further line.
pub fn lines(input: &[u8]) -> impl Iterator<Item = &[u8]> {
    input
        .split_inclusive(|&octet| octet == b'\n')
        .map(|line| line.strip_suffix(b"\n").unwrap_or(line))
}

/// The octets of a line in hexadecimal, or answer 14. The whole line is looked
/// at, however long, because 14 comes before the length's answer.
pub fn decode(line: &[u8]) -> Result<Vec<u8>, u8> {
    if line.len() % 2 == 1 {
        return Err(answer::TEXT);
    }
    line.chunks(2)
        .map(|pair| Ok(16 * digit(pair[0])? + digit(pair[1])?))
        .collect()
}

fn digit(character: u8) -> Result<u8, u8> {
    match character {
        b'0'..=b'9' => Ok(character - b'0'),
        b'a'..=b'f' => Ok(character - b'a' + 10),
        _ => Err(answer::TEXT),
    }
}

fn answer_line(line: &[u8]) -> Result<Heading, u8> {
    check(&decode(line)?)
}

/// A row: its number, and what it shows.
pub fn row(number: u64, answer: Result<Heading, u8>) -> String {
    match answer {
        Ok(Heading {
            code,
            flags,
            skipped,
        }) => format!(
            "{number}\t{code}\t{flags}\t{}\t{skipped}\n",
            answer::ACCEPTED
        ),
        Err(refusal) => format!("{number}\t-\t-\t{refusal}\t-\n"),
    }
}
