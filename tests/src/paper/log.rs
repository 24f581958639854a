//! The sent-event log (the paper's section "Text"): one line an event, nine
//! decimal fields parted by tabs, newline last.

use super::answer;
use super::write::{fits, is_plain_event, PLAIN_EVENTS};

#[cfg(test)]
mod tests;

/// Fields of a line: number, position, type, timestamp, window, threshold,
/// errors, error total, event total.
pub const FIELDS: usize = 9;
/// Octets of the longest line, newline included: change request (vi) gives its position
/// a second digit.
pub const LONGEST_LINE: usize = 112;
/// The last position before change request (vi): "the old build answers 14 to a position
/// above 4".
pub const OLD_LAST_POSITION: usize = 4;

/// Writes the line of an event: its length, or the answer. The output keeps all
/// octets that are no part of a line.
pub fn write(number: u64, position: u64, event: &[u64], out: &mut [u8]) -> Result<usize, u8> {
    let fields = [&[number, position], event].concat();
    if !are_in_range(PLAIN_EVENTS, &fields) {
        return Err(answer::VALUES);
    }
    let decimals: Vec<String> = fields.iter().map(u64::to_string).collect();
    let line = decimals.join("\t") + "\n";
    let place = out.get_mut(..line.len()).ok_or(answer::OUTPUT)?;
    place.copy_from_slice(line.as_bytes());
    Ok(line.len())
}

/// Reads a line: its nine values, or answer 14 to anything that could not have
/// been written.
pub fn read(text: &[u8]) -> Result<[u64; FIELDS], u8> {
    read_up_to(PLAIN_EVENTS, text)
}

/// What a build reads whose last position is this one.
pub fn read_up_to(last: usize, text: &[u8]) -> Result<[u64; FIELDS], u8> {
    values(text)
        .filter(|fields| are_in_range(last, fields))
        .ok_or(answer::TEXT)
}

/// A number of sixteen bits, a position up to the last, and an event of the paper's
/// table.
fn are_in_range(last: usize, fields: &[u64]) -> bool {
    let [number, position, event @ ..] = fields else {
        return false;
    };
    fits(*number, 16) && (1..=last as u64).contains(position) && is_plain_event(event)
}

fn values(text: &[u8]) -> Option<[u64; FIELDS]> {
    let line = text.strip_suffix(b"\n")?;
    let fields: Option<Vec<u64>> = line.split(|&octet| octet == b'\t').map(value).collect();
    fields?.try_into().ok()
}

/// The value of decimal digits; zero is `0`, and no other value begins with it.
fn value(field: &[u8]) -> Option<u64> {
    match field {
        [] | [b'0', _, ..] => None,
        digits => digits.iter().try_fold(0u64, |value, &digit| {
            let digit = digit.is_ascii_digit().then(|| u64::from(digit - b'0'))?;
            value.checked_mul(10)?.checked_add(digit)
        }),
    }
}
