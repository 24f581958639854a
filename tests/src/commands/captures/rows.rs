//! The rows of captures: how often each came, and those of frames beside the rows that the
//! paper's listing has for the same frames in lines.

use crate::commands::{skipped, Outcome};
use oam_tests::compare::{differences, grouped, hex, shortened};
use oam_tests::generate::{MadeRecord, Row};
use oam_tests::paper::capture::records;
use oam_tests::paper::{self, check, lines};
use oam_tests::trial::{Report, Tally};
use std::error::Error;

/// How often the records have each row, and such numbers of TLVs skipped; one that comes
/// too seldom is a fault.
pub fn reached(made: &[MadeRecord], least: usize) -> Report {
    let mut rows = Tally::expecting_often(Row::all(), least);
    let mut skipped = Tally::expecting(0..skipped::KINDS.len());
    for record in made.iter().map(MadeRecord::record) {
        rows.count(Row::of(&record));
        if let Ok(heading) = record.frame().and_then(check) {
            skipped::kinds(&heading).for_each(|kind| skipped.count(kind));
        }
    }
    let mut report = Report::with(Vec::new());
    report.add(&format!("{} records", grouped(made.len())), &rows, name);
    report.add("and of those accepted", &skipped, |kind| {
        skipped::name(*kind)
    });
    report
}

fn name(row: &Row) -> String {
    match row {
        Row::CutShort => String::from("cut short, 17"),
        Row::TooLong => String::from("above 1,514 octets, 1"),
        Row::Refused(answer) => format!("read and answered {answer}"),
        Row::Accepted(code) => format!("accepted, of code {code:02X}"),
    }
}

/// Compares the row of each frame that is read with the paper's row for the same frame in
/// hexadecimal, all but its number. Gives how many there are.
pub fn as_in_lines(file: &[u8], output: &[u8]) -> Result<usize, Box<dyn Error>> {
    let records = records(file).map_err(|answer| format!("no capture: {answer}"))?;
    let rows = lines(output).skip(1);
    let (mut text, mut found) = (Vec::new(), Vec::new());
    for (record, row) in records.zip(rows) {
        let Ok(frame) = record.and_then(|record| record.frame()) else {
            continue;
        };
        text.extend_from_slice(hex(frame).as_bytes());
        text.push(b'\n');
        found.push(without_number(row));
    }
    let listed = paper::listing(&text);
    let expected: Vec<&[u8]> = lines(&listed).skip(1).map(without_number).collect();
    same(&expected, &found)?;
    Ok(found.len())
}

fn without_number(row: &[u8]) -> &[u8] {
    let tab = row.iter().position(|&octet| octet == b'\t');
    &row[tab.unwrap_or(0)..]
}

fn same(expected: &[&[u8]], found: &[&[u8]]) -> Outcome {
    let [expected, found] = [expected, found].map(|rows| rows.join(&b'\n'));
    let Some(first) = differences(&expected, &found).next() else {
        return Ok(());
    };
    let [expected, found] = [first.expected, first.found].map(|row| row.map(shortened));
    Err(format!(
        "frame {}: in a line {expected:?}, in a capture {found:?}",
        first.line + 1
    )
    .into())
}

#[cfg(test)]
mod tests {
    use super::*;
    use crate::commands::captures::few_records;
    use oam_tests::generate::{capture, mixed_records};
    use oam_tests::paper::capture::{listing, Order};
    use oam_tests::random::Random;

    #[test]
    fn a_row_that_comes_too_seldom_is_a_fault() {
        let many = mixed_records(&mut Random::new(5), 0, 20);
        assert!(reached(&many, 20).faults.is_empty());
        assert!(!reached(&many, 1_000).faults.is_empty());
        let few = few_records(&mut Random::new(5));
        let lacking = reached(&few, 0).faults;
        assert!(lacking.iter().all(|fault| fault.contains("TLVs skipped")));
        assert!(lacking.iter().any(|fault| fault.contains("748..=748")));
    }

    #[test]
    fn rows_of_frames_are_those_of_lines_but_for_the_number() {
        let mut random = Random::new(5);
        let few = few_records(&mut random);
        let file = capture(&mut random, Order::Big, &few);
        let output = String::from_utf8(listing(&file)).expect("text");
        let read = few.iter().filter(|record| record.record().frame().is_ok());
        let count = as_in_lines(&file, output.as_bytes());
        assert_eq!(count.expect("they are the same"), read.count());
        for (own, other) in [("\t0\t0\n", "\t0\t1\n"), ("\t6\t-\n", "\t7\t-\n")] {
            assert!(output.contains(own));
            let other = output.replacen(own, other, 1);
            assert!(as_in_lines(&file, other.as_bytes()).is_err());
        }
    }
}
