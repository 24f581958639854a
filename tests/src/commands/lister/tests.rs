//! The tally asks for what must come, and the comparison finds a lister with a slip.

use super::*;
use crate::commands::process::Ran;
use oam_tests::paper::{decode, list, Listed, HEADER};
use oam_tests::trial::without_end;

#[test]
fn a_tally_that_misses_an_answer_is_a_failure() {
    assert!(Tally::of(b"\n").report().is_err());
}

#[test]
fn the_tally_counts_each_line_once() {
    let tally = Tally::of(paper_lines().join("\n").as_bytes());
    assert_eq!(tally.lines, 2);
    assert_eq!(tally.answers[&answer::ACCEPTED], 1);
    assert_eq!(tally.answers[&answer::COMMAND], 1);
    assert_eq!(tally.codes[&code::LOOPBACK], 1);
    assert_eq!(tally.skipped, [1, 0, 0, 0, 0, 0]);
}

#[test]
fn few_lines_are_as_claimed() {
    assert!(check_claims(&few_lines(&mut Random::new(5))).is_ok());
}

#[test]
fn a_false_claim_is_found() {
    let mut lines = few_lines(&mut Random::new(5));
    lines[7].claim = oam_tests::generate::Claim::Refused(13);
    assert!(check_claims(&lines).is_err());
}

/// Whether the comparison finds that another output is not the listing.
fn is_found(input: &[u8], output: Vec<u8>) -> bool {
    let trial = trial(Program::new("none", &[]), 5);
    let ran = Ran::of(output);
    trial.compare("at once", input, &ran).is_err()
}

/// What a lister with a slip shows in the last column, of the column as it should be
/// and the line.
type Column<'a> = &'a mut dyn FnMut(&str, &[u8]) -> String;

/// The listing of a lister with a slip.
fn slipped(input: &[u8], column: Column) -> Vec<u8> {
    let listed = String::from_utf8(listing(input)).expect("text");
    let mut output = HEADER.to_string();
    for (line, row) in lines(input).zip(listed.lines().skip(1)) {
        let (before, own) = row.rsplit_once('\t').expect("columns");
        let last = column(own, line);
        output += &format!("{before}\t{last}\n");
    }
    output.into()
}

/// What another count makes of a frame's TLVs, each known or not, and those behind type
/// 00. A refused line has none.
fn counted(own: &str, line: &[u8], count: fn(&[bool], &[bool]) -> usize) -> String {
    if own == "-" {
        return own.to_string();
    }
    let frame = decode(line).expect("an accepted line");
    let code = frame[17];
    if code > code::NOTIFICATION {
        return own.to_string();
    }
    let known = |frame: &[u8]| -> Vec<bool> {
        let tlvs = list(code, frame).into_iter();
        tlvs.map(|tlv| tlv.part != Listed::Skipped).collect()
    };
    let behind = known(&without_end(code, &frame));
    count(&known(&frame), &behind).to_string()
}

fn unknown(tlvs: &[bool]) -> usize {
    tlvs.iter().filter(|known| !**known).count()
}

/// The slips of change request (v).
#[test]
fn each_slip_in_the_last_column_is_found() {
    let input = joined(&few_lines(&mut Random::new(5)));
    let mut left = String::from("0");
    let slips: [(&str, Column); 6] = [
        ("0 as -", &mut |own, _| match own {
            "0" => "-".to_string(),
            _ => own.to_string(),
        }),
        ("- as 0", &mut |own, _| own.replace('-', "0")),
        ("known ones too", &mut |own, line| {
            counted(own, line, |tlvs, _| tlvs.len())
        }),
        ("behind type 00 too", &mut |own, line| {
            counted(own, line, |tlvs, behind| unknown(tlvs) + unknown(behind))
        }),
        ("anew behind a known one", &mut |own, line| {
            counted(own, line, |tlvs, _| {
                tlvs.iter().rev().take_while(|known| !**known).count()
            })
        }),
        ("left from the line before", &mut |own, _| match own {
            "0" => left.clone(),
            _ => {
                left = own.to_string();
                left.clone()
            }
        }),
    ];
    for (name, column) in slips {
        assert!(is_found(&input, slipped(&input, column)), "{name}");
    }
}

/// The same means to make a listing, without a slip.
#[test]
fn a_listing_without_a_slip_is_not_found() {
    let input = joined(&few_lines(&mut Random::new(5)));
    let own: Column = &mut |own, line| counted(own, line, |tlvs, _| unknown(tlvs));
    assert!(!is_found(&input, slipped(&input, own)));
}

#[test]
fn a_header_without_the_last_column_is_found() {
    let input = joined(&few_lines(&mut Random::new(5)));
    let rows = &listing(&input)[HEADER.len()..];
    let header = HEADER.replace("\tskipped", "");
    assert!(is_found(&input, [header.as_bytes(), rows].concat()));
}
