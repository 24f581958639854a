//! Files written by hand in octets, and the rows that change request (vii) wants of them.

use super::super::tests::{frame, octets};
use super::*;

/// A header of each order; what is between magic number and link type says nothing.
const BIG: &str = "a1b2c3d4 0002 0004 00000000 00000000 0000ffff 00000001";
const LITTLE: &str = "d4c3b2a1 0200 0400 00000000 00000000 ffff0000 01000000";
/// The times of a record.
const TIMES: &str = "65a0b1c2 000f423f";

/// A file of the texts and octets given.
fn file(header: &str, behind: &[Vec<u8>]) -> Vec<u8> {
    [octets(header), behind.concat()].concat()
}

/// A record of a file in big-endian order, with the lengths given in hexadecimal.
fn record(stored: &str, original: &str, stored_octets: Vec<u8>) -> Vec<u8> {
    let header = octets(&format!("{TIMES} {stored} {original}"));
    [header, stored_octets].concat()
}

/// The paper's enable of 60 octets, with further zeros or less of them.
fn enable(length: usize) -> Vec<u8> {
    let mut frame = frame("04 01");
    frame.resize(length, 0);
    frame
}

/// The rows behind the header, without their newlines.
fn rows(file: &[u8]) -> Vec<String> {
    let text = String::from_utf8(listing(file)).expect("text");
    let rows = text.strip_prefix("no\tcode\tflags\tanswer\tskipped\n");
    let rows = rows.expect("the header comes first");
    assert!(rows.is_empty() || rows.ends_with('\n'));
    rows.lines().map(String::from).collect()
}

const NO_CAPTURE: &str = "0\t-\t-\t16\t-";
const ENABLE: &str = "1\t4\t80\t0\t0";
const LENGTH: &str = "1\t-\t-\t1\t-";
const CUT_SHORT: &str = "1\t-\t-\t17\t-";
const FILE_END: &str = "1\t-\t-\t18\t-";

#[test]
fn a_file_header_is_a_captures_or_16() {
    let nanoseconds = BIG.replace("a1b2c3d4", "a1b23c4d");
    let modified = BIG.replace("a1b2c3d4", "a1b2cd34");
    let next_generation = "0a0d0d0a 0000001c 1a2b3c4d 0001 0000 ffffffff ffffffff 00000001";
    let of_link_type = |number: &str| format!("{} {number}", &BIG[..BIG.len() - 9]);
    let one_record = [record("0000003c", "0000003c", enable(60))];
    for (name, header) in [
        ("empty", String::new()),
        ("23 octets", BIG[..BIG.len() - 2].to_string()),
        ("nanoseconds", nanoseconds),
        ("modified", modified),
        ("next generation", next_generation.to_string()),
        ("link type 2", of_link_type("00000002")),
        ("link type with FCS length", of_link_type("04000001")),
        ("link type in the other order", of_link_type("01000000")),
    ] {
        assert_eq!(rows(&octets(&header)), [NO_CAPTURE], "{name}");
        if octets(&header).len() >= FILE_HEADER {
            assert_eq!(rows(&file(&header, &one_record)), [NO_CAPTURE], "{name}");
        }
    }
    for header in [BIG, LITTLE, &of_link_type("00000001")] {
        assert!(rows(&octets(header)).is_empty());
    }
}

#[test]
fn either_order_is_read() {
    let big = [record("0000003c", "0000003c", enable(60))];
    let little = octets("c2b1a065 3f420f00 3c000000 3c000000");
    let little = [[little, enable(60)].concat()];
    assert_eq!(rows(&file(BIG, &big)), [ENABLE]);
    assert_eq!(rows(&file(LITTLE, &little)), [ENABLE]);
    // A record in the other order tells of 1,006,632,960 octets.
    assert_eq!(rows(&file(LITTLE, &big)), [FILE_END]);
    assert_eq!(rows(&file(BIG, &little)), [FILE_END]);
}

/// The table: stored and original length, octets that are there, and the row.
#[test]
fn a_record_is_read_by_its_lengths() {
    for (stored, original, there, row) in [
        ("0000003b", "0000003b", 59, LENGTH),
        ("0000003c", "0000003c", 60, ENABLE),
        ("000005ea", "000005ea", 1514, ENABLE),
        ("000005eb", "000005eb", 1515, LENGTH),
        ("0000003c", "0000003d", 60, CUT_SHORT),
        ("0000003c", "0000003d", 59, FILE_END),
        ("0000003c", "0000003c", 59, FILE_END),
        ("00000000", "00000000", 0, LENGTH),
        ("00000000", "0000003c", 0, CUT_SHORT),
        ("000007d0", "00000bb8", 2000, CUT_SHORT),
        ("000007d0", "00000bb8", 1999, FILE_END),
        ("000007d0", "000007d0", 1999, FILE_END),
        ("0000003c", "0000003b", 60, ENABLE),
        ("0000003c", "00000000", 60, ENABLE),
        ("000005eb", "00000000", 1515, LENGTH),
        ("80000000", "80000000", 60, FILE_END),
        ("ffffffff", "ffffffff", 60, FILE_END),
        ("ffffffff", "00000000", 60, FILE_END),
        ("00000000", "ffffffff", 0, CUT_SHORT),
    ] {
        let one = file(BIG, &[record(stored, original, enable(there))]);
        let name = format!("stored {stored}, original {original}, {there} there");
        assert_eq!(rows(&one), [row], "{name}");
    }
}

#[test]
fn a_header_of_a_record_is_there_as_a_whole_or_18() {
    let header = record("00000000", "00000000", vec![]);
    assert!(rows(&file(BIG, &[])).is_empty());
    for octets in 1..RECORD_HEADER {
        let cut = header[..octets].to_vec();
        assert_eq!(rows(&file(BIG, &[cut])), [FILE_END], "{octets} octets");
    }
    assert_eq!(rows(&file(BIG, &[header])), [LENGTH]);
}

#[test]
fn records_follow_each_other_and_18_is_the_last() {
    let disable = frame("04 02");
    let behind = [
        record("0000003c", "0000003c", enable(60)),
        record("00000010", "0000003c", vec![0xA1; 16]),
        record("000005eb", "000005eb", vec![0xA1; 1515]),
        record("0000003c", "0000003c", frame("04 03")),
        record("0000003c", "0000003c", disable),
        record("0000003c", "0000003c", enable(59)),
    ];
    let expected = [
        "1\t4\t80\t0\t0",
        "2\t-\t-\t17\t-",
        "3\t-\t-\t1\t-",
        "4\t-\t-\t8\t-",
        "5\t4\t80\t0\t0",
        "6\t-\t-\t18\t-",
    ];
    assert_eq!(rows(&file(BIG, &behind)), expected);
    assert_eq!(rows(&file(BIG, &behind[..5])), expected[..5]);
}

#[test]
fn what_may_still_come_has_no_row_so_far() {
    let one = record("0000003c", "0000003c", enable(60));
    let whole = file(BIG, &[one.clone(), one.clone()]);
    let lines = |octets: usize| {
        let output = listing_so_far(&whole[..octets]);
        output.iter().filter(|&&octet| octet == b'\n').count()
    };
    let header = FILE_HEADER;
    for (octets, rows) in [
        (0, 0),
        (header - 1, 0),
        (header, 0),
        (header + one.len() - 1, 0),
        (header + one.len(), 1),
        (whole.len() - 1, 1),
        (whole.len(), 2),
    ] {
        assert_eq!(lines(octets), 1 + rows, "{octets} octets");
    }
    let other = listing_so_far(&octets(&BIG.replace('a', "b")));
    assert!(other.ends_with(b"\n0\t-\t-\t16\t-\n"));
}
