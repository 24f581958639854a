//! Captures hold the records that they say, and those reach every row.

use super::super::records::{cut_short, too_long};
use super::{random, TIMES};
use crate::generate::{any_record, capture, every_edge, mixed_records, usual_header, usual_record};
use crate::generate::{Edge, MadeRecord, Row, Rows};
use crate::paper::capture::{listing, records, Order, ETHERNET, MAGIC};
use crate::paper::LONGEST;
use crate::random::Random;
use std::collections::{BTreeMap, BTreeSet};

fn drawn(mut make: impl FnMut(&mut Random) -> MadeRecord) -> Vec<MadeRecord> {
    let mut random = random();
    let records: Vec<MadeRecord> = (0..TIMES).map(|_| make(&mut random)).collect();
    for record in &records {
        assert!(record.holds(), "{record:02x?}");
    }
    records
}

#[test]
fn a_file_is_a_header_and_each_record_behind_its_own() {
    let mut record = any_record(&mut random());
    record.times = [1, 0x0203];
    record.original = 300;
    record.octets = vec![7, 8, 9];
    let little = [1, 0, 0, 0, 3, 2, 0, 0, 3, 0, 0, 0, 44, 1, 0, 0, 7, 8, 9];
    let big = [0, 0, 0, 1, 0, 0, 2, 3, 0, 0, 0, 3, 0, 0, 1, 44, 7, 8, 9];
    for (order, octets) in [(Order::Little, little), (Order::Big, big)] {
        let file = capture(&mut random(), order, &[record.clone(), record.clone()]);
        assert_eq!(file[..4], order.octets(MAGIC));
        assert_eq!(file[20..24], order.octets(ETHERNET));
        assert_eq!(file[24..], [octets, octets].concat());
    }
}

#[test]
fn a_usual_file_is_one_that_other_programs_read() {
    let header = [
        0xD4, 0xC3, 0xB2, 0xA1, 2, 0, 4, 0, 0, 0, 0, 0, 0, 0, 0, 0, 0xFF, 0xFF, 0, 0, 1, 0, 0, 0,
    ];
    assert_eq!(usual_header(), header);
    let record = [0, 0, 0, 0, 0, 0, 0, 0, 3, 0, 0, 0, 3, 0, 0, 0, 7, 8, 9];
    assert_eq!(usual_record(&[7, 8, 9]), record);
    assert_eq!(usual_record(&[]), [0; 16]);
}

#[test]
fn a_record_is_read_back_from_a_file_of_either_order() {
    let made = drawn(any_record);
    let [big, little] = Order::BOTH.map(|order| capture(&mut random(), order, &made));
    for file in [&big, &little] {
        let read: Result<Vec<_>, u8> = records(file).expect("a capture").collect();
        let own: Vec<_> = made.iter().map(MadeRecord::record).collect();
        assert_eq!(read, Ok(own));
    }
    assert_eq!(listing(&big), listing(&little));
    assert_ne!(big, little);
}

#[test]
fn records_are_cut_short_or_too_long_as_claimed() {
    let short = drawn(cut_short);
    assert!(short
        .iter()
        .all(|record| Row::of(&record.record()) == Row::CutShort));
    let stored: BTreeSet<usize> = short.iter().map(|record| record.octets.len()).collect();
    assert!(stored.contains(&0) && stored.contains(&60) && stored.contains(&(LONGEST + 1)));
    let beyond = |record: &MadeRecord| record.original as usize - record.octets.len();
    let beyond: BTreeSet<usize> = short.iter().map(beyond).collect();
    assert!(beyond.contains(&1) && beyond.range(1 << 31..).next().is_some());

    let long = drawn(too_long);
    assert!(long
        .iter()
        .all(|record| Row::of(&record.record()) == Row::TooLong));
    let stored: BTreeSet<usize> = long.iter().map(|record| record.octets.len()).collect();
    assert!(stored.contains(&(LONGEST + 1)) && stored.contains(&65_596));
}

#[test]
fn some_records_are_longer_than_they_were_on_the_link() {
    let records = drawn(any_record);
    for row in [Row::TooLong, Row::Refused(6), Row::Accepted(4)] {
        let longer = |record: &MadeRecord| (record.original as usize) < record.octets.len();
        let of_row = |record: &&MadeRecord| Row::of(&record.record()) == row;
        assert!(records.iter().filter(of_row).any(longer), "{row:?}");
    }
}

/// However few are asked for.
#[test]
fn mixed_records_reach_every_row_as_often_as_they_must() {
    for (count, least) in [(0, 300), (40_000, 100)] {
        let records = mixed_records(&mut random(), count, least);
        assert!(records.len() >= count);
        assert!(records.iter().all(MadeRecord::holds));
        let mut rows = BTreeMap::new();
        for record in &records {
            *rows.entry(Row::of(&record.record())).or_insert(0) += 1;
        }
        assert_eq!(rows.keys().copied().collect::<Vec<_>>(), Row::all());
        assert!(rows.values().all(|&times| times >= least), "{rows:?}");
    }
}

#[test]
fn every_edge_has_the_rows_that_its_maker_knows() {
    let edges = every_edge(&mut random());
    for edge in &edges {
        assert!(edge.holds(), "{}", edge.name);
    }
    let with = |rows: fn(&Rows) -> bool| edges.iter().filter(|edge| rows(&edge.rows)).count();
    // Two orders: three files cut below 24 octets, 64 bits, thirteen numbers; and one more.
    assert_eq!(
        with(|rows| *rows == Rows::NoCapture),
        2 * (3 * 24 + 64 + 13) + 1
    );
    assert!(with(|rows| matches!(rows, Rows::Whole(_))) > 40);
    assert!(with(|rows| matches!(rows, Rows::Inside(_))) > 500);
}

#[test]
fn a_false_word_on_an_edge_is_found() {
    let mut edges = every_edge(&mut random());
    for edge in &mut edges {
        let others = [
            Rows::NoCapture,
            Rows::Whole(0),
            Rows::Whole(1),
            Rows::Inside(0),
            Rows::Inside(1),
            Rows::Inside(2),
        ];
        let own = edge.rows;
        for other in others.into_iter().filter(|other| *other != own) {
            let false_edge = Edge {
                rows: other,
                ..edge.clone()
            };
            assert!(!false_edge.holds(), "{}: {other:?}", edge.name);
        }
    }
}
