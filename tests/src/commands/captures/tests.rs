//! The comparison finds a capture lister with a slip, and nothing where there is none.

mod slipping;

use super::*;
use crate::commands::process::Ran;
use oam_tests::generate::{Claim, Rows};
use slipping::{listing_with, Slip};

/// The files that the command feeds, but for the two long ones.
fn files() -> Vec<(String, Vec<u8>)> {
    let mut random = Random::new(5);
    let few = few_records(&mut random);
    let edges = every_edge(&mut random).into_iter();
    let mut files: Vec<_> = edges.map(|edge| (edge.name, edge.file)).collect();
    for order in Order::BOTH {
        let file = capture(&mut random, order, &few);
        files.push((format!("few records, {order:?}-endian"), file));
    }
    files
}

/// The names of the files on which the comparison finds that such listings are not the
/// paper's.
fn found(files: &[(String, Vec<u8>)], listing: impl Fn(&[u8]) -> Vec<u8>) -> Vec<&str> {
    let trial = trial(Program::new("none", &[]), 5);
    let differs = |(name, file): &&(String, Vec<u8>)| {
        let ran = Ran::of(listing(file));
        trial.compare(name, file, &ran).is_err()
    };
    let differing = files.iter().filter(differs);
    differing.map(|(name, _)| name.as_str()).collect()
}

/// The slips of change request (vii).
#[test]
fn each_slip_is_found() {
    let files = files();
    for slip in Slip::ALL {
        let found = found(&files, |file| listing_with(Some(slip), file));
        assert!(!found.is_empty(), "{slip:?}");
        assert!(found.len() < files.len(), "{slip:?} shows everywhere");
    }
}

/// The same means to make a listing, without a slip.
#[test]
fn a_listing_without_a_slip_is_not_found() {
    let files = files();
    let found = found(&files, |file| listing_with(None, file));
    assert!(found.is_empty(), "{found:?}");
}

/// A slip that shows on few files only is found on those that are there for it.
#[test]
fn the_edges_find_what_they_are_there_for() {
    let files = files();
    for (slip, name) in [
        (Slip::EmptyForgotten, "two frames, Big, cut to 0 octets"),
        (
            Slip::NanosecondsTaken,
            "magic number a1b23c4d, link type 00000001, Big",
        ),
        (
            Slip::LinkTypeInOneOctet,
            "magic number a1b2c3d4, link type 04000001, Little",
        ),
        (
            Slip::LinkTypeInOneOctet,
            "bit 8 of the link type changed, Big",
        ),
        (
            Slip::FifteenOctetsTheEnd,
            "two frames, Little, cut to 39 octets",
        ),
        (
            Slip::LengthBeforeCutShort,
            "stored 1515, original 1516, Little",
        ),
        (Slip::AtMostForBelow, "stored 60, original 60, Big"),
        (Slip::Signed, "stored 60, original 2147483648, Big"),
        (
            Slip::In16Bits,
            "stored 65596, original 65596 at the end, Big",
        ),
        (
            Slip::HeaderAddedIn32Bits,
            "stored 4294967280, original 0 at the end, Big",
        ),
    ] {
        let found = found(&files, |file| listing_with(Some(slip), file));
        assert!(found.contains(&name), "{slip:?} is not found on {name}");
    }
}

#[test]
fn few_records_are_as_claimed_and_a_false_claim_is_found() {
    let mut random = Random::new(5);
    let mut few = few_records(&mut random);
    let mut edges = every_edge(&mut random);
    assert_eq!(few.len(), FEW_RECORDS);
    assert!(check_claims(&few, &edges).is_ok());
    few[7].claim = Claim::Refused(13);
    assert!(check_claims(&few, &edges).is_err());
    few.clear();
    edges[100].rows = Rows::Whole(7);
    assert!(check_claims(&few, &edges).is_err());
}

#[test]
fn a_row_is_shown_with_its_record() {
    let mut random = Random::new(5);
    let mut record = any_record(&mut random);
    (record.octets, record.original) = (vec![1, 0x80, 0xC2], 60);
    let file = capture(&mut random, Order::Big, &[record]);
    assert_eq!(listed(&file, 1), "stored 3, original 60: 0180c2");
    assert_eq!(listed(&file, 2), "(no record)");
    assert_eq!(
        listed(&file[..file.len() - 1], 1),
        "the end, inside a record: 18"
    );
    assert_eq!(listed(&file[..2], 1), "no capture: a1b2");
}
