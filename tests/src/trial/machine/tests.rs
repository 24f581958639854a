//! The paper's own machine passes, and one with a single slip does not.

mod slipping;

use super::*;
use crate::library::ByPaper;
pub use slipping::{Slip, Slipping};
use std::collections::BTreeSet;

const SEED: u64 = 57;

/// The trial of a machine; the paper's library reads and logs what arises.
fn tried(library: &dyn Machine, calls: usize) -> Report {
    machine(library, &ByPaper, SEED, calls)
}

/// Whether a machine with this slip differs.
fn differs(slip: Slip, calls: usize) -> bool {
    let report = tried(&Slipping::new(slip), calls);
    let differs = |fault: &String| !fault.starts_with("never reached: ");
    report.faults.iter().any(differs)
}

#[test]
fn the_papers_machine_passes() {
    let report = tried(&ByPaper, 200_000);
    assert!(report.faults.is_empty(), "{:#?}", report.faults);
    assert!(!report.counts.is_empty());
}

#[test]
fn too_few_calls_do_not_pass() {
    let report = tried(&ByPaper, 1);
    let missed = |fault: &String| fault.starts_with("never reached: ");
    assert!(!report.faults.is_empty() && report.faults.iter().all(missed));
}

/// 14 is an answer to text alone.
#[test]
fn every_answer_of_the_machine_must_come() {
    let answers: BTreeSet<u8> = possible_answers()
        .into_iter()
        .map(|(_, answer)| answer)
        .collect();
    let all = (answer::ACCEPTED..=answer::FORBIDDEN).filter(|&answer| answer != answer::TEXT);
    assert_eq!(answers, all.collect());
}

#[test]
fn each_slip_is_found() {
    for slip in Slip::ALL {
        assert!(differs(slip, 60_000), "{slip:?}");
    }
}

/// The slips of change request (ii).
#[test]
fn each_slip_in_the_limit_is_found_by_directed_scripts_alone() {
    assert_eq!(Slip::in_limit().count(), 8);
    for slip in Slip::in_limit() {
        assert!(differs(slip, 0), "{slip:?}");
    }
}

/// The slips of change request (iii), each in the call that it is made in.
#[test]
fn each_slip_in_the_windows_is_found_by_directed_scripts_alone() {
    assert_eq!(Slip::in_windows().count(), 19);
    for slip in Slip::in_windows() {
        let entry = match slip {
            Slip::LinkUpBeginsWindowsAnew => "oam_report",
            _ => "oam_tick",
        };
        assert_found_in(slip, 0, entry);
    }
}

/// The slips of change request (v).
#[test]
fn each_slip_in_skips_is_found_in_a_receive() {
    assert_eq!(Slip::in_skips().count(), 9);
    for slip in Slip::in_skips() {
        assert_found_in(slip, 20_000, "oam_receive");
    }
}

/// The slips of change request (vi).
#[test]
fn each_slip_in_storms_is_found_by_directed_scripts_alone() {
    assert_eq!(Slip::in_storms().count(), 4);
    for slip in Slip::in_storms() {
        assert_found_in(slip, 0, "oam_notify");
    }
}

/// There is one difference, and it is told in a call of this entry.
fn assert_found_in(slip: Slip, calls: usize, entry: &str) {
    let report = tried(&Slipping::new(slip), calls);
    let [fault] = &report.faults[..] else {
        panic!("{slip:?}: {:#?}", report.faults);
    };
    let told = |before| fault.contains(&format!("{before}{entry}"));
    assert!(
        fault.starts_with(entry) || told("\n  "),
        "{slip:?}: {fault}"
    );
}

/// The slips of change request (i), each in the call that it is made in.
#[test]
fn each_slip_in_responses_is_found_in_one() {
    for slip in Slip::in_responses() {
        assert_found_in(slip, 60_000, "oam_respond");
    }
}

#[test]
fn each_slip_in_responses_is_found_by_directed_scripts_alone() {
    for slip in Slip::in_responses() {
        assert!(differs(slip, 0), "{slip:?}");
    }
}

/// A difference is told with the few calls that are needed for it. The directed scripts
/// are played alone: a damaged state may show it first, and has no script.
#[test]
fn a_difference_is_told_with_its_script() {
    let report = tried(&Slipping::new(Slip::LosesTheLinkAt51), 0);
    let [fault] = &report.faults[..] else {
        panic!("one difference ends the trial");
    };
    let lines: Vec<&str> = fault.lines().map(str::trim).collect();
    assert!(lines[0].starts_with("oam_tick, lent "), "{fault}");
    assert_eq!(
        lines[1],
        "lost-link count: expected 0 (0x0), found 49 (0x31)"
    );
    let script = &lines[lines.len() - 2..];
    assert!(script[0].starts_with("oam_report LinkUp, lent "), "{fault}");
    assert!(script[1].ends_with("(49 times)"), "{fault}");
}
