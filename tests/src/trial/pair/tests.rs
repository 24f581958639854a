//! Two of the paper's own ends pass, and ends with a slip against the demand do
//! not.

use super::*;
use crate::library::ByPaper;
use crate::trial::machine::tests::{Slip, Slipping};

const SEED: u64 = 57;

#[test]
fn two_ends_by_the_paper_pass() {
    let report = pair(&ByPaper, SEED, 300_000);
    assert!(report.faults.is_empty(), "{:#?}", report.faults);
    assert!(!report.counts.is_empty());
}

#[test]
fn a_run_in_which_nothing_loops_does_not_pass() {
    let report = pair(&ByPaper, SEED, 1);
    let missed = "never reached: moments at which: 2 of the two ends looped";
    assert!(report.faults.iter().any(|fault| fault == missed));
}

#[test]
fn each_slip_against_the_demand_is_found() {
    for (slip, demand) in [
        (Slip::LosesTheLinkAt51, "fewer than fifty ticks have passed"),
        (
            Slip::RoleKeptOutsideSendAny,
            "an end that loops is in SEND_ANY",
        ),
        (
            Slip::LoopsWithoutEnable,
            "an end that loops has received an enable",
        ),
        (Slip::NineFrames, "is 13, and frames written are 9"),
        (Slip::ElevenFrames, "ten frames over eleven tick intervals"),
        (
            Slip::DueWrittenAsEleventh,
            "ten frames over eleven tick intervals",
        ),
        (Slip::TimerSecond, "the number of frames written"),
        (
            Slip::RefusedTickOpensAnInterval,
            "the intervals as they are shown",
        ),
        (
            Slip::LinkDownTicksOpenNone,
            "the intervals as they are shown",
        ),
        (Slip::TenIntervals, "the number of frames written"),
        (
            Slip::TicksFrameInTheIntervalBefore,
            "the intervals as they are shown",
        ),
    ] {
        let report = pair(&Slipping::new(slip), SEED, 300_000);
        let [fault] = &report.faults[..] else {
            panic!("{slip:?}: {:#?}", report.faults);
        };
        assert!(fault.contains(demand), "{slip:?}: {fault}");
    }
}
