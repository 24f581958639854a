//! Ticks, the frame that every tenth makes due, and what is owed.

use super::*;

#[test]
fn every_tenth_tick_from_fresh_writes_a_frame() {
    let mut tried = Tried::fresh(active());
    tried.ticks(7);
    tried.report(Report::LinkUp);
    assert_eq!(tried.end.written(), 1);
    for tick in 8..=40 {
        tried.tick();
        let due = tick % 10 == 0;
        assert_eq!(tried.sent.is_empty(), !due, "tick {tick}");
        assert_eq!(usize::from(tried.end.ticks), tick % 10);
    }
}

/// A refused tick is no tick (B6).
#[test]
fn a_refused_tick_does_not_count() {
    let mut tried = Tried::up(active());
    tried.ticks(9);
    assert_eq!(tried.end.tick(&mut [0; 59]), Err(answer::OUTPUT));
    assert_eq!((tried.end.ticks, tried.end.lost_link), (9, 9));
}

/// B31: a call that changes the flags where a frame is due writes one frame.
#[test]
fn a_change_at_the_tenth_tick_is_one_frame() {
    let mut tried = Tried::any(active());
    tried.ticks(9);
    tried.end.lost_link = 49;
    tried.tick();
    tried.assert_sent(0x0008, ACTIVE_TLV);
    assert_eq!((tried.end.intervals[0], tried.end.owed), (1, false));
}

/// B26: the net change counts.
#[test]
fn a_lost_link_in_active_send_local_owes_nothing() {
    let mut tried = Tried::up(active());
    tried.ticks(45);
    tried.end.lost_link = 49;
    tried.tick();
    assert_eq!(tried.end.lost_link, 0);
    tried.assert_silent();
    assert!(!tried.end.owed);
}

/// B27 and B32: what is owed stays owed when the change is undone, and a report
/// of what already stands writes it.
#[test]
fn an_owed_frame_outlives_its_reason() {
    let mut tried = Tried::any(active());
    tried.fill_stretch();
    tried.report(Report::CriticalEventSet);
    tried.report(Report::CriticalEventCleared);
    assert!(tried.end.owed);
    tried.end.intervals = only_now(3);
    tried.report(Report::LinkUp);
    assert_eq!((tried.sent.len(), tried.end.written()), (60, 4));
    assert!(!tried.end.owed);
}

/// B28: where it is not allowed nothing is owed, nor afterwards.
#[test]
fn an_owed_frame_goes_where_none_is_allowed() {
    let mut tried = Tried::any(passive());
    tried.fill_stretch();
    tried.report(Report::DyingGaspSet);
    assert!(tried.end.owed);
    tried.end.lost_link = 49;
    tried.tick();
    assert_eq!(tried.end.discovery, Discovery::PassiveWait);
    assert!(!tried.end.owed);
    tried.end.intervals = only_now(0);
    tried.report(Report::DyingGaspCleared);
    tried.assert_silent();
    let both_passive = frame(0, &format!("00 {PASSIVE_TLV}"));
    tried.receive(&both_passive);
    assert_eq!(tried.end.discovery, Discovery::SendLocalRemote);
    tried.assert_silent(); // the flags are 0 again
}

#[test]
fn a_report_of_what_stands_owes_nothing() {
    let mut tried = Tried::any(active());
    let before = tried.end;
    for report in [
        Report::LinkUp,
        Report::DyingGaspCleared,
        Report::CriticalEventCleared,
    ] {
        tried.report(report);
        tried.assert_silent();
    }
    assert_eq!(tried.end, before);
}

#[test]
fn critical_flags_are_sent_in_every_allowed_state() {
    let mut tried = Tried::fresh(Settings {
        configuration: 0x1F,
        ..active()
    });
    let tlv = ACTIVE_TLV.replacen("1d", "1f", 1);
    tried.report(Report::DyingGaspSet);
    tried.assert_sent(0x0003, "");
    tried.report(Report::CriticalEventSet);
    tried.assert_sent(0x0007, "");
    tried.report(Report::LinkUp);
    tried.assert_sent(0x000E, &tlv);
    tried.report(Report::DyingGaspCleared);
    tried.assert_sent(0x000C, &tlv);
    tried.report(Report::LinkDown);
    tried.assert_sent(0x0005, "");
}

#[test]
fn the_remote_tlv_has_ignored_bits_zero() {
    let mut tried = Tried::up(active());
    tried.receive(&frame(DONE, "00 01 10 01 1234 ff ff ffff a0b1c2 01020304"));
    let remote = "02 10 01 1234 07 1f 07ff a0b1c2 01020304";
    tried.assert_sent(0x0050, &format!("{ACTIVE_TLV} {remote}"));
    assert_eq!(tried.end.peer.map(|peer| peer.state), Some(0xFF)); // raw
}

/// B33: the revision grows even while nothing can be sent.
#[test]
fn link_down_ends_looping_and_counts_it() {
    let mut tried = Tried::any(active());
    tried.receive(&frame(DONE, ENABLE_BODY));
    assert_eq!(tried.end.revision, 1);
    tried.report(Report::LinkDown);
    tried.assert_silent();
    assert_eq!((tried.end.role, tried.end.revision), (Role::Idle, 2));
    assert!(!tried.end.owed);
}

#[test]
fn the_revision_goes_from_65535_to_0() {
    let mut tried = Tried::any(active());
    tried.end.revision = 65_534;
    tried.receive(&frame(DONE, ENABLE_BODY));
    assert_eq!(tried.end.revision, 65_535);
    tried.receive(&frame(DONE, DISABLE_BODY));
    assert_eq!(tried.end.revision, 0);
}

/// The frame carries what stands after its call.
#[test]
fn an_obeyed_enable_is_answered_by_the_new_state() {
    let mut tried = Tried::any(active());
    tried.receive(&frame(DONE, ENABLE_BODY));
    let local = ACTIVE_TLV.replacen("0000 00", "0001 05", 1);
    let remote = peer_tlv("00").replacen("01", "02", 1);
    tried.assert_sent(0x0050, &format!("{local} {remote}"));
}
