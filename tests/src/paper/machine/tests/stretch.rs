//! Ten frames over any eleven successive tick intervals (change request (ii)).

use super::*;

/// A frame is counted where it is written, a tick's own in the interval that the
/// tick opens.
#[test]
fn each_frame_is_counted_in_its_interval() {
    let mut tried = Tried::any(active());
    assert_eq!(tried.end.intervals, only_now(2));
    tried.ticks(3);
    tried.requests(1);
    tried.ticks(7); // the tenth writes
    tried.requests(2);
    assert_eq!(tried.end.intervals, [3, 0, 0, 0, 0, 0, 0, 1, 0, 0, 2]);
    tried.tick();
    assert_eq!(tried.end.intervals, [0, 3, 0, 0, 0, 0, 0, 0, 1, 0, 0]);
    assert_eq!(tried.end.written(), 4);
}

/// B50: the eleventh frame of a request is 13; owed frames wait, and the next tick
/// that finds room writes one for all of them.
#[test]
fn ten_frames_in_one_interval_silence_an_end_for_ten_ticks() {
    let mut tried = Tried::any(active());
    tried.fill_stretch();
    assert_eq!(tried.organize(), answer::LIMIT);
    assert_eq!(tried.start(), answer::LIMIT);
    assert_eq!(tried.notify(), answer::LIMIT);
    tried.report(Report::DyingGaspSet);
    tried.assert_silent();
    assert!(tried.end.owed);
    for _ in 0..10 {
        tried.tick();
        tried.assert_silent();
        assert_eq!((tried.end.written(), tried.end.owed), (10, true));
        assert_eq!(tried.organize(), answer::LIMIT);
    }
    tried.tick();
    let remote = peer_tlv("00").replacen("01", "02", 1);
    tried.assert_sent(0x0052, &format!("{ACTIVE_TLV} {remote}"));
    assert_eq!((tried.end.intervals, tried.end.owed), (only_now(1), false));
    tried.tick();
    tried.assert_silent(); // one frame settled both
}

/// Four in the present interval, the tenth tick's own among them, and six ten
/// intervals ago.
#[test]
fn the_tenth_frame_of_a_stretch_is_granted_and_the_eleventh_is_13() {
    let mut tried = Tried::any(active());
    tried.requests(4);
    assert_eq!(tried.end.intervals, only_now(6));
    tried.ticks(10);
    tried.requests(2);
    assert_eq!(tried.end.intervals, [3, 0, 0, 0, 0, 0, 0, 0, 0, 0, 6]);
    assert_eq!(tried.organize(), answer::ACCEPTED);
    assert_eq!(tried.organize(), answer::LIMIT);
    tried.tick();
    assert_eq!(tried.end.intervals, [0, 4, 0, 0, 0, 0, 0, 0, 0, 0, 0]);
    tried.requests(6);
    assert_eq!(tried.organize(), answer::LIMIT);
}

/// At every phase: after ten ticks 13, after eleven 0, and the tick before has
/// written the frame that waited.
#[test]
fn ten_frames_and_ten_ticks_are_13_and_eleven_ticks_are_0() {
    for phase in 0..10 {
        let mut tried = Tried::any(active());
        tried.end.ticks = phase;
        tried.fill_stretch();
        tried.ticks(10);
        assert_eq!((tried.end.written(), tried.end.owed), (10, true), "{phase}");
        assert_eq!(tried.organize(), answer::LIMIT, "{phase}");
        tried.tick();
        assert_eq!((tried.end.written(), tried.end.owed), (1, false), "{phase}");
        assert_eq!(tried.organize(), answer::ACCEPTED, "{phase}");
    }
}

/// What is due where the stretch is full is not lost.
#[test]
fn a_due_frame_waits_for_the_oldest_interval_to_leave() {
    let mut tried = Tried::any(active());
    tried.end.intervals = [0, 0, 0, 0, 5, 0, 0, 0, 5, 0, 0];
    tried.end.ticks = 9;
    tried.tick();
    tried.assert_silent();
    assert_eq!((tried.end.ticks, tried.end.owed), (0, true));
    tried.tick();
    tried.assert_silent();
    assert_eq!(tried.end.written(), 10);
    tried.tick();
    assert_eq!((tried.sent.len(), tried.end.owed), (60, false));
    assert_eq!(tried.end.intervals, [1, 0, 0, 0, 0, 0, 0, 5, 0, 0, 0]);
}

#[test]
fn a_waiting_frame_is_dropped_where_none_is_allowed() {
    let mut tried = Tried::any(active());
    tried.fill_stretch();
    tried.ticks(10);
    assert!(tried.end.owed);
    tried.report(Report::LinkDown);
    assert!(!tried.end.owed);
    tried.tick();
    assert_eq!(tried.end.intervals, only_now(0)); // with the link down too
    tried.assert_silent();
}

/// Due where it is not allowed: nothing is owed, also not once it is allowed.
#[test]
fn a_frame_that_is_due_and_not_allowed_does_not_wait() {
    let mut tried = Tried::up(passive());
    tried.end.intervals = only_now(10);
    tried.ticks(10);
    assert!(!tried.end.owed);
    let both_passive = frame(0, &format!("00 {PASSIVE_TLV}"));
    tried.receive(&both_passive);
    assert!(tried.end.allows_information() && !tried.end.owed);
}

/// Only a tick makes room; what a request leaves owed waits for no room.
#[test]
fn what_a_request_leaves_owed_is_written_by_a_receive_and_by_a_report() {
    let mut tried = Tried::any(active());
    tried.start();
    assert!(tried.end.owed);
    tried.receive(&frame(DONE, "fe"));
    assert_eq!((tried.sent.len(), tried.end.owed), (60, false));
    tried.receive(&frame(DONE, &format!("00 {}", peer_tlv("05"))));
    tried.stop();
    assert!(tried.end.owed);
    tried.report(Report::LinkUp);
    assert_eq!((tried.sent.len(), tried.end.owed), (60, false));
}
