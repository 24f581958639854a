//! Discovery, the lost-link count, and received events.

use super::*;
use Discovery::*;

#[test]
fn an_active_end_begins_and_a_passive_one_waits() {
    let tried = Tried::up(active());
    assert_eq!(tried.end.discovery, ActiveSendLocal);
    tried.assert_sent(0x0008, ACTIVE_TLV);
    let tried = Tried::up(passive());
    assert_eq!(tried.end.discovery, PassiveWait);
    tried.assert_silent();
}

/// An active end and a passive one, each frame delivered at once.
#[test]
fn two_ends_discover_each_other() {
    let (mut one, mut other) = (Tried::up(active()), Tried::up(passive()));
    other.receive(&one.sent);
    assert_eq!(other.end.discovery, SendLocalRemoteOk);
    let remote = ACTIVE_TLV.replacen("01", "02", 1);
    other.assert_sent(0x0030, &format!("{PASSIVE_TLV} {remote}"));

    one.receive(&other.sent);
    assert_eq!(one.end.discovery, SendAny);
    let remote = PASSIVE_TLV.replacen("01", "02", 1);
    one.assert_sent(0x0050, &format!("{ACTIVE_TLV} {remote}"));

    other.receive(&one.sent);
    assert_eq!(other.end.discovery, SendAny);
    assert_eq!(other.end.flags(), 0x0050);
    one.receive(&other.sent);
    one.assert_silent(); // nothing changed
}

/// Where an end goes when it receives this Local TLV and field 2.
fn reached(settings: Settings, tlv: &str) -> Discovery {
    let mut tried = Tried::up(settings);
    tried.receive(&frame(DONE, &format!("00 {tlv}")));
    tried.end.discovery
}

#[test]
fn each_condition_of_satisfied_is_needed() {
    let rest = "001b21 deadbeef";
    let tlv = |version, configuration, size| {
        format!("01 10 {version} 0000 00 {configuration} {size} {rest}")
    };
    let requiring = Settings {
        required: 0x14,
        ..active()
    };
    for (settings, tlv, expected) in [
        (active(), tlv("01", "00", "0040"), SendAny),
        (active(), tlv("02", "00", "0040"), SendLocalRemote),
        (active(), tlv("00", "00", "0040"), SendLocalRemote),
        (active(), tlv("01", "00", "003f"), SendLocalRemote),
        (active(), tlv("01", "00", "f83f"), SendLocalRemote), // ignored bits
        (active(), tlv("01", "e0", "ffff"), SendAny),
        (passive(), tlv("01", "01", "0040"), SendAny),
        (passive(), tlv("01", "1e", "0040"), SendLocalRemote), // both passive
        (requiring, tlv("01", "14", "0040"), SendAny),
        (requiring, tlv("01", "1f", "0040"), SendAny),
        (requiring, tlv("01", "10", "0040"), SendLocalRemote),
        (requiring, tlv("01", "0b", "0040"), SendLocalRemote),
    ] {
        assert_eq!(reached(settings, &tlv), expected, "{settings:?}, {tlv}");
    }
}

/// B29: the flags of a passive end stay 0, and its first frame waits.
#[test]
fn a_passive_end_that_is_not_satisfied_owes_nothing() {
    let mut tried = Tried::up(passive());
    let tlv = PASSIVE_TLV; // both passive
    tried.receive(&frame(0, &format!("00 {tlv}")));
    assert_eq!(tried.end.discovery, SendLocalRemote);
    tried.assert_silent();
    tried.ticks(9);
    tried.assert_silent();
    tried.tick();
    let remote = tlv.replacen("01", "02", 1);
    tried.assert_sent(0, &format!("{PASSIVE_TLV} {remote}"));
}

#[test]
fn field_3_keeps_the_last_value() {
    let mut tried = Tried::up(active());
    let tlv = format!("00 {}", peer_tlv("00"));
    tried.receive(&frame(0x0018, &tlv));
    assert_eq!(
        (tried.end.kept_field, tried.end.discovery),
        (0, SendLocalRemoteOk)
    );
    tried.receive(&frame(0x0010, &tlv));
    tried.receive(&frame(0x0018, &tlv));
    assert_eq!((tried.end.kept_field, tried.end.discovery), (2, SendAny));
    tried.receive(&frame(0xFFEF, &tlv)); // field 1, all other bits ignored
    assert_eq!(
        (tried.end.kept_field, tried.end.discovery),
        (1, SendLocalRemoteOk)
    );
}

/// A1: without a peer record the remote field sent is 0.
#[test]
fn the_remote_field_waits_for_the_record() {
    let mut tried = Tried::up(active());
    tried.receive(&frame(0x0010, "fe")); // no Local TLV
    assert_eq!(
        (tried.end.kept_field, tried.end.discovery),
        (2, ActiveSendLocal)
    );
    assert_eq!(tried.end.flags(), 0x0008);
    tried.assert_silent();
    // The record's arrival with field 3: the kept 2 is sent and takes effect.
    tried.receive(&frame(0x0018, &format!("00 {}", peer_tlv("00"))));
    assert_eq!(tried.end.discovery, SendAny);
    let remote = peer_tlv("00").replacen("01", "02", 1);
    tried.assert_sent(0x0050, &format!("{ACTIVE_TLV} {remote}"));
}

#[test]
fn send_any_is_left_by_the_field_and_by_the_tlv() {
    let mut tried = Tried::any(active());
    tried.receive(&frame(0x0008, "fe"));
    assert_eq!(tried.end.discovery, SendLocalRemoteOk);
    tried.receive(&frame(0x0010, "fe"));
    assert_eq!(tried.end.discovery, SendAny);
    let unsatisfying = "00 01 10 02 0000 00 0d 0200 a0b1c2 01020304";
    tried.receive(&frame(DONE, unsatisfying));
    assert_eq!(tried.end.discovery, SendLocalRemote);
    assert_eq!(tried.end.flags(), 0x0040);
    tried.receive(&frame(0x0008, unsatisfying));
    assert_eq!(tried.end.discovery, SendLocalRemote);
    assert_eq!(tried.end.flags(), 0x0020);
}

/// B51: 49 stays, 50 enters FAULT.
#[test]
fn the_lost_link_count_of_50_enters_fault() {
    let mut tried = Tried::any(passive());
    tried.receive(&frame(DONE, "01 0102"));
    tried.ticks(49);
    assert_eq!((tried.end.lost_link, tried.end.discovery), (49, SendAny));
    tried.tick();
    assert_eq!((tried.end.lost_link, tried.end.discovery), (0, PassiveWait));
    assert_eq!((tried.end.peer, tried.end.kept_field), (None, 0));
    assert_eq!(tried.end.last_event, None);
    assert!(tried.end.link_up);
}

#[test]
fn an_accepted_frame_restarts_the_count_and_a_refused_one_does_not() {
    let mut tried = Tried::any(active());
    tried.ticks(49);
    tried.receive(&frame(DONE, "03"));
    assert_eq!(tried.end.lost_link, 0);
    tried.ticks(49);
    let refused = frame(DONE, "04 03");
    let answer = tried.call(|end, out| end.receive(&refused, out));
    assert_eq!((answer, tried.end.lost_link), (answer::COMMAND, 49));
    tried.tick();
    assert_eq!(tried.end.discovery, ActiveSendLocal);
}

/// B6: 9 comes first in tick, report and receive, and nothing is counted.
#[test]
fn an_output_below_60_refuses_before_all() {
    let end = Tried::any(active()).end;
    let mut out = [0xEE; 59];
    assert_eq!(end.tick(&mut out), Err(answer::OUTPUT));
    let report = end.report(Report::LinkUp, &mut out);
    assert_eq!(report, Err(answer::OUTPUT));
    assert_eq!(end.receive(&[], &mut out), Err(answer::OUTPUT));
    assert_eq!(end.receive(&[], &mut [0; 60]), Err(answer::LENGTH));
    assert_eq!(out, [0xEE; 59]);
}

/// B24: link down leaves the count, link up after it clears it.
#[test]
fn link_up_after_link_down_clears_the_count() {
    let mut tried = Tried::any(active());
    tried.ticks(30);
    tried.report(Report::LinkDown);
    assert_eq!((tried.end.discovery, tried.end.lost_link), (Fault, 30));
    assert_eq!((tried.end.peer, tried.end.kept_field), (None, 0));
    tried.ticks(100);
    tried.report(Report::LinkDown);
    assert_eq!(tried.end.lost_link, 30);
    tried.report(Report::LinkUp);
    assert_eq!(tried.end.lost_link, 0);
    tried.ticks(20);
    tried.report(Report::LinkUp);
    assert_eq!(tried.end.lost_link, 20);
}

#[test]
fn a_frame_with_the_link_down_is_answered_and_not_kept() {
    let mut tried = Tried::fresh(active());
    tried.receive(&frame(DONE, &format!("00 {}", peer_tlv("00"))));
    assert_eq!(tried.shown, Shown::Frame);
    assert_eq!(tried.end, Tried::fresh(active()).end);
    tried.receive(&frame(DONE, "01 0001"));
    assert_eq!(tried.shown, Shown::Frame);
    let refused = frame(DONE, "05");
    let answer = tried.call(|end, out| end.receive(&refused, out));
    assert_eq!(answer, answer::CODE);
}

#[test]
fn a_frame_with_the_link_down_still_writes_what_is_owed() {
    let mut tried = Tried::any(Settings {
        configuration: 0x1F,
        ..active()
    });
    tried.fill_stretch();
    tried.report(Report::LinkDown);
    tried.assert_silent();
    assert!(tried.end.owed);
    tried.end.intervals = only_now(9);
    tried.receive(&frame(DONE, "fe"));
    tried.assert_sent(0x0001, "");
    assert_eq!((tried.end.written(), tried.end.owed), (10, false));
}

#[test]
fn an_event_number_received_again_shows_no_events() {
    let mut tried = Tried::any(active());
    for (number, shown) in [
        ("0005", Shown::Events),
        ("0005", Shown::Frame),
        ("0006", Shown::Events), // no events in it, and new all the same
        ("0005", Shown::Events),
        ("0000", Shown::Events),
    ] {
        tried.receive(&frame(DONE, &format!("01 {number}")));
        assert_eq!(tried.shown, shown, "{number}");
    }
    tried.receive(&frame(DONE, "fe"));
    assert_eq!((tried.shown, tried.end.last_event), (Shown::Frame, Some(0)));
}

#[test]
fn only_send_any_keeps_an_event_number() {
    let mut tried = Tried::any(active());
    tried.receive(&frame(0x0008, "01 0005")); // leaves SEND_ANY
    assert_eq!((tried.shown, tried.end.last_event), (Shown::Frame, None));
    tried.receive(&frame(0x0010, "01 0005")); // begins it again
    assert_eq!(
        (tried.shown, tried.end.last_event),
        (Shown::Events, Some(5))
    );
    tried.receive(&frame(0x0008, "01 0006"));
    tried.receive(&frame(0x0010, "01 0005")); // kept since FAULT was entered
    assert_eq!(tried.shown, Shown::Frame);
    tried.report(Report::LinkDown);
    tried.report(Report::LinkUp);
    let local = format!("00 {}", peer_tlv("00"));
    tried.receive(&frame(DONE, &local));
    tried.receive(&frame(DONE, "01 0005"));
    assert_eq!(tried.shown, Shown::Events);
}

/// A2: any code brings the field, and may begin SEND_ANY and act there.
#[test]
fn an_enable_may_begin_send_any_and_be_obeyed() {
    let mut tried = Tried::up(active());
    tried.receive(&frame(0x0008, &format!("00 {}", peer_tlv("00"))));
    assert_eq!(tried.end.discovery, SendLocalRemoteOk);
    tried.receive(&frame(0x0008, ENABLE_BODY));
    assert_eq!(tried.end.role, Role::Idle);
    tried.receive(&frame(DONE, ENABLE_BODY));
    assert_eq!(
        (tried.end.discovery, tried.end.role),
        (SendAny, Role::Looping)
    );
}

/// B40 and B41: what leaves SEND_ANY ends looping, be it an enable itself.
#[test]
fn leaving_send_any_makes_the_role_idle() {
    for body in [ENABLE_BODY, "00", "fe"] {
        let mut tried = Tried::any(active());
        tried.receive(&frame(DONE, ENABLE_BODY));
        assert_eq!((tried.end.role, tried.end.revision), (Role::Looping, 1));
        tried.receive(&frame(0x0001, body));
        assert_eq!(
            (tried.end.discovery, tried.end.role),
            (SendLocalRemoteOk, Role::Idle)
        );
        assert_eq!(tried.end.revision, 2);
    }
}
