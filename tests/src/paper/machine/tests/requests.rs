//! The requests: their order of refusal, the sizes, and the event number.

use super::*;

const GOOD: [u32; 1] = [0x07_0002];

/// One request with values in range or not.
type Request = fn(&End, &mut [u8]) -> Result<Step, u8>;

const BAD: [Request; 3] = [
    |end, out| end.variables(&[0x00_0002], out),
    |end, out| end.notify(&[5, 0, 0, 0, 0, 0, 0], out),
    |end, out| end.organization(0, &[0; 38], out),
];
const ALL: [Request; 5] = [
    |end, out| end.start(out),
    |end, out| end.stop(out),
    |end, out| end.variables(&GOOD, out),
    |end, out| end.notify(&EVENT, out),
    |end, out| end.organization(0xA0_B1C2, &[7; 39], out),
];

#[test]
fn values_come_before_discovery() {
    let down = Tried::fresh(passive());
    let any = Tried::any(active());
    for request in BAD {
        assert_eq!(request(&down.end, &mut []), Err(answer::VALUES));
        assert_eq!(request(&any.end, &mut []), Err(answer::VALUES));
    }
}

#[test]
fn without_send_any_every_request_is_11() {
    for settings in [active(), passive()] {
        let mut tried = Tried::up(settings);
        for request in ALL {
            assert_eq!(request(&tried.end, &mut []), Err(answer::NOT_SEND_ANY));
        }
        tried.receive(&frame(0x0008, &format!("00 {}", peer_tlv("00"))));
        assert_eq!(tried.end.discovery, Discovery::SendLocalRemoteOk);
        for request in ALL {
            assert_eq!(request(&tried.end, &mut []), Err(answer::NOT_SEND_ANY));
        }
    }
}

/// B35: a passive end may notify and send an organization's data, and nothing
/// but bit 2 for start is asked of the peer.
#[test]
fn a_passive_end_may_not_ask() {
    let end = Tried::any(passive()).end;
    let answers = ALL.map(|request| request(&end, &mut [0; 60]).err());
    let no = Some(answer::FORBIDDEN);
    assert_eq!(answers, [no, no, no, None, None]);
}

#[test]
fn start_needs_a_peer_with_loopback_and_stop_does_not() {
    let mut tried = Tried::any(active());
    let bare = peer_tlv("00").replacen("0d", "01", 1);
    tried.receive(&frame(DONE, &format!("00 {bare}")));
    assert_eq!(tried.start(), answer::FORBIDDEN);
    tried.end.role = Role::Asking;
    assert_eq!(tried.start(), answer::FORBIDDEN);
    assert_eq!(tried.stop(), answer::ACCEPTED);
    let answer = tried.call(|end, out| end.variables(&GOOD, out));
    assert_eq!(answer, answer::ACCEPTED);
}

/// 15, then 12, then 13, then 9.
#[test]
fn the_refusals_come_in_order() {
    let small = Settings {
        size: 99,
        ..passive()
    };
    let descriptors = [0x07_0002; 26]; // 96 octets, and 4 are 100
    let ask: Request = |end, out| end.variables(&[0x07_0002; 26], out);
    let mut end = Tried::any(small).end;
    end.intervals = only_now(MOST_FRAMES);
    assert_eq!(ask(&end, &mut []), Err(answer::FORBIDDEN));
    end.settings.configuration = 0x1D;
    assert_eq!(ask(&end, &mut []), Err(answer::SIZE));
    end.settings.size = 100;
    assert_eq!(ask(&end, &mut []), Err(answer::LIMIT));
    end.intervals = only_now(9);
    let mut out = [0xEE; 95];
    assert_eq!(ask(&end, &mut out), Err(answer::OUTPUT));
    assert_eq!(out, [0xEE; 95]);
    let step = end.variables(&descriptors, &mut [0; 96]).expect("room");
    assert_eq!((step.length, step.end.written()), (96, 10));
}

#[test]
fn the_smaller_of_the_two_sizes_counts() {
    let mut tried = Tried::any(active()); // own 1518, the peer's 512
    let mut data = vec![7; 512 - FCS - 21];
    let answer = tried.call(|end, out| end.organization(1, &data, out));
    assert_eq!((answer, tried.sent.len()), (answer::ACCEPTED, 508));
    data.push(7);
    let answer = tried.call(|end, out| end.organization(1, &data, out));
    assert_eq!(answer, answer::SIZE);
    tried.receive(&frame(DONE, "00 01 10 01 0007 00 0d ffff a0b1c2 01020304"));
    data.resize(1493, 7);
    let answer = tried.call(|end, out| end.organization(1, &data, out));
    assert_eq!((answer, tried.sent.len()), (answer::ACCEPTED, 1514));
}

/// Change request (vi): sixteen symbol period events take 660 octets, "still within both
/// ends' sizes"; "10 now starts at 17 events", and 10 comes before 12.
#[test]
fn sixteen_events_need_a_size_of_664_and_17_are_10_at_any() {
    let mut tried = Tried::any(active());
    tried.receive(&frame(DONE, "00 01 10 01 0007 00 0d 05ee a0b1c2 01020304"));
    let events = [1, 0, 0, 0, 0, 0, 0].repeat(17);
    let (no, yes) = (Err(answer::SIZE), Ok(660));
    for (size, sixteen) in [(64, no), (663, no), (664, yes), (1518, yes)] {
        tried.end.settings.size = size;
        let notified = |events| tried.end.notify(events, &mut [0; 660]);
        let length = notified(&events[..7 * 16]).map(|step| step.length);
        assert_eq!(length, sixteen, "size {size}");
        assert_eq!(notified(&events), Err(answer::VALUES), "size {size}");
    }
}

#[test]
fn requests_write_their_frames_and_not_what_is_owed() {
    let mut tried = Tried::any(active());
    tried.end.owed = true;
    tried.call(|end, out| end.variables(&GOOD, out));
    assert_eq!(tried.sent, frame_from(OWN, 0x0050, "02 07 0002"));
    tried.notify();
    let body = "01 0000 04 12 0001 0002 0003 0004 00000005 00000006";
    assert_eq!(tried.sent, frame_from(OWN, 0x0050, body));
    tried.organize();
    let body = format!("fe a0b1c2 {}", "07".repeat(39));
    assert_eq!(tried.sent, frame_from(OWN, 0x0050, &body));
    assert!(tried.end.owed);
    assert_eq!(tried.end.written(), 5);
}

/// B34: the first notification carries 0; 65,535 is followed by 0.
#[test]
fn event_numbers_count_accepted_notifications() {
    let mut tried = Tried::any(active());
    let number = |tried: &Tried| joined(&tried.sent[18..20]);
    tried.notify();
    assert_eq!((number(&tried), tried.end.event_number), (0, 1));
    assert_eq!(tried.end.notify(&EVENT, &mut [0; 59]), Err(answer::OUTPUT));
    tried.notify();
    assert_eq!((number(&tried), tried.end.event_number), (1, 2));
    tried.end.event_number = 65_535;
    tried.notify();
    assert_eq!((number(&tried), tried.end.event_number), (65_535, 0));
}

/// The number goes on over FAULT.
#[test]
fn the_event_number_sent_outlives_fault() {
    let mut tried = Tried::any(active());
    tried.notify();
    tried.report(Report::LinkDown);
    assert_eq!(tried.end.event_number, 1);
}
