//! The writers against octets written by hand, and against each rule of the
//! plain form.

use super::*;
use crate::paper::tests::{frame, octets, LOCAL, REMOTE};
use crate::paper::{read, Draft};

const SOURCE: u64 = 0x0200_0000_0001;
const FLAGS: u16 = 0x0050;
/// The numbers of `LOCAL` and of `REMOTE`.
const LOCAL_NUMBERS: [u64; 7] = [1, 42, 0x05, 0x1D, 1518, 0x00_1B21, 0xDEAD_BEEF];
const REMOTE_NUMBERS: [u64; 7] = [1, 65_535, 0x02, 0x0F, 64, 0xA0_B1C2, 0x0102_0304];

fn draft(body: DraftBody) -> Draft {
    Draft {
        source: SOURCE,
        flags: FLAGS,
        body,
    }
}

fn information(local: &[u64], remote: &[u64]) -> Draft {
    let (local, remote) = (local.to_vec(), remote.to_vec());
    draft(DraftBody::Information { local, remote })
}

fn notification(number: u16, events: &[u64]) -> Draft {
    let events = events.to_vec();
    draft(DraftBody::Notification { number, events })
}

fn request(descriptors: &[u32]) -> Draft {
    let descriptors = descriptors.to_vec();
    draft(DraftBody::Request { descriptors })
}

fn response(containers: &str) -> Draft {
    let containers = octets(containers);
    draft(DraftBody::Response { containers })
}

fn loopback(command: u8) -> Draft {
    draft(DraftBody::Loopback { command })
}

fn organization(oui: u32, count: usize) -> Draft {
    let data = vec![0x5A; count];
    draft(DraftBody::Organization { oui, data })
}

fn with_flags(mut draft: Draft, flags: u16) -> Draft {
    draft.flags = flags;
    draft
}

/// The frame that is written into 2,000 octets, or the answer. What a refusal or
/// a frame does not say it fills keeps its value.
fn written(draft: &Draft) -> Result<Vec<u8>, u8> {
    let mut out = [0xEE; 2000];
    let answer = write(draft, &mut out);
    let length = answer.unwrap_or(0);
    assert!(out[length..].iter().all(|&octet| octet == 0xEE));
    answer.map(|length| out[..length].to_vec())
}

fn is_refused(draft: &Draft) -> bool {
    written(draft) == Err(10)
}

// Whole frames.

#[test]
fn an_information_frame_is_local_then_remote_and_zeros() {
    let both = information(&LOCAL_NUMBERS, &REMOTE_NUMBERS);
    assert_eq!(written(&both), Ok(frame(&format!("00 {LOCAL} {REMOTE}"))));
    let local = information(&LOCAL_NUMBERS, &[]);
    assert_eq!(written(&local), Ok(frame(&format!("00 {LOCAL}"))));
    assert_eq!(written(&information(&[], &[])), Ok(frame("00")));
}

/// A notification of number 1234 with one event of each of these octets.
fn notifying(tlvs: &str) -> Result<Vec<u8>, u8> {
    Ok(frame(&format!("01 1234 {tlvs}")))
}

const SYMBOL_PERIOD: [u64; 7] = [1, 10, 125_000_000, 1, 3, 4_294_967_296, 7];
const FRAME: [u64; 7] = [2, 0x1234, 10, 1, 5, 256, 2];
const FRAME_PERIOD: [u64; 7] = [
    3,
    65_535,
    1_488_095,
    10,
    16_777_216,
    u64::MAX,
    2_147_483_648,
];
const FRAME_SECONDS: [u64; 7] = [4, 0, 600, 1, 60, 256, 4_294_967_295];

const SYMBOL_PERIOD_TLV: &str = "01 28 000a 0000000007735940 0000000000000001 \
                                 0000000000000003 0000000100000000 00000007";
const FRAME_TLV: &str = "02 1a 1234 000a 00000001 00000005 0000000000000100 00000002";
const FRAME_PERIOD_TLV: &str = "03 1c ffff 0016b4df 0000000a 01000000 ffffffffffffffff 80000000";
const FRAME_SECONDS_TLV: &str = "04 12 0000 0258 0001 003c 00000100 ffffffff";

#[test]
fn each_event_is_written_by_its_row_of_the_table() {
    for (event, tlv) in [
        (SYMBOL_PERIOD, SYMBOL_PERIOD_TLV),
        (FRAME, FRAME_TLV),
        (FRAME_PERIOD, FRAME_PERIOD_TLV),
        (FRAME_SECONDS, FRAME_SECONDS_TLV),
    ] {
        assert_eq!(written(&notification(0x1234, &event)), notifying(tlv));
    }
}

#[test]
fn events_follow_each_other_and_the_length_is_theirs() {
    let events = [FRAME_SECONDS, SYMBOL_PERIOD, FRAME_PERIOD, FRAME].concat();
    let tlvs = [
        FRAME_SECONDS_TLV,
        SYMBOL_PERIOD_TLV,
        FRAME_PERIOD_TLV,
        FRAME_TLV,
    ]
    .concat();
    let frame = written(&notification(0x1234, &events));
    assert_eq!(frame.as_ref().map(Vec::len), Ok(20 + 18 + 40 + 28 + 26));
    assert_eq!(frame, notifying(&tlvs));
}

#[test]
fn a_list_that_ends_at_60_or_later_has_no_zero_behind_it() {
    // A symbol period event ends at octet 60, fourteen descriptors too.
    let event = written(&notification(1, &SYMBOL_PERIOD));
    assert_eq!(event.map(|frame| frame.len()), Ok(60));
    for (count, length) in [(1, 60), (13, 60), (14, 60), (15, 63), (32, 114)] {
        let frame = written(&request(&vec![0x07_1234; count]));
        assert_eq!(frame.map(|frame| frame.len()), Ok(length), "{count}");
    }
}

#[test]
fn a_request_is_its_descriptors() {
    let descriptors = request(&[0x07_0002, 0xFF_FFFF, 0x01_0000]);
    assert_eq!(
        written(&descriptors),
        Ok(frame("02 07 0002 ff ffff 01 0000"))
    );
}

#[test]
fn a_response_is_its_containers_and_zeros() {
    for containers in ["", "07 0002 a1", "07 0002 02 aabb ff ffff ff 01 0000 01 00"] {
        let expected = frame(&format!("03 {containers}"));
        assert_eq!(written(&response(containers)), Ok(expected));
    }
    let widest = format!("07 0002 00 {}", "aa".repeat(128));
    let expected = frame(&format!("03 {widest}"));
    assert_eq!(expected.len(), 150);
    assert_eq!(written(&response(&widest)), Ok(expected));
}

/// Containers that end at octets 58 to 61 of the frame.
#[test]
fn a_response_has_a_terminator_only_below_octet_60() {
    for (width, length) in [(36, 60), (37, 60), (38, 60), (39, 61)] {
        let containers = format!("07 0002 {width:02x} {}", "aa".repeat(width));
        let frame = written(&response(&containers)).expect("plain");
        assert_eq!(frame.len(), length, "{width}");
        assert!(frame[22 + width..].iter().all(|&octet| octet == 0));
    }
}

#[test]
fn a_loopback_frame_is_its_command_and_zeros() {
    assert_eq!(written(&loopback(1)), Ok(frame("04 01")));
    assert_eq!(written(&loopback(2)), Ok(frame("04 02")));
}

#[test]
fn an_organizations_frame_is_oui_and_data() {
    let shortest = format!("fe aabbcc {}", "5a".repeat(39));
    assert_eq!(written(&organization(0xAA_BBCC, 39)), Ok(frame(&shortest)));
    let longest = written(&organization(0xFF_FFFF, 1493));
    assert_eq!(longest.map(|frame| frame.len()), Ok(1514));
}

#[test]
fn what_is_written_reads_as_it_was_meant() {
    for draft in [
        information(&LOCAL_NUMBERS, &REMOTE_NUMBERS),
        notification(65_535, &[FRAME, FRAME_SECONDS].concat()),
        request(&[0x07_0002; 32]),
        response("07 0002 a1 07 0003 02 aabb"),
        response(""),
        loopback(2),
        organization(0, 100),
    ] {
        let frame = written(&draft).expect("plain");
        let message = read(&frame).expect("accepted");
        assert_eq!(Draft::of(&message), draft);
    }
}

// 10.

#[test]
fn flags_are_plain_by_their_own_bits() {
    for flags in 0..=u16::MAX {
        let fields = [(flags >> 3) % 4, (flags >> 5) % 4];
        let plain = flags < 128 && !fields.contains(&3);
        let answer = written(&with_flags(loopback(1), flags)).map(|_| ());
        assert_eq!(answer.is_ok(), plain, "flags {flags:04x}");
    }
}

#[test]
fn the_link_fault_flag_asks_for_no_tlv_and_forbids_none() {
    let fault = 0x0001;
    assert!(written(&with_flags(information(&[], &[]), fault)).is_ok());
    assert!(written(&with_flags(information(&LOCAL_NUMBERS, &[]), fault)).is_ok());
    assert!(written(&with_flags(information(&[], &[]), 0)).is_ok());
}

#[test]
fn a_source_is_48_bits() {
    let mut draft = loopback(1);
    draft.source = 0xFFFF_FFFF_FFFF;
    let frame = written(&draft).expect("plain");
    assert_eq!(frame[6..12], [0xFF; 6]);
    draft.source += 1;
    assert!(is_refused(&draft));
    draft.source = u64::MAX;
    assert!(is_refused(&draft));
}

#[test]
fn a_tlv_is_seven_numbers_or_none() {
    for count in 1..20 {
        let numbers: Vec<u64> = LOCAL_NUMBERS.iter().cycle().take(count).copied().collect();
        let right = count == 7;
        assert_eq!(written(&information(&numbers, &[])).is_ok(), right);
        let remote = information(&LOCAL_NUMBERS, &numbers);
        assert_eq!(written(&remote).is_ok(), right);
    }
}

#[test]
fn remote_without_local_is_10() {
    assert!(is_refused(&information(&[], &REMOTE_NUMBERS)));
}

#[test]
fn each_field_of_a_tlv_has_its_greatest_value() {
    let greatest = [0xFF, 0xFFFF, 0x07, 0x1F, 0x07FF, 0xFF_FFFF, 0xFFFF_FFFF];
    let whole = information(&greatest, &greatest);
    let tlv = "10 ff ffff 07 1f 07ff ffffff ffffffff";
    assert_eq!(written(&whole), Ok(frame(&format!("00 01 {tlv} 02 {tlv}"))));
    for field in 0..7 {
        for beyond in [greatest[field] + 1, u64::MAX] {
            let mut numbers = greatest;
            numbers[field] = beyond;
            assert!(is_refused(&information(&numbers, &[])), "field {field}");
            assert!(is_refused(&information(&LOCAL_NUMBERS, &numbers)));
        }
    }
}

#[test]
fn a_reserved_parser_is_plain() {
    let mut numbers = LOCAL_NUMBERS;
    numbers[2] = 0x03;
    assert!(written(&information(&numbers, &numbers)).is_ok());
}

#[test]
fn one_to_sixteen_events_are_plain() {
    for count in 0..=40 {
        let frame = written(&notification(0, &FRAME.repeat(count)));
        assert_eq!(frame.is_ok(), (1..=16).contains(&count), "{count} events");
    }
}

#[test]
fn the_longest_notification_has_660_octets() {
    let tlvs = SYMBOL_PERIOD_TLV.repeat(16);
    let frame = written(&notification(0x1234, &SYMBOL_PERIOD.repeat(16)));
    assert_eq!(frame.as_ref().map(Vec::len), Ok(660));
    assert_eq!(frame, notifying(&tlvs));
    assert!(is_refused(&notification(0x1234, &SYMBOL_PERIOD.repeat(17))));
}

#[test]
fn events_are_whole() {
    for length in 0..=7 * 17 {
        let numbers: Vec<u64> = FRAME.iter().cycle().take(length).copied().collect();
        let whole = length % 7 == 0 && (7..=112).contains(&length);
        assert_eq!(written(&notification(0, &numbers)).is_ok(), whole);
    }
}

#[test]
fn event_types_are_1_to_4() {
    for kind in (0..300).chain([65_537, 1 << 32 | 1, u64::MAX]) {
        let event = [kind, 0, 0, 0, 0, 0, 0];
        let known = (1..=4).contains(&kind);
        assert_eq!(written(&notification(0, &event)).is_ok(), known, "{kind}");
    }
}

#[test]
fn each_value_of_an_event_has_its_width() {
    let (two, four) = (u64::from(u16::MAX), u64::from(u32::MAX));
    let eight = u64::MAX;
    let greatest = [
        [1, two, eight, eight, eight, eight, four],
        [2, two, two, four, four, eight, four],
        [3, two, four, four, four, eight, four],
        [4, two, two, two, two, four, four],
    ];
    for event in greatest {
        assert!(written(&notification(0, &event)).is_ok());
        for field in (1..7).filter(|&field| event[field] < eight) {
            let mut beyond = event;
            beyond[field] += 1;
            assert!(is_refused(&notification(0, &beyond)));
            // A wrong event among right ones is found wherever it stands.
            assert!(is_refused(&notification(0, &[FRAME, beyond].concat())));
            assert!(is_refused(&notification(0, &[beyond, FRAME].concat())));
        }
    }
}

#[test]
fn one_to_32_descriptors_are_plain() {
    for count in 0..=600 {
        let frame = written(&request(&vec![0x07_1234; count]));
        assert_eq!(frame.is_ok(), (1..=32).contains(&count), "{count}");
    }
}

#[test]
fn a_branch_is_1_to_255() {
    for branch in (0..=0x1FF).chain([0xFF00, 0xFFFF]) {
        let frame = written(&request(&[0x07_0002, branch << 16 | 5]));
        assert_eq!(frame.is_ok(), (1..=255).contains(&branch), "{branch}");
    }
}

#[test]
fn containers_are_whole_and_of_no_branch_0() {
    for containers in [
        "07",
        "07 00",
        "07 0002",
        "07 0002 01",
        "07 0002 03 aabb",
        "07 0002 00 aabb",
        "07 0002 a1 07",
        "00",
        "00 0002 a1",
        "00 0000 00",
        "07 0002 a1 00",
        "07 0002 a1 000000",
        "07 0002 a1 00 0002 a1",
        "07 0002 a1 00 0002 a1 07 0002 a1",
    ] {
        assert!(is_refused(&response(containers)), "{containers}");
    }
}

#[test]
fn containers_have_1496_octets_at_most() {
    let most = "07 0002 a1".repeat(374);
    let frame = written(&response(&most)).expect("plain");
    assert_eq!(frame.len(), 1514);
    assert!(is_refused(&response(&format!("{most} 07 0002 a1"))));
    let wide = format!("07 0002 01 aa {}", "07 0002 a1".repeat(373));
    assert!(is_refused(&response(&wide))); // 1,497 octets
    let many = "07 0002 a1".repeat(65_536 / 4 + 10);
    assert!(is_refused(&response(&many)));
}

#[test]
fn a_command_not_1_or_2_is_10() {
    for command in 0..=255 {
        let answer = written(&loopback(command)).map(|_| ());
        let plain = matches!(command, 1 | 2);
        assert_eq!(answer, if plain { Ok(()) } else { Err(10) }, "{command}");
    }
}

#[test]
fn an_organization_has_39_to_1493_octets_and_an_oui_of_24_bits() {
    for (count, plain) in [
        (0, false),
        (38, false),
        (39, true),
        (40, true),
        (1493, true),
        (1494, false),
        (65_536 + 39, false),
    ] {
        let answer = written(&organization(0, count));
        assert_eq!(answer.is_ok(), plain, "{count} octets");
    }
    assert!(is_refused(&organization(0x0100_0000, 39)));
    assert!(is_refused(&organization(u32::MAX, 39)));
}

// 9.

#[test]
fn an_output_shorter_than_the_frame_is_9_and_stays() {
    for draft in [
        information(&[], &[]),
        notification(0, &FRAME.repeat(16)),
        request(&[0x07_0002; 15]),
        response("07 0002 a1"),
        response(&"07 0002 a1".repeat(15)),
        loopback(1),
        organization(0, 60),
    ] {
        let length = written(&draft).expect("plain").len();
        for room in [0, 1, 17, 59, length - 1] {
            let mut out = vec![0xEE; room];
            assert_eq!(write(&draft, &mut out), Err(9));
            assert!(out.iter().all(|&octet| octet == 0xEE));
        }
        let mut out = vec![0xEE; length];
        assert_eq!(write(&draft, &mut out), Ok(length));
    }
}

#[test]
fn ten_comes_before_9() {
    assert_eq!(write(&loopback(3), &mut []), Err(10));
    let seventeen = notification(0, &FRAME.repeat(17));
    assert_eq!(write(&seventeen, &mut []), Err(10));
    assert_eq!(write(&information(&[], &LOCAL_NUMBERS), &mut []), Err(10));
    assert_eq!(write(&response("00"), &mut []), Err(10));
    assert_eq!(write(&organization(0, 38), &mut [0; 59]), Err(10));
}
