//! The decoder against octets written by hand: the paper's examples, and frames
//! made up from the tables of Clause 57.

use super::*;

/// The octets of spaced hexadecimal text.
pub(crate) fn octets(text: &str) -> Vec<u8> {
    let digits: Vec<char> = text.chars().filter(|c| !c.is_whitespace()).collect();
    let octet = |pair: &[char]| u8::from_str_radix(&pair.iter().collect::<String>(), 16);
    digits
        .chunks(2)
        .map(|pair| octet(pair).expect("hexadecimal"))
        .collect()
}

/// A frame with flags 0050: the code and body given, zeros up to 60 octets.
pub(crate) fn frame(code_and_body: &str) -> Vec<u8> {
    let header = "0180c2000002 020000000001 8809 03 0050";
    let mut frame = octets(&format!("{header} {code_and_body}"));
    let length = frame.len().max(60);
    frame.resize(length, 0);
    frame
}

fn body(frame: &[u8]) -> Result<Body<'_>, u8> {
    read(frame).map(|message| message.body)
}

/// The answer to a frame of this code and body.
fn answer_to(code_and_body: &str) -> u8 {
    let frame = frame(code_and_body);
    read(&frame).err().unwrap_or(answer::ACCEPTED)
}

pub(crate) const LOCAL: &str = "01 10 01 002a 05 1d 05ee 001b21 deadbeef";
pub(super) const REMOTE: &str = "02 10 01 ffff 02 0f 0040 a0b1c2 01020304";
/// A TLV to be skipped, long enough to bring what follows to octet 60.
const SKIPPED: &str = "7e 2a 1111111111111111 1111111111111111 1111111111111111 \
                       1111111111111111 1111111111111111";

/// The fields of `LOCAL`.
pub(super) fn local() -> Information {
    Information {
        version: 1,
        revision: 42,
        state: 0x05,
        configuration: 0x1D,
        pdu_configuration: 1518,
        oui: [0x00, 0x1B, 0x21],
        vendor: [0xDE, 0xAD, 0xBE, 0xEF],
    }
}

fn remote() -> Information {
    Information {
        version: 1,
        revision: 65_535,
        state: 0x02,
        configuration: 0x0F,
        pdu_configuration: 64,
        oui: [0xA0, 0xB1, 0xC2],
        vendor: [1, 2, 3, 4],
    }
}

// The paper's section "Text".

#[test]
fn the_papers_two_lines_give_the_papers_listing() {
    let enable = "0180c2000002020000000001880903005004".to_string() + "01" + &"00".repeat(41);
    let other = "0180c2000002020000000001880903005004".to_string() + "03" + &"00".repeat(41);
    let expected = "no\tcode\tflags\tanswer\tskipped\n1\t4\t80\t0\t0\n2\t-\t-\t8\t-\n";
    assert_eq!(
        listing(format!("{enable}\n{other}\n").as_bytes()),
        expected.as_bytes()
    );
    assert_eq!(
        listing(format!("{enable}\n{other}").as_bytes()),
        expected.as_bytes()
    );
}

#[test]
fn empty_input_gives_the_header_only() {
    assert_eq!(listing(b""), b"no\tcode\tflags\tanswer\tskipped\n");
}

#[test]
fn an_empty_line_is_a_frame_of_length_0() {
    assert_eq!(
        listing(b"\n"),
        b"no\tcode\tflags\tanswer\tskipped\n1\t-\t-\t1\t-\n"
    );
    assert_eq!(
        listing(b"\n\n"),
        b"no\tcode\tflags\tanswer\tskipped\n1\t-\t-\t1\t-\n2\t-\t-\t1\t-\n"
    );
}

#[test]
fn nothing_behind_the_last_newline_is_no_line() {
    assert_eq!(lines(b"").count(), 0);
    assert_eq!(lines(b"\n").collect::<Vec<_>>(), [b""]);
    assert_eq!(lines(b"a\n\nb").collect::<Vec<_>>(), [&b"a"[..], b"", b"b"]);
    assert_eq!(
        lines(b"a\n\nb\n").collect::<Vec<_>>(),
        [&b"a"[..], b"", b"b"]
    );
}

#[test]
fn digits_are_0_to_9_and_a_to_f() {
    assert_eq!(
        decode(b"0123456789abcdef"),
        Ok(vec![0x01, 0x23, 0x45, 0x67, 0x89, 0xAB, 0xCD, 0xEF])
    );
    assert_eq!(decode(b""), Ok(vec![]));
}

#[test]
fn odd_and_foreign_digits_are_14() {
    let wrong: [&[u8]; 12] = [
        b"0", b"000", b"0A", b"A0", b"00\r", b"0\r", b" 0", b"0 ", b"\0\0", b"0g", b"0/", b"\xB00",
    ];
    for line in wrong {
        assert_eq!(decode(line), Err(14), "{}", line.escape_ascii());
    }
}

#[test]
fn text_is_answered_before_length() {
    let long = "0".repeat(100_000);
    assert_eq!(
        listing(long.as_bytes()),
        b"no\tcode\tflags\tanswer\tskipped\n1\t-\t-\t1\t-\n"
    );
    let foreign_last = "0".repeat(99_999) + "g";
    assert_eq!(
        listing(foreign_last.as_bytes()),
        b"no\tcode\tflags\tanswer\tskipped\n1\t-\t-\t14\t-\n"
    );
}

#[test]
fn a_row_shows_all_sixteen_flags() {
    let mut line = "0180c200000202000000000188090".to_string() + "3ffff" + "fe";
    line += &"00".repeat(42);
    assert_eq!(
        listing(line.as_bytes()),
        b"no\tcode\tflags\tanswer\tskipped\n1\t254\t65535\t0\t0\n"
    );
}

// Answers 1 to 5.

#[test]
fn frames_have_60_to_1514_octets() {
    for (length, answer) in [(59, Err(1)), (60, Ok(())), (1514, Ok(())), (1515, Err(1))] {
        let mut loopback = frame("04 01");
        loopback.resize(length, 0);
        assert_eq!(read(&loopback).map(|_| ()), answer, "length {length}");
    }
    assert_eq!(read(&[]), Err(1));
}

#[test]
fn the_first_answer_in_order_is_given() {
    let mut wrong = frame("05");
    wrong[0] = 0x00; // destination
    wrong[13] = 0x08; // type
    wrong[14] = 2; // subtype
    let mut longer = wrong.clone();
    longer.resize(1515, 0);
    assert_eq!(read(&longer), Err(1));
    assert_eq!(read(&wrong), Err(2));
    wrong[0] = 0x01;
    assert_eq!(read(&wrong), Err(3));
    wrong[13] = 0x09;
    assert_eq!(read(&wrong), Err(4));
    wrong[14] = 3;
    assert_eq!(read(&wrong), Err(5));
    wrong[17] = 0x00;
    assert!(read(&wrong).is_ok());
}

#[test]
fn every_octet_of_destination_and_type_counts() {
    for (places, answer) in [(0..6, 2), (12..14, 3), (14..15, 4)] {
        for place in places {
            let mut wrong = frame("04 01");
            wrong[place] ^= 0x80;
            assert_eq!(read(&wrong), Err(answer), "octet {place}");
        }
    }
}

#[test]
fn codes_05_to_fd_and_ff_are_5() {
    for code in 0x00..=0xFF {
        let answer = answer_to(&format!("{code:02x} 01 01"));
        let reserved = matches!(code, 0x05..=0xFD | 0xFF);
        assert_eq!(answer == 5, reserved, "code {code:02x}");
    }
}

#[test]
fn any_source_and_any_flags_are_accepted() {
    let mut loopback = frame("04 02");
    loopback[6..12].fill(0xFF);
    loopback[15..17].copy_from_slice(&[0x9A, 0xBC]);
    let message = read(&loopback).expect("accepted");
    assert_eq!(message.source, [0xFF; 6]);
    assert_eq!(message.flags, 0x9ABC);
}

// The TLV walk.

#[test]
fn an_information_frame_shows_every_field() {
    let frame = frame(&format!("00 {LOCAL} {REMOTE}"));
    let source = [0x02, 0x00, 0x00, 0x00, 0x00, 0x01];
    let body = Body::Information(vec![Part::Local(local()), Part::Remote(remote())]);
    let expected = Message::without_skips(source, 0x0050, body);
    assert_eq!(read(&frame), Ok(expected));
}

#[test]
fn ignored_bits_are_shown_as_they_stand() {
    let frame = frame("00 01 10 ff ffff ff ff ffff ffffff ffffffff");
    let all = Information {
        version: 0xFF,
        revision: 0xFFFF,
        state: 0xFF,
        configuration: 0xFF,
        pdu_configuration: 0xFFFF,
        oui: [0xFF; 3],
        vendor: [0xFF; 4],
    };
    assert_eq!(body(&frame), Ok(Body::Information(vec![Part::Local(all)])));
}

#[test]
fn parts_may_be_missing_or_in_another_order() {
    let none = frame("00");
    assert_eq!(body(&none), Ok(Body::Information(vec![])));
    let alone = frame(&format!("00 {REMOTE}"));
    assert_eq!(
        body(&alone),
        Ok(Body::Information(vec![Part::Remote(remote())]))
    );
    let turned = frame(&format!("00 {REMOTE} {LOCAL}"));
    let parts = vec![Part::Remote(remote()), Part::Local(local())];
    assert_eq!(body(&turned), Ok(Body::Information(parts)));
}

#[test]
fn a_known_tlv_of_another_length_is_6() {
    assert_eq!(answer_to("00 01 0f 01 0000 00 00 05ee 000000 000000"), 6);
    assert_eq!(
        answer_to("00 01 11 01 0000 00 00 05ee 000000 00000000 00"),
        6
    );
    assert_eq!(answer_to("00 02 0e 01 0000 00 00 05ee 000000 0000"), 6);
    assert_eq!(
        answer_to("01 0000 04 11 0000 0000 0000 0000 00000000 000000"),
        6
    );
}

#[test]
fn the_length_counts_type_and_length_octets() {
    // Read without them, the TLV of length 5 would end two octets later, at 55,
    // and the Local TLV behind it would be missed.
    let frame = frame(&format!("00 03 05 aabbcc {LOCAL}"));
    assert_eq!(
        body(&frame),
        Ok(Body::Information(vec![Part::Local(local())]))
    );
}

#[test]
fn lengths_0_and_1_are_6() {
    for tlv in ["03 00", "03 01", "fe 00", "ff 01", "01 00", "02 01"] {
        assert_eq!(answer_to(&format!("00 {tlv}")), 6, "{tlv}");
        assert_eq!(answer_to(&format!("01 0000 {tlv}")), 6, "{tlv}");
    }
}

#[test]
fn a_second_local_or_remote_is_7() {
    assert_eq!(answer_to(&format!("00 {LOCAL} {LOCAL}")), 7);
    assert_eq!(answer_to(&format!("00 {REMOTE} {REMOTE}")), 7);
    assert_eq!(answer_to(&format!("00 {LOCAL} {REMOTE} {LOCAL}")), 7);
    assert_eq!(answer_to(&format!("00 {LOCAL} 03 02 {LOCAL}")), 7);
}

#[test]
fn what_comes_first_in_octet_order_is_answered() {
    let broken = "03 01";
    let local_of_15 = "01 0f 01 002a 05 1d 05ee 001b21 deadbe";
    assert_eq!(answer_to(&format!("00 {LOCAL} {local_of_15}")), 6);
    assert_eq!(answer_to(&format!("00 {LOCAL} {LOCAL} {broken}")), 7);
    assert_eq!(answer_to(&format!("00 {broken} {LOCAL} {LOCAL}")), 6);
}

#[test]
fn type_00_ends_the_walk_and_the_rest_is_ignored() {
    let frame = frame(&format!("00 {LOCAL} 00 {LOCAL} 01 00 03 01"));
    assert_eq!(
        body(&frame),
        Ok(Body::Information(vec![Part::Local(local())]))
    );
}

#[test]
fn type_00_may_be_the_last_octet_and_no_other_may() {
    assert_eq!(frame(&format!("00 {SKIPPED}")).len(), 60);
    assert_eq!(answer_to(&format!("00 {SKIPPED} 00")), 0);
    for last in ["01", "02", "03", "fe", "ff"] {
        assert_eq!(answer_to(&format!("00 {SKIPPED} {last}")), 6, "{last}");
    }
}

#[test]
fn a_tlv_may_end_with_the_frame_and_not_run_past_it() {
    let whole = frame(&format!("00 {SKIPPED} {LOCAL}"));
    assert_eq!(
        body(&whole),
        Ok(Body::Information(vec![Part::Local(local())]))
    );
    assert_eq!(read(&whole[..whole.len() - 1]), Err(6));
    assert_eq!(answer_to(&format!("00 {SKIPPED} 03 02")), 0);
    assert_eq!(answer_to(&format!("00 {SKIPPED} 03 03")), 6);
    assert_eq!(answer_to(&format!("00 {SKIPPED} 03 ff")), 6);
}

/// What the walk of a frame of this code and body skips: before each known TLV, and in
/// all.
fn skipped_in(code_and_body: &str) -> (Vec<usize>, usize) {
    let frame = frame(code_and_body);
    let Skipped { before, total } = read(&frame).expect("accepted").skipped;
    (before, total)
}

#[test]
fn skipped_tlvs_are_counted_from_the_bodys_start_on() {
    let information = |tlvs: &str| skipped_in(&format!("00 {tlvs}"));
    assert_eq!(information(&format!("{LOCAL} {REMOTE}")), (vec![0, 0], 0));
    let one_two = format!("03 02 {LOCAL} fe 02 04 03 aa");
    assert_eq!(information(&one_two), (vec![1], 3));
    let grown = format!("ff 02 05 02 {REMOTE} fe 05 010203 {LOCAL} 06 02");
    assert_eq!(information(&grown), (vec![2, 3], 4));
    let event = "04 12 0000 0258 0001 003c 00000100 ffffffff";
    let events = format!("fe 02 {event} {event} 05 02 7f 02 {event}");
    let notification = skipped_in(&format!("01 ffff {events}"));
    assert_eq!(notification, (vec![1, 1, 3], 3));
}

#[test]
fn nothing_behind_type_00_is_counted() {
    let ended = skipped_in(&format!("00 03 02 {LOCAL} 05 02 00 03 02 {REMOTE} 05 02"));
    assert_eq!(ended, (vec![1], 2));
    assert_eq!(skipped_in("00 00 03 02"), (vec![], 0));
    assert_eq!(skipped_in("01 0302 00 fe 02 fe 02"), (vec![], 0));
}

#[test]
fn other_codes_skip_nothing() {
    for body in ["02 03 0202", "03 03 0202 a1", "04 01 0302", "fe 030203 02"] {
        assert_eq!(skipped_in(body), (vec![], 0), "{body}");
    }
}

#[test]
fn a_frame_of_tlvs_that_are_skipped_holds_748_or_747() {
    for (start, tlv, most) in [("00", "fe 02", 748), ("01 0000", "05 02", 747)] {
        let body = format!("{start} {}", tlv.repeat(most));
        assert_eq!(frame(&body).len(), LONGEST);
        assert_eq!(skipped_in(&body), (vec![], most));
    }
}

#[test]
fn a_row_shows_how_many_tlvs_were_skipped() {
    let line = |code_and_body: &str| crate::compare::hex(&frame(code_and_body));
    let lines = [
        line(&format!("00 03 02 {LOCAL} 04 02 fe 02")),
        line("01 0007 05 02"),
        line("00 03 02 04 01"),
        line("00 03 02") + "0",
    ];
    let rows = "1\t0\t80\t0\t3\n2\t1\t80\t0\t1\n3\t-\t-\t6\t-\n4\t-\t-\t14\t-\n";
    let expected = format!("{HEADER}{rows}");
    assert_eq!(listing(lines.join("\n").as_bytes()), expected.as_bytes());
}

#[test]
fn unknown_types_are_skipped() {
    // Types 3 and 4 are known in code 01 only; FE is known in neither, and may
    // be shorter than its own five octets.
    for unknown in [
        "03 02",
        "04 03 99",
        "fe 02",
        "fe 04 0102",
        "ff 10 0102030405060708090a0b0c0d0e",
    ] {
        let frame = frame(&format!("00 {unknown} {LOCAL}"));
        let parts = vec![Part::Local(local())];
        assert_eq!(body(&frame), Ok(Body::Information(parts)), "{unknown}");
    }
    for unknown in ["05 02", "fe 02", "ff 03 99"] {
        assert_eq!(
            answer_to(&format!("01 0000 {unknown} 04 12 {}", "00".repeat(16))),
            0
        );
    }
}

// Event TLVs.

/// The only event of a notification with number 1234.
fn event(tlv: &str) -> Event {
    let frame = frame(&format!("01 1234 {tlv}"));
    match body(&frame) {
        Ok(Body::Notification {
            number: 0x1234,
            events,
        }) if events.len() == 1 => events[0],
        other => panic!("not one event: {other:?}"),
    }
}

#[test]
fn the_event_lengths_are_their_widths_and_two() {
    for (length, widths) in EVENTS {
        assert_eq!(length, 2 + widths.iter().sum::<usize>());
    }
}

#[test]
fn a_symbol_period_event_shows_every_field() {
    let tlv = "01 28 000a 0000000007735940 0000000000000001 0000000000000003 \
               0000000100000000 00000007";
    let values = [10, 125_000_000, 1, 3, 4_294_967_296, 7];
    assert_eq!(event(tlv), Event { kind: 1, values });
}

#[test]
fn a_frame_event_shows_every_field() {
    let tlv = "02 1a 1234 000a 00000001 00000005 0000000000000100 00000002";
    let values = [0x1234, 10, 1, 5, 256, 2];
    assert_eq!(event(tlv), Event { kind: 2, values });
}

#[test]
fn a_frame_period_event_shows_every_field() {
    let tlv = "03 1c ffff 0016b4df 0000000a 01000000 ffffffffffffffff 80000000";
    let values = [65_535, 1_488_095, 10, 16_777_216, u64::MAX, 2_147_483_648];
    assert_eq!(event(tlv), Event { kind: 3, values });
}

#[test]
fn a_frame_seconds_event_shows_every_field() {
    let tlv = "04 12 0000 0258 0001 003c 00000100 ffffffff";
    let values = [0, 600, 1, 60, 256, 4_294_967_295];
    assert_eq!(event(tlv), Event { kind: 4, values });
}

#[test]
fn events_are_shown_in_order_and_may_repeat() {
    let seconds = "04 12 0001 0258 0001 003c 00000100 00000001";
    let frames = "02 1a 0002 000a 00000001 00000005 0000000000000100 00000002";
    let frame = frame(&format!("01 ffff {seconds} fe 03 00 {frames} {seconds}"));
    let Ok(Body::Notification { number, events }) = body(&frame) else {
        panic!("not a notification");
    };
    assert_eq!(number, 65_535);
    let kinds: Vec<u8> = events.iter().map(|event| event.kind).collect();
    assert_eq!(kinds, [4, 2, 4]);
}

#[test]
fn the_number_is_no_tlv() {
    // Read as TLVs, 0128 and 0300 would be broken ones.
    for number in ["0128", "0300", "0000"] {
        let frame = frame(&format!("01 {number}"));
        assert!(matches!(body(&frame), Ok(Body::Notification { events, .. }) if events.is_empty()));
    }
}

// Descriptors and containers.

#[test]
fn descriptors_are_shown_up_to_branch_0() {
    // aFramesTransmittedOK and oPHYEntity (Table 57-16).
    let frame = frame("02 07 0002 03 0002 00 0005 07 0005");
    let transmitted = Descriptor { branch: 7, leaf: 2 };
    let entity = Descriptor { branch: 3, leaf: 2 };
    assert_eq!(body(&frame), Ok(Body::Request(vec![transmitted, entity])));
}

#[test]
fn fourteen_descriptors_fill_the_shortest_frame() {
    let full = frame(&format!("02 {}", "07 1234".repeat(14)));
    assert_eq!(full.len(), 60);
    let descriptors = vec![
        Descriptor {
            branch: 7,
            leaf: 0x1234
        };
        14
    ];
    assert_eq!(body(&full), Ok(Body::Request(descriptors)));
}

#[test]
fn a_descriptor_cut_off_is_6_and_branch_0_ends_without_its_leaf() {
    let full = "07 1234".repeat(14);
    for (rest, answer) in [
        ("07", 6),
        ("07 12", 6),
        ("07 1234", 0),
        ("00", 0),
        ("00 12", 0),
    ] {
        assert_eq!(answer_to(&format!("02 {full} {rest}")), answer, "{rest}");
    }
}

/// The contents of a response's containers.
fn contents(containers: &str) -> Vec<Content<'static>> {
    let frame = frame(&format!("03 {containers}"));
    match body(&frame) {
        Ok(Body::Response(containers)) => containers
            .into_iter()
            .map(|container| match container.content {
                Content::Value(value) => Content::Value(value.into_owned().into()),
                Content::Indication(indication) => Content::Indication(indication),
            })
            .collect(),
        other => panic!("not a response: {other:?}"),
    }
}

fn value(octets: Vec<u8>) -> Content<'static> {
    Content::Value(octets.into())
}

#[test]
fn a_container_shows_its_descriptor_and_its_value() {
    let frame = frame("03 07 0005 04 00001000");
    let container = Container {
        descriptor: Descriptor { branch: 7, leaf: 5 },
        content: value(vec![0, 0, 0x10, 0]),
    };
    assert_eq!(body(&frame), Ok(Body::Response(vec![container])));
}

#[test]
fn width_00_is_128_and_7f_127_and_80_none() {
    assert_eq!(
        contents(&format!("07 0002 00 {}", "aa".repeat(128))),
        [value(vec![0xAA; 128])]
    );
    assert_eq!(
        contents(&format!("07 0002 7f {}", "bb".repeat(127))),
        [value(vec![0xBB; 127])]
    );
    assert_eq!(contents("07 0002 80"), [Content::Indication(0x80)]);
    assert_eq!(contents("07 0002 01 cc"), [value(vec![0xCC])]);
}

#[test]
fn an_indication_has_no_value() {
    // "Not supported" for one attribute, then the value of the next.
    let expected = [
        Content::Indication(0xA1),
        value(vec![1, 2]),
        Content::Indication(0xFF),
    ];
    assert_eq!(contents("07 0002 a1 07 0005 02 0102 07 0006 ff"), expected);
}

#[test]
fn a_container_cut_off_is_6() {
    let filler = "07 0002 a1".repeat(11);
    for rest in ["07", "07 00", "07 0005", "07 0005 01", "07 0005 02 aa"] {
        assert_eq!(answer_to(&format!("03 {filler} {rest}")), 6, "{rest}");
    }
    let short_by_one = format!("03 07 0002 00 {}", "aa".repeat(127));
    assert_eq!(answer_to(&short_by_one), 6);
    let short_by_one = format!("03 07 0002 7f {}", "aa".repeat(126));
    assert_eq!(answer_to(&short_by_one), 6);
}

#[test]
fn containers_end_at_branch_0_or_with_the_frame() {
    let filler = "07 0002 a1".repeat(11);
    for rest in [
        "",
        "00",
        "00 00",
        "00 0005",
        "00 0005 02 aa",
        "07 0005 80",
        "07 0005 01 aa",
    ] {
        assert_eq!(answer_to(&format!("03 {filler} {rest}")), 0, "{rest}");
    }
}

#[test]
fn packages_are_read_by_the_same_flat_rule() {
    // Table 57-15 repeats width and value in a package; the paper's container
    // does not, so that a second width is read as a branch.
    let package = format!("04 0001 08 {} 08 {} e0", "00".repeat(8), "00".repeat(8));
    assert_eq!(answer_to(&format!("03 {package}")), 6);
}

// The parts by their places.

/// The parts of a list, each with the octet after it.
fn places(code: u8, frame: &[u8]) -> Vec<(Listed, usize)> {
    let list = list(code, frame);
    list.iter().map(|s| (s.part, s.next)).collect()
}

#[test]
fn a_part_is_listed_with_the_octet_after_it() {
    let frame = frame(&format!("00 {LOCAL} 03 05 aabbcc {REMOTE}"));
    let expected = [
        (Listed::Information(Part::Local(local())), 34),
        (Listed::Skipped, 39),
        (Listed::Information(Part::Remote(remote())), 55),
    ];
    assert_eq!(places(code::INFORMATION, &frame), expected);
}

#[test]
fn a_containers_value_is_listed_by_its_place() {
    let frame = frame(&format!(
        "03 07 0005 04 00001000 07 0006 a1 {}",
        "00".repeat(60)
    ));
    let value = Listed::Value {
        descriptor: Descriptor { branch: 7, leaf: 5 },
        at: 22,
        width: 4,
    };
    let indication = Listed::Indication {
        descriptor: Descriptor { branch: 7, leaf: 6 },
        width: 0xA1,
    };
    let expected = [(value, 26), (indication, 30)];
    assert_eq!(places(code::RESPONSE, &frame), expected);
}

#[test]
fn a_width_of_00_takes_128_octets() {
    let frame = frame(&format!("03 07 0002 00 {}", "aa".repeat(128)));
    let whole = Listed::Value {
        descriptor: Descriptor { branch: 7, leaf: 2 },
        at: 22,
        width: 128,
    };
    assert_eq!(places(code::RESPONSE, &frame), [(whole, 150)]);
}

#[test]
fn no_frame_has_more_parts_than_descriptors_fill_it() {
    let request = |count: usize| frame(&format!("02 {}", "070005".repeat(count)));
    let full = request(MOST_PARTS);
    assert!(read(&full).is_ok());
    assert_eq!(list(code::REQUEST, &full).len(), MOST_PARTS);
    assert_eq!(read(&request(MOST_PARTS + 1)), Err(answer::LENGTH));
}

#[test]
fn a_code_without_a_list_has_no_parts() {
    for code in [code::LOOPBACK, code::ORGANIZATION] {
        assert_eq!(places(code, &frame(&format!("{code:02x} 01 0000"))), []);
    }
}

#[test]
fn a_list_begins_behind_the_header_or_the_number() {
    let starts = code::ALL.map(list_start);
    let at_18 = Some(18);
    assert_eq!(starts, [at_18, Some(20), at_18, at_18, None, None]);
}

// The other codes.

#[test]
fn the_loopback_command_is_1_or_2() {
    for command in 0..=255 {
        let answer = if matches!(command, 1 | 2) { 0 } else { 8 };
        assert_eq!(
            answer_to(&format!("04 {command:02x} ffff")),
            answer,
            "{command}"
        );
    }
    assert_eq!(body(&frame("04 02")), Ok(Body::Loopback { command: 2 }));
}

#[test]
fn an_organizations_data_run_from_octet_21_to_the_end() {
    let frame = frame("fe aabbcc 0102");
    let mut data = vec![0; 39];
    data[..2].copy_from_slice(&[1, 2]);
    let expected = Body::Organization {
        oui: [0xAA, 0xBB, 0xCC],
        data: data.into(),
    };
    assert_eq!(body(&frame), Ok(expected));
}
