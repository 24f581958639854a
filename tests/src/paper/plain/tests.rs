//! Each rule of the plain form, and the form as a whole: a frame is plain
//! exactly when reading and writing it again gives the same octets.

use super::*;
use crate::generate;
use crate::paper::tests::{frame, LOCAL, REMOTE};
use crate::paper::{read, write, Draft, LONGEST};
use crate::random::Random;

fn plain(code_and_body: &str) -> bool {
    is_plain(&frame(code_and_body))
}

/// The frame of this code and body with octets behind it.
fn plain_with(code_and_body: &str, behind: &[u8]) -> bool {
    is_plain(&[frame(code_and_body), behind.to_vec()].concat())
}

const EVENT: &str = "04 12 0000 0258 0001 003c 00000100 ffffffff";

#[test]
fn information_is_none_local_or_local_then_remote() {
    for (tlvs, expected) in [
        (vec![], true),
        (vec![LOCAL], true),
        (vec![LOCAL, REMOTE], true),
        (vec![REMOTE], false),
        (vec![REMOTE, LOCAL], false),
    ] {
        assert_eq!(plain(&format!("00 {}", tlvs.concat())), expected);
    }
}

#[test]
fn ignored_bits_are_zero() {
    // Version, revision, state, configuration, OAMPDU configuration.
    for (fields, expected) in [
        ("ff ffff 07 1f 07ff", true),
        ("01 0000 08 00 0000", false),
        ("01 0000 80 00 0000", false),
        ("01 0000 00 20 0000", false),
        ("01 0000 00 80 0000", false),
        ("01 0000 00 00 0800", false),
        ("01 0000 00 00 8000", false),
    ] {
        let rest = format!("10 {fields} ffffff ffffffff");
        assert_eq!(plain(&format!("00 01 {rest}")), expected, "{fields}");
        let both = format!("00 {LOCAL} 02 {rest}");
        assert_eq!(plain(&both), expected, "{fields} in Remote");
    }
}

#[test]
fn a_reserved_parser_is_plain() {
    assert!(plain("00 01 10 01 0000 03 00 0000 000000 00000000"));
}

#[test]
fn flags_have_no_ignored_bit_and_no_field_3() {
    let mut loopback = frame("04 01");
    for flags in 0..=u16::MAX {
        loopback[15..17].copy_from_slice(&flags.to_be_bytes());
        let fields = [(flags >> 3) % 4, (flags >> 5) % 4];
        let expected = flags < 128 && !fields.contains(&3);
        assert_eq!(is_plain(&loopback), expected, "flags {flags:04x}");
    }
}

#[test]
fn no_unknown_tlv_is_plain() {
    // Behind the first, Local ends with zeros where a plain list would have
    // ended already.
    let local_of_zeros = "01 10 01 0000 00 00 0000 000000 00000000";
    assert!(!plain(&format!("00 03 02 {local_of_zeros}")));
    assert!(!plain(&format!("00 {LOCAL} 03 02")));
    assert!(!plain(&format!("00 {LOCAL} 03 02 {REMOTE}")));
    assert!(!plain(&format!("01 0000 {EVENT} fe 02")));
    assert!(!plain(&format!("01 0000 fe 02 {EVENT}")));
}

#[test]
fn behind_the_last_part_there_are_zeros() {
    assert!(!plain(&format!("00 {LOCAL} 00 01")));
    assert!(!plain("00 00 01"));
    assert!(!plain(&format!("01 0000 {EVENT} 00 {EVENT}")));
    assert!(!plain("02 07 0002 00 0001"));
    assert!(!plain("04 01 00 01"));
    let mut last = frame("04 01");
    last[59] = 1;
    assert!(!is_plain(&last));
}

#[test]
fn the_length_is_the_shortest() {
    for short in ["00", "02 07 0002", "04 01"] {
        assert!(plain(short), "{short}");
        assert!(!plain_with(short, &[0]), "{short}");
    }
    // Lists that end at octet 60 and at octet 63.
    for count in [14, 15] {
        let list = format!("02 {}", "07 1234".repeat(count));
        assert!(plain(&list));
        assert!(!plain_with(&list, &[0]));
    }
}

#[test]
fn one_to_16_events_and_one_to_32_descriptors_are_plain() {
    for count in 0..=37 {
        let events = EVENT.repeat(count);
        let expected = (1..=16).contains(&count);
        let frame = frame(&format!("01 ffff {events}"));
        assert_eq!(is_plain(&frame), expected, "{count}");
        assert!(read(&frame).is_ok(), "{count}"); // the reader has no limit
    }
    for count in 0..=40 {
        let descriptors = "07 1234".repeat(count);
        let expected = (1..=32).contains(&count);
        assert_eq!(plain(&format!("02 {descriptors}")), expected, "{count}");
    }
}

#[test]
fn a_response_is_plain_with_any_containers_or_none() {
    assert!(plain("03"));
    assert!(plain("03 07 0002 01 aa"));
    assert!(plain("03 07 0002 80 ff ffff ff 01 0000 a1"));
    assert!(plain(&format!("03 07 0002 00 {}", "aa".repeat(128))));
    let most = format!("03 {}", "07 0002 a1".repeat(374)); // 1,514 octets
    assert!(plain(&most));
}

#[test]
fn a_response_ends_like_the_other_lists() {
    // Containers that end at octets 58 to 61, and a zero more behind each.
    for width in 36..=39 {
        let value = "aa".repeat(width);
        let list = format!("03 07 0002 {width:02x} {value}");
        assert!(plain(&list), "{width}");
        assert!(!plain_with(&list, &[0]), "{width}");
    }
    assert!(!plain("03 07 0002 01 aa 00 0001"));
    assert!(!plain("03 00 07 0002 01 aa"));
    assert!(!plain_with("03", &[0]));
}

#[test]
fn loopback_and_organization_are_plain_as_they_are_accepted() {
    assert!(plain("04 01") && plain("04 02"));
    assert!(!plain("04 00") && !plain("04 03"));
    let mut organization = frame("fe aabbcc");
    for length in [60, 61, 1513, LONGEST] {
        organization.resize(length, 0x5A);
        assert!(is_plain(&organization), "{length} octets");
    }
    organization.resize(LONGEST + 1, 0);
    assert!(!is_plain(&organization));
}

#[test]
fn a_frame_is_plain_exactly_when_it_is_written_again_the_same() {
    let mut random = Random::new(57);
    let mut counts = [0, 0];
    for _ in 0..100_000 {
        let code = generate::any_code(&mut random);
        let frame = generate::near_plain(&mut random, code);
        let plain = is_plain(&frame);
        assert_eq!(
            plain,
            written_again(&frame) == Some(frame.clone()),
            "{frame:02x?}"
        );
        counts[usize::from(plain)] += 1;
    }
    assert!(counts.iter().all(|&count| count > 10_000), "{counts:?}");
}

fn written_again(frame: &[u8]) -> Option<Vec<u8>> {
    let message = read(frame).ok()?;
    let mut out = [0; LONGEST];
    let length = write(&Draft::of(&message), &mut out).ok()?;
    Some(out[..length].to_vec())
}
