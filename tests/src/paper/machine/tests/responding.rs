//! Answers to Variable Requests: the containers, where they are cut, and the order
//! of refusal.

use super::*;
use crate::paper::{MOST_ASKED, MOST_ATTRIBUTES};

/// A counter of two octets, one of 128, and one of a single octet.
const HELD: [u32; 6] = [0x07_0002, 2, 0x07_0005, 128, 0xFF_FFFF, 1];

fn values() -> Vec<u8> {
    [&[0xAA, 0xBB][..], &[0xCC; 128], &[0xDD]].concat()
}

/// What an end answers for descriptors of these attributes.
fn respond(end: &End, descriptors: &[u32], out: &mut [u8]) -> Result<Step, u8> {
    end.respond(&HELD, &values(), descriptors, out)
}

impl Tried {
    fn respond(&mut self, attributes: &[u32], values: &[u8], descriptors: &[u32]) -> u8 {
        self.call(|end, out| end.respond(attributes, values, descriptors, out))
    }

    /// The same in a stretch of its own.
    fn answers(&mut self, attributes: &[u32], values: &[u8], descriptors: &[u32]) {
        self.end.intervals = only_now(0);
        let answer = self.respond(attributes, values, descriptors);
        assert_eq!(answer, answer::ACCEPTED);
    }

    /// What was sent is a response with these containers.
    fn assert_responded(&self, containers: &str) {
        let expected = frame_from(OWN, DONE, &format!("03 {containers}"));
        assert_eq!(self.sent, expected);
    }
}

/// An end in SEND_ANY whose smaller maximum size is this one.
fn of_size(size: u16) -> Tried {
    let settings = Settings { size, ..passive() };
    let mut tried = Tried::any(settings);
    let peer = tried.end.peer.as_mut().expect("the peer's record");
    peer.pdu_configuration = 1518;
    tried
}

#[test]
fn each_descriptor_is_answered_in_the_order_asked() {
    let mut tried = Tried::any(passive());
    let asked = [0xFF_FFFF, 0x07_0003, 0x07_0002, 0x07_0005, 0x07_0002];
    tried.answers(&HELD, &values(), &asked);
    let widest = "cc".repeat(128);
    tried.assert_responded(&format!(
        "ff ffff 01 dd 07 0003 a1 07 0002 02 aabb 07 0005 00 {widest} 07 0002 02 aabb"
    ));
    tried.answers(&[], &[], &[0x03_0001, 0x04_0001]);
    tried.assert_responded("03 0001 a1 04 0001 a1");
}

#[test]
fn the_end_changes_by_its_count_of_frames_alone() {
    let mut tried = Tried::any(passive());
    tried.end.owed = true;
    tried.end.role = Role::Looping;
    let before = tried.end;
    tried.respond(&HELD, &values(), &[0x07_0002]);
    let intervals = only_now(before.written() + 1);
    assert_eq!(
        tried.end,
        End {
            intervals,
            ..before
        }
    );
}

/// Size 64: a value of 38 octets just fits, and of 39 an empty body is left, also
/// where a shorter one follows.
#[test]
fn what_does_not_fit_is_left_off_with_all_behind_it() {
    let mut tried = of_size(64);
    for (width, fits) in [(37, true), (38, true), (39, false)] {
        let value = vec![0x11; width];
        tried.answers(&[0x07_0001, width as u32], &value, &[0x07_0001]);
        let container = format!("07 0001 {width:02x} {}", "11".repeat(width));
        tried.assert_responded(if fits { &container } else { "" });
    }
    let value = [0x11; 39];
    tried.answers(&[0x07_0001, 39], &value, &[0x07_0002, 0x07_0001, 0x07_0003]);
    tried.assert_responded("07 0002 a1");
    tried.answers(&[0x07_0001, 39], &value, &[0x07_0001, 0x07_0002]);
    tried.assert_responded("");
}

#[test]
fn at_the_greatest_size_374_of_498_unknown_ones_fit() {
    let asked = [0x07_0001; MOST_ASKED];
    for (size, count) in [(1518, 374), (1517, 373), (1514, 373), (1513, 372)] {
        let mut tried = of_size(size);
        tried.answers(&[], &[], &asked);
        tried.assert_responded(&"07 0001 a1".repeat(count));
    }
}

#[test]
fn the_peers_size_counts_too() {
    let mut tried = Tried::any(passive()); // the peer's is 512
    tried.answers(&[], &[], &[0x07_0001; 200]);
    tried.assert_responded(&"07 0001 a1".repeat((512 - 22) / 4));
}

/// All that is wrong with a call that is else right.
#[test]
fn values_out_of_range_are_10() {
    let good = [0x07_0002];
    let many: Vec<u32> = (0..65).flat_map(|leaf| [0x07_0000 | leaf, 1]).collect();
    let end = Tried::any(passive()).end;
    let answer = |attributes: &[u32], values: &[u8], asked: &[u32]| {
        let step = end.respond(attributes, values, asked, &mut [0; 1514]);
        step.err().unwrap_or(answer::ACCEPTED)
    };
    let most = 2 * MOST_ATTRIBUTES;
    assert_eq!(answer(&many[..most], &[1; 64], &good), answer::ACCEPTED);
    assert_eq!(answer(&[], &[], &[0x01_0000; MOST_ASKED]), answer::ACCEPTED);
    for (attributes, values, asked) in [
        (&HELD[..], &values()[..], &[][..]),
        (&HELD, &values(), &[0x07_0002; MOST_ASKED + 1]),
        (&HELD, &values(), &[0x07_0002, 0x00_FFFF]),
        (&HELD, &values(), &[0x07_0002, 0x0100_0000]),
        (&many, &[1; 65], &good),
        (&[0x07_0001, 0], &[], &good),
        (&[0x07_0001, 129], &[1; 129], &good),
        (&[0x07_0001, 257], &[1; 257], &good),
        (&[0x00_FFFF, 1], &[1], &good),
        (&[0x0107_0001, 1], &[1], &good),
        (&[0x07_0001, 1, 0x07_0002, 1, 0x07_0002, 2], &[1; 4], &good),
        (&[0x07_0001, 1, 0x07_0002], &[1], &good),
        (&[0x07_0001], &[], &good),
        (&[0x07_0001, 2], &[1], &good),
        (&[0x07_0001, 2], &[1; 3], &good),
        (&[], &[1], &good),
    ] {
        assert_eq!(answer(attributes, values, asked), answer::VALUES);
    }
}

#[test]
fn own_bit_4_and_for_an_active_end_an_active_peer_are_needed() {
    // The own configuration, whether the peer is active, and the answer.
    for (own, peer_is_active, expected) in [
        (0x1C, true, answer::ACCEPTED),
        (0x1D, true, answer::ACCEPTED),
        (0x1D, false, answer::FORBIDDEN),
        (0x0C, true, answer::FORBIDDEN),
        (0x0D, true, answer::FORBIDDEN),
        (0x0D, false, answer::FORBIDDEN),
    ] {
        let settings = Settings {
            configuration: own,
            ..active()
        };
        let mut tried = Tried::up(settings);
        let tlv = peer_tlv("00");
        let tlv = match peer_is_active {
            true => tlv, // without bit 4
            false => tlv.replacen("0d", "1c", 1),
        };
        tried.receive(&frame(DONE, &format!("00 {tlv}")));
        assert_eq!(tried.end.discovery, Discovery::SendAny);
        let answer = tried.respond(&HELD, &values(), &[0x07_0002]);
        assert_eq!(answer, expected, "{own:02x}, {peer_is_active}");
    }
}

/// 10, then 11, then 15, then 13, then 9; and 12 nowhere.
#[test]
fn the_refusals_come_in_order() {
    let mut end = Tried::up(passive()).end;
    end.settings.configuration = 0x0C;
    end.intervals = only_now(MOST_FRAMES);
    assert_eq!(respond(&end, &[], &mut []), Err(answer::VALUES));
    let asked = [0x07_0005; 30];
    assert_eq!(respond(&end, &asked, &mut []), Err(answer::NOT_SEND_ANY));
    let mut end = Tried::any(passive()).end;
    end.settings.configuration = 0x0C;
    end.intervals = only_now(MOST_FRAMES);
    assert_eq!(respond(&end, &asked, &mut []), Err(answer::FORBIDDEN));
    end.settings.configuration = 0x1C;
    assert_eq!(respond(&end, &asked, &mut []), Err(answer::LIMIT));
    end.intervals = only_now(9);
    let mut out = [0xEE; 413]; // three of 132 octets, and 18, are 414
    assert_eq!(respond(&end, &asked, &mut out), Err(answer::OUTPUT));
    assert_eq!(out, [0xEE; 413]);
    let step = respond(&end, &asked, &mut [0; 414]).expect("room");
    assert_eq!((step.length, step.end.written()), (414, 10));
}
