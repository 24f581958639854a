//! Every maker makes what it says, and reaches all that it is there for.

use super::*;
use crate::paper::{
    answer, answers, code, is_plain, list, log, Body, Content, DraftBody, Information, Part, BODY,
    LONGEST, PLAIN_EVENTS, SHORTEST,
};
use std::collections::BTreeSet;

mod captures;

const TIMES: usize = 2_000;

fn random() -> Random {
    Random::new(20_040_907)
}

/// Draws many frames, all of which must read as claimed.
fn drawn(mut make: impl FnMut(&mut Random) -> Made) -> Vec<Made> {
    let mut random = random();
    let frames: Vec<Made> = (0..TIMES).map(|_| make(&mut random)).collect();
    for made in &frames {
        assert!(
            made.holds(),
            "{made:02x?} reads as {:02x?}",
            read(&made.frame)
        );
    }
    frames
}

fn answers_of(frames: &[Made]) -> BTreeSet<u8> {
    frames
        .iter()
        .map(|made| read(&made.frame).err().unwrap_or(answer::ACCEPTED))
        .collect()
}

fn is_accepted(made: &Made) -> bool {
    matches!(made.claim, Claim::Accepted(_)) && read(&made.frame).is_ok()
}

#[test]
fn a_claim_fits_only_its_own_reading() {
    let frame = drawn(|random| plain(random, code::REQUEST)).remove(0).frame;
    let reading = read(&frame);
    let other = any_message(&mut random(), code::RESPONSE, Style::Loose);
    assert!(!Claim::Accepted(other).fits(&reading));
    assert!(!Claim::Refused(6).fits(&reading));
    assert!(!Claim::Refused(6).fits(&Err(7)));
    assert!(Claim::Refused(6).fits(&Err(6)));
    assert!(Claim::Unsaid.fits(&reading));
}

// Valid frames.

#[test]
fn plain_frames_are_accepted() {
    for code in code::ALL {
        let frames = drawn(|random| plain(random, code));
        assert!(frames.iter().all(is_accepted));
    }
}

#[test]
fn plain_frames_have_the_plain_form() {
    for code in code::ALL {
        for made in drawn(|random| plain(random, code)) {
            let message = read(&made.frame).expect("accepted");
            assert_eq!(encode::plain(&message), made.frame);
            assert_eq!(message.flags & 0xFF80, 0);
            assert_ne!(message.flags >> 3 & 3, 3);
            assert_ne!(message.flags >> 5 & 3, 3);
            assert!(has_plain_body(&message.body));
        }
    }
}

fn has_plain_body(body: &Body) -> bool {
    let zero = |fields: &Information| {
        fields.state < 0x08 && fields.configuration < 0x20 && fields.pdu_configuration < 0x0800
    };
    match body {
        Body::Information(parts) => match parts.as_slice() {
            [] => true,
            [Part::Local(local)] => zero(local),
            [Part::Local(local), Part::Remote(remote)] => zero(local) && zero(remote),
            _ => false,
        },
        Body::Notification { events, .. } => (1..=PLAIN_EVENTS).contains(&events.len()),
        Body::Request(descriptors) => (1..=32).contains(&descriptors.len()),
        Body::Organization { data, .. } => (39..=1493).contains(&data.len()),
        Body::Response(_) | Body::Loopback { .. } => true,
    }
}

#[test]
fn loose_frames_are_accepted() {
    for code in code::ALL {
        let frames = drawn(|random| loose(random, code).made());
        assert!(frames.iter().all(is_accepted));
    }
}

/// Loose frames of a code, as laid out.
fn layouts(code: u8) -> Vec<valid::Layout> {
    let mut random = random();
    (0..TIMES).map(|_| loose(&mut random, code)).collect()
}

#[test]
fn loose_lists_end_in_every_way() {
    for code in [
        code::INFORMATION,
        code::NOTIFICATION,
        code::REQUEST,
        code::RESPONSE,
    ] {
        let ends: Vec<(usize, usize, bool)> = layouts(code)
            .iter()
            .map(|layout| {
                let end = layout.edges.last().expect("a list has edges").at;
                let rest = &layout.frame[end..];
                (end, rest.len(), rest.iter().any(|&octet| octet != 0))
            })
            .collect();
        let some = |condition: fn(&(usize, usize, bool)) -> bool| ends.iter().any(condition);
        assert!(some(|&(_, rest, _)| rest == 0), "ends with the frame");
        assert!(
            some(|&(end, rest, _)| end == 60 && rest == 0),
            "fills the shortest frame"
        );
        assert!(some(|&(_, rest, _)| rest == 1), "zero as the last octet");
        assert!(some(|&(_, _, garbage)| garbage), "garbage behind the end");
        assert!(
            some(|&(_, rest, garbage)| rest > 1 && !garbage),
            "zeros behind the end"
        );
        assert!(some(|&(end, _, _)| end <= 20), "no part");
    }
}

#[test]
fn loose_tlvs_are_mixed_with_unknown_ones() {
    for code in [code::INFORMATION, code::NOTIFICATION] {
        let mut places = BTreeSet::new();
        for layout in layouts(code) {
            let all = encode::parts(&layout.message.body).len();
            for pair in layout.edges.windows(2) {
                if pair[0].parts == pair[1].parts && all == 2 {
                    places.insert(pair[0].parts);
                }
            }
        }
        assert_eq!(
            places,
            BTreeSet::from([0, 1, 2]),
            "before, between and behind two parts"
        );
    }
}

#[test]
fn loose_tlvs_are_skipped_by_the_hundred_and_behind_the_end() {
    for code in [code::INFORMATION, code::NOTIFICATION] {
        let (mut hundreds, mut behind) = (0, 0);
        for layout in layouts(code) {
            let end = layout.edges.last().expect("a list has edges").at;
            let rest = layout.frame.get(end + 1..).unwrap_or_default();
            let is_tlv = match *rest {
                [5..=0xFF, length @ 2..=0xFF, ..] => usize::from(length) <= rest.len(),
                _ => false,
            };
            hundreds += usize::from(layout.message.skipped.total > 100);
            behind += usize::from(is_tlv);
        }
        assert!(hundreds > TIMES / 50, "{hundreds}");
        assert!(behind > TIMES / 8, "{behind}");
    }
}

#[test]
fn loose_edges_are_where_parts_begin() {
    for layout in layouts(code::NOTIFICATION) {
        for pair in layout.edges.windows(2) {
            let length = usize::from(layout.frame[pair[0].at + 1]);
            assert_eq!(pair[0].at + length, pair[1].at);
        }
    }
}

#[test]
fn loose_information_has_every_order_and_ignored_bits() {
    let mut orders = BTreeSet::new();
    let mut ignored = 0;
    for layout in layouts(code::INFORMATION) {
        if let Body::Information(parts) = &layout.message.body {
            orders.insert(
                parts
                    .iter()
                    .map(|part| encode::part(part)[0])
                    .collect::<Vec<u8>>(),
            );
        }
        ignored += usize::from(!has_plain_body(&layout.message.body));
    }
    let all: [&[u8]; 5] = [&[], &[1], &[1, 2], &[2], &[2, 1]];
    assert_eq!(orders, all.map(<[u8]>::to_vec).into());
    assert!(ignored > TIMES / 4);
}

#[test]
fn loose_containers_have_every_kind_of_width() {
    let mut lengths = BTreeSet::new();
    let mut indications = BTreeSet::new();
    for layout in layouts(code::RESPONSE) {
        if let Body::Response(containers) = layout.message.body {
            for container in containers {
                match container.content {
                    Content::Value(value) => lengths.insert(value.len()),
                    Content::Indication(indication) => indications.insert(indication.into()),
                };
            }
        }
    }
    assert_eq!(lengths, (1..=128).collect());
    assert_eq!(indications, (0x80..=0xFF).collect());
}

#[test]
fn loose_lists_reach_the_longest_frame() {
    for code in [code::NOTIFICATION, code::REQUEST, code::RESPONSE] {
        let longest = layouts(code).iter().map(|layout| layout.frame.len()).max();
        assert!(
            longest >= Some(LONGEST - 60) && longest <= Some(LONGEST),
            "code {code}"
        );
    }
}

// Damage.

#[test]
fn header_damage_reaches_answers_1_to_5() {
    for code in code::ALL {
        let frames = drawn(|random| damage::header(random, code));
        assert_eq!(answers_of(&frames), (1..=5).collect());
    }
}

#[test]
fn cuts_are_refused_inside_a_part_and_accepted_between_two() {
    for code in [
        code::INFORMATION,
        code::NOTIFICATION,
        code::REQUEST,
        code::RESPONSE,
    ] {
        let frames = drawn(|random| damage::cut(random, code));
        assert_eq!(answers_of(&frames), BTreeSet::from([0, 1, 6]));
    }
    for code in [code::LOOPBACK, code::ORGANIZATION] {
        let frames = drawn(|random| damage::cut(random, code));
        assert_eq!(answers_of(&frames), BTreeSet::from([0, 1]));
    }
}

#[test]
fn a_list_ended_early_is_accepted() {
    for code in code::ALL {
        let frames = drawn(|random| damage::ended_early(random, code));
        assert!(frames.iter().all(is_accepted));
    }
}

#[test]
fn wrong_tlv_lengths_are_mostly_broken() {
    let frames = drawn(damage::tlv_length);
    let broken = |made: &&Made| matches!(made.claim, Claim::Refused(answer::BROKEN));
    assert!(frames.iter().filter(broken).count() > TIMES / 2);
}

#[test]
fn information_sequences_reach_6_and_7() {
    let frames = drawn(sequence::any_sequence);
    assert_eq!(answers_of(&frames), BTreeSet::from([0, 6, 7]));
}

#[test]
fn commands_are_accepted_or_8() {
    assert_eq!(
        answers_of(&drawn(damage::any_command)),
        BTreeSet::from([0, 8])
    );
}

#[test]
fn a_flip_changes_one_octet() {
    let (mut first, mut second) = (random(), random());
    for _ in 0..TIMES {
        let code = any_code(&mut first);
        let flipped = damage::flip(&mut first, code).frame;
        let code = any_code(&mut second);
        let whole = loose(&mut second, code).frame;
        let differing = whole.iter().zip(&flipped).filter(|(old, new)| old != new);
        assert_eq!(differing.count(), 1);
        assert_eq!(whole.len(), flipped.len());
        second = Random::new(first.number());
        first = second.clone();
    }
}

#[test]
fn noise_reaches_accepted_and_broken_bodies() {
    let reached = answers_of(&drawn(damage::noise));
    assert!(reached.is_superset(&BTreeSet::from([0, 6, 8])));
}

// Sets gone through to the last one.

#[test]
fn every_frame_reads_as_claimed() {
    let frames = every_frame(&mut random());
    for made in &frames {
        assert!(!matches!(made.claim, Claim::Unsaid));
        assert!(
            made.holds(),
            "{made:02x?} reads as {:02x?}",
            read(&made.frame)
        );
    }
    assert_eq!(answers_of(&frames), (0..=8).collect());
}

#[test]
fn every_tlv_length_stands_at_a_frames_end() {
    // Behind the header, and a notification's number, stands a TLV of 44 octets.
    let mut at_end = BTreeSet::new();
    for made in every_frame(&mut random()) {
        let frame = &made.frame;
        let start = if frame.get(17) == Some(&code::NOTIFICATION) {
            64
        } else {
            62
        };
        if frame.len() >= start + 2 && frame[17] <= 1 && frame[start - 44..][..2] == [0x7E, 44] {
            let (kind, length) = (frame[start], frame[start + 1]);
            if frame.len() == start + usize::from(length).max(2) {
                at_end.insert((frame[17], kind, length));
            }
        }
    }
    for code in [0, 1] {
        for kind in [1, 2, 3, 4, 5, 0xFE] {
            for length in 0..=255 {
                assert!(
                    at_end.contains(&(code, kind, length)),
                    "{code} {kind} {length}"
                );
            }
        }
        assert!((1..=255).all(|kind| at_end.contains(&(code, kind, 16))));
    }
}

#[test]
fn crowds_are_as_large_as_a_frame_allows() {
    let frames = every_frame(&mut random());
    let skipped = |wanted: u8| -> BTreeSet<usize> {
        let of_code = frames.iter().filter_map(|made| match &made.claim {
            Claim::Accepted(message) if message.body.code() == wanted => Some(message),
            _ => None,
        });
        of_code.map(|message| message.skipped.total).collect()
    };
    for (code, most) in [(code::INFORMATION, 748), (code::NOTIFICATION, 747)] {
        let skipped = skipped(code);
        assert!(skipped.is_superset(&[0, 1, 2, 255, 256, 513, most - 1].into()));
        assert_eq!(skipped.last(), Some(&most));
    }
}

#[test]
fn every_length_at_the_bounds_is_there_for_every_code() {
    let frames = every_frame(&mut random());
    for code in code::ALL {
        for length in [59, 60, 61, 1513, 1514, 1515] {
            let is_it = |made: &Made| made.frame.len() == length && made.frame[17] == code;
            assert!(frames.iter().any(is_it), "code {code}, length {length}");
        }
    }
}

#[test]
fn every_command_and_every_reserved_code_is_there() {
    let frames = every_frame(&mut random());
    let octets_at = |place: usize, answer: u8| -> BTreeSet<u8> {
        let refused = |made: &&Made| matches!(made.claim, Claim::Refused(given) if given == answer);
        frames
            .iter()
            .filter(refused)
            .map(|made| made.frame[place])
            .collect()
    };
    assert_eq!(octets_at(BODY, answer::COMMAND).len(), 254);
    assert_eq!(octets_at(17, answer::CODE).len(), 250);
    assert_eq!(octets_at(14, answer::SUBTYPE).len(), 255);
}

// Lines.

#[test]
fn spoilt_lines_are_14() {
    let mut random = random();
    for _ in 0..TIMES {
        let frame = any_frame(&mut random).frame;
        let line = spoilt(&mut random, &frame);
        assert!(matches!(line.claim, Claim::Refused(14)));
        assert!(line.holds(), "{}", line.text.escape_ascii());
        assert!(!line.text.contains(&b'\n'));
    }
}

#[test]
fn every_foreign_character_is_there_first_within_and_last() {
    let lines = every_line(&mut random());
    let digits = b"0123456789abcdef\n";
    for character in (0..=255).filter(|character| !digits.contains(character)) {
        let long = |line: &&Line| line.text.len() >= 2 * SHORTEST;
        let some = |condition: &dyn Fn(&[u8]) -> bool| {
            lines.iter().filter(long).any(|line| condition(&line.text))
        };
        assert!(some(&|text| text[0] == character));
        assert!(some(&|text| text[1..text.len() - 1].contains(&character)));
        assert!(some(&|text| text[text.len() - 1] == character));
    }
}

#[test]
fn every_line_reads_as_claimed_and_the_long_ones_are_there() {
    let lines = every_line(&mut random());
    assert!(lines.iter().all(Line::holds));
    assert!(lines.iter().all(|line| !line.text.contains(&b'\n')));
    for octets in [0, 1513, 1514, 1515, 1_000_000] {
        assert!(
            lines.iter().any(|line| line.text.len() == 2 * octets),
            "{octets} octets"
        );
    }
    let foreign_last = |line: &Line| line.text.len() == 100_000 && line.text.ends_with(b"g");
    assert!(lines.iter().any(foreign_last));
}

#[test]
fn a_short_frame_stands_behind_every_long_line() {
    let lines = every_line(&mut random());
    let long = |line: &Line| line.text.len() > 2 * 1_000;
    let behind: Vec<&Line> = lines
        .windows(2)
        .filter(|pair| long(&pair[0]) && pair[0].text.starts_with(b"55555"))
        .map(|pair| &pair[1])
        .collect();
    assert!(behind.len() >= 9);
    assert!(behind.iter().all(|line| line.text.len() == 2 * SHORTEST));
}

#[test]
fn mixed_lines_hold_the_frames_asked_for_and_reach_every_answer() {
    let lines = mixed_lines(&mut random(), 30_000);
    assert!(lines.iter().all(Line::holds));
    let frames = lines
        .iter()
        .filter(|line| !matches!(line.claim, Claim::Refused(14)));
    assert!(frames.count() >= 30_000);
    let texts: Vec<&[u8]> = lines.iter().map(|line| line.text.as_slice()).collect();
    let reached: BTreeSet<u8> = answers(&texts.join(&b'\n'))
        .map(|answer| answer.err().unwrap_or(answer::ACCEPTED))
        .collect();
    assert_eq!(reached, answer::ALL.into());
}

#[test]
fn the_same_seed_gives_the_same_lines() {
    let text = |seed| {
        let mut random = Random::new(seed);
        let lines: Vec<Vec<u8>> = (0..100)
            .map(|_| of_frame(any_frame(&mut random)).text)
            .collect();
        lines.concat()
    };
    assert_eq!(text(1), text(1));
    assert_ne!(text(1), text(2));
}

#[test]
fn traffic_is_a_hundred_and_holds_every_kind() {
    assert_eq!(TRAFFIC.iter().map(|kind| kind.share).sum::<usize>(), 100);
    let mut random = random();
    let kinds: BTreeSet<usize> = (0..TIMES).map(|_| traffic_line(&mut random).0).collect();
    assert_eq!(kinds, (0..TRAFFIC.len()).collect());
}

// Drafts and the log.

#[test]
fn drafts_are_written_or_refused_as_claimed() {
    let mut random = random();
    for code in code::ALL {
        let mut written = 0;
        let mut reached = BTreeSet::new();
        for _ in 0..4 * TIMES {
            let made = any_draft(&mut random, code);
            assert!(made.holds(), "{made:?}");
            match made.claim {
                DraftClaim::Written(_) => written += 1,
                DraftClaim::Refused(fault) => drop(reached.insert(fault)),
            }
        }
        assert!(written > TIMES);
        assert_eq!(reached, faults(code).into_iter().collect());
    }
}

#[test]
fn drafts_reach_the_counts_at_the_bounds() {
    let mut random = random();
    let mut counts: [BTreeSet<usize>; 3] = Default::default();
    for _ in 0..20 * TIMES {
        for code in [code::NOTIFICATION, code::REQUEST, code::ORGANIZATION] {
            match any_draft(&mut random, code).draft.body {
                DraftBody::Notification { events, .. } => counts[0].insert(events.len()),
                DraftBody::Request { descriptors } => counts[1].insert(descriptors.len()),
                DraftBody::Organization { data, .. } => counts[2].insert(data.len()),
                other => panic!("not asked for: {other:?}"),
            };
        }
    }
    let [events, descriptors, data] = counts;
    let (one, most) = (7, 7 * PLAIN_EVENTS);
    let bounds = [0, 1, one - 1, one, most - 1, most, most + 7, most + 14];
    assert!(events.is_superset(&bounds.into()));
    assert!(descriptors.is_superset(&[0, 1, 2, 31, 32, 33].into()));
    assert!(data.is_superset(&[0, 38, 39, 40, 1493, 1494].into()));
}

#[test]
fn response_drafts_reach_every_length_at_the_bounds() {
    let mut random = random();
    let mut lengths: [BTreeSet<usize>; 2] = Default::default();
    for _ in 0..20 * TIMES {
        let made = any_draft(&mut random, code::RESPONSE);
        let DraftBody::Response { containers } = made.draft.body else {
            panic!("not asked for");
        };
        let written = matches!(made.claim, DraftClaim::Written(_));
        lengths[usize::from(written)].insert(containers.len());
    }
    let [refused, written] = lengths;
    assert!(written.is_superset(&[0, 4, 5, 40, 41, 42, 43, 1495, 1496].into()));
    assert!(refused.is_superset(&[1, 2, 3, 4, 1497].into()));
    assert!(refused.iter().any(|&length| length >= 65_536));
}

#[test]
fn near_responses_are_not_plain_for_each_reason() {
    let mut random = random();
    let frames: Vec<Vec<u8>> = (0..20 * TIMES)
        .map(|_| near_plain(&mut random, code::RESPONSE))
        .collect();
    let some = |condition: &dyn Fn(&[u8]) -> bool| frames.iter().any(|frame| condition(frame));
    let end = |frame: &[u8]| {
        list(code::RESPONSE, frame)
            .last()
            .map_or(BODY, |last| last.next)
    };
    let response = |frame: &[u8]| read(frame).is_ok() && frame[17] == code::RESPONSE;
    let zeros = |octets: &[u8]| octets.iter().all(|&octet| octet == 0);
    assert!(some(&is_plain));
    assert!(some(&|frame| response(frame)
        && zeros(&frame[end(frame)..])
        && !is_plain(frame)));
    assert!(some(
        &|frame| response(frame) && !zeros(&frame[end(frame)..])
    ));
    assert!(some(&|frame| read(frame) == Err(answer::BROKEN)));
}

#[test]
fn drafts_reach_the_least_and_the_greatest_number_of_each_field() {
    let mut random = random();
    let mut numbers: [BTreeSet<u64>; 7] = Default::default();
    for _ in 0..TIMES {
        if let DraftBody::Information { local, .. } =
            any_draft(&mut random, code::INFORMATION).draft.body
        {
            for (seen, number) in numbers.iter_mut().zip(local) {
                seen.insert(number);
            }
        }
    }
    for (seen, bits) in numbers.iter().zip([8, 16, 3, 5, 11, 24, 32]) {
        for number in [0, (1 << bits) - 1, 1 << bits, u64::MAX] {
            assert!(seen.contains(&number), "{number} in {bits} bits");
        }
    }
}

#[test]
fn log_lines_read_as_claimed() {
    let mut random = random();
    let (mut good, mut edited_good) = (0, 0);
    let mut reached = BTreeSet::new();
    for _ in 0..10 * TIMES {
        let line = any_log_line(&mut random);
        assert!(line.holds(), "{line:?}: {}", line.text.escape_ascii());
        match line.claim {
            LineClaim::Read(_) => good += 1,
            LineClaim::Refused(fault) => drop(reached.insert(fault)),
            LineClaim::Edited => edited_good += usize::from(log::read(&line.text).is_ok()),
        }
    }
    assert!(good > TIMES && edited_good > 100);
    assert_eq!(reached, LineFault::ALL.into());
}

#[test]
fn log_entries_are_written_or_refused_as_claimed() {
    let mut random = random();
    let mut reached = BTreeSet::new();
    for _ in 0..TIMES {
        let entry = any_log_entry(&mut random);
        assert!(entry.holds(), "{entry:?}");
        reached.insert(entry.fault);
    }
    let faults = EntryFault::ALL.into_iter().map(Some);
    assert_eq!(reached, faults.chain([None]).collect());
}
