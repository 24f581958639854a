//! Settings and a fresh end.

use super::*;

fn answer_to(settings: Settings) -> u8 {
    End::fresh(&settings).err().unwrap_or(answer::ACCEPTED)
}

#[test]
fn settings_are_in_range_up_to_their_edges() {
    let edges: [(Settings, Settings); 5] = [
        (
            with(|s| s.configuration = 0x1F),
            with(|s| s.configuration = 0x20),
        ),
        (with(|s| s.size = 64), with(|s| s.size = 63)),
        (with(|s| s.size = 1518), with(|s| s.size = 1519)),
        (with(|s| s.oui = 0xFF_FFFF), with(|s| s.oui = 0x100_0000)),
        (
            with(|s| s.source = 0xFFFF_FFFF_FFFF),
            with(|s| s.source = 1 << 48),
        ),
    ];
    for (inside, outside) in edges {
        assert_eq!(answer_to(inside), answer::ACCEPTED, "{inside:?}");
        assert_eq!(answer_to(outside), answer::VALUES, "{outside:?}");
    }
}

fn with(change: impl Fn(&mut Settings)) -> Settings {
    let mut settings = active();
    change(&mut settings);
    settings
}

/// What is required may be more than the own bits (B22).
#[test]
fn capabilities_are_bits_1_to_4() {
    for required in 0..=255 {
        let expected = match required & 0xE1 {
            0 => answer::ACCEPTED,
            _ => answer::VALUES,
        };
        let settings = Settings {
            configuration: 0,
            required,
            ..active()
        };
        assert_eq!(answer_to(settings), expected, "{required:02x}");
    }
}

#[test]
fn a_fresh_end_is_at_zero() {
    let end = End::fresh(&active()).expect("in range");
    let mut numbers = [0; END_NUMBERS];
    numbers[..5].copy_from_slice(&[0x1D, 1518, 0x1B21, 0xDEAD_BEEF, 0x0200_0000_0005]);
    assert_eq!(end.numbers(), numbers);
    assert_eq!((end.discovery, end.role), (Discovery::Fault, Role::Idle));
    assert_eq!(end.flags(), 0);
}

/// The link-fault flag stands from the start (B23) but owes nothing; the first
/// frame comes at the tenth tick.
#[test]
fn a_fresh_unidirectional_end_sends_link_fault_at_the_tenth_tick() {
    let mut tried = Tried::fresh(Settings {
        configuration: 0x02,
        ..active()
    });
    assert_eq!(tried.end.flags(), 0x0001);
    assert!(!tried.end.owed);
    for _ in 0..9 {
        tried.tick();
        tried.assert_silent();
    }
    tried.tick();
    tried.assert_sent(0x0001, "");
    assert_eq!((tried.end.written(), tried.end.ticks), (1, 0));
}

#[test]
fn another_fresh_end_is_silent_while_its_link_is_down() {
    let mut tried = Tried::fresh(active());
    for _ in 0..200 {
        tried.tick();
        tried.assert_silent();
    }
    assert_eq!((tried.end.written(), tried.end.lost_link), (0, 0));
}

/// The numbers of an end that loops, with an event number kept and frames in two
/// intervals.
const BUSY: [u64; END_NUMBERS] = [
    0x1D,
    1518,
    0x1B21,
    0xDEAD_BEEF,
    0x0200_0000_0005,
    0,
    1,
    1,
    2,
    1,
    1,
    7,
    0,
    0x0D,
    0x200,
    0xA0_B1C2,
    0x0102_0304,
    1,
    0x0102,
    4,
    1,
    4,
    1,
    0,
    0,
    1,
    0,
    5,
    0x31,
];

#[test]
fn an_end_is_its_numbers() {
    let mut tried = Tried::any(active());
    tried.receive(&frame(DONE, "01 0102"));
    tried.receive(&frame(DONE, ENABLE_BODY));
    tried.tick();
    tried.report(Report::CriticalEventSet);
    assert_eq!(tried.end.numbers(), BUSY);
    assert_eq!(End::from_numbers(&BUSY), Some(tried.end));
}

#[test]
fn numbers_beyond_their_range_are_no_end() {
    let numbers = Tried::any(active()).end.numbers();
    let beyond = [
        (0, 0x20),
        (1, 63),
        (2, 1 << 24),
        (3, 1 << 32),
        (4, 1 << 48),
        (5, 1),
        (6, 2),
        (7, 50),
        (8, 3),
        (9, 2),
        (9, 0), // not held, but not shown as zeros
        (10, 256),
        (17, 2),
        (18, 1), // not held either
        (19, 5),
        (20, 10),
        (20, 255),
        (21, 3), // not the sum of the intervals
        (22, 1 << 16),
        (23, 1 << 16),
        (24, 2),
        (25, 2),
        (26, 2),
        (27, 4), // the moves rest in SEND_ANY
        (27, 6),
        (28, 0x01), // not as many as are written
    ];
    for (place, number) in beyond {
        let mut numbers = numbers;
        numbers[place] = number;
        assert_eq!(End::from_numbers(&numbers), None, "{place}: {number}");
    }
}

/// The written-frames number and the intervals together.
#[test]
fn eleven_frames_are_no_end_and_ten_are_one() {
    let mut numbers = Tried::any(active()).end.numbers();
    for (frames, taken) in [(10, true), (11, false)] {
        (numbers[21], numbers[28]) = (frames, frames);
        assert_eq!(End::from_numbers(&numbers).is_some(), taken, "{frames}");
    }
}
