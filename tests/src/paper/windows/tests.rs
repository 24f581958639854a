//! The windows against the change request's words, worked by hand.

use super::*;
use crate::random::Random;

const MOST_ERRORS: u64 = u32::MAX as u64;

fn windows(frame: (u64, u64), seconds: (u64, u64)) -> Windows {
    Windows {
        frame_window: frame.0,
        frame_threshold: frame.1,
        seconds_window: seconds.0,
        seconds_threshold: seconds.1,
    }
}

fn fresh(frame: (u64, u64), seconds: (u64, u64)) -> Watch {
    Watch::fresh(&windows(frame, seconds)).expect("in range")
}

/// A watch of windows of 10 and 100 ticks, thresholds 1, with some numbers changed.
fn given(change: impl Fn(&mut WatchNumbers)) -> Watch {
    let mut numbers = WatchNumbers::fresh(&windows((10, 1), (100, 1)));
    change(&mut numbers);
    assert!(numbers.are_in_range(), "{numbers:?}");
    Watch::given(&numbers)
}

/// The events of the last of these ticks; none may arise before it.
fn last_of(watch: &mut Watch, counts: &[u64]) -> Vec<[u64; 7]> {
    let (last, before) = counts.split_last().expect("a tick");
    for &count in before {
        assert_eq!(watch.take(count), []);
    }
    let arisen = watch.take(*last);
    arisen.iter().map(Event::numbers).collect()
}

/// Takes so many ticks without a bad frame.
fn quiet(watch: &mut Watch, ticks: usize) {
    (0..ticks).for_each(|_| drop(watch.take(0)));
}

#[test]
fn windows_are_in_range_up_to_their_edges() {
    let good = windows((10, 1), (100, 1));
    for windows in [
        good,
        windows((600, MOST_ERRORS), (9_000, 65_535)),
        windows((11, 2), (110, 2)),
    ] {
        assert!(Watch::fresh(&windows).is_ok(), "{windows:?}");
    }
    for windows in [
        windows((9, 1), (100, 1)),
        windows((601, 1), (100, 1)),
        windows((65_546, 1), (100, 1)),
        windows((10, 0), (100, 1)),
        windows((10, 1 << 32), (100, 1)),
        windows((10, u64::MAX), (100, 1)),
        windows((10, 1), (90, 1)),
        windows((10, 1), (105, 1)),
        windows((10, 1), (9_010, 1)),
        windows((10, 1), (100, 0)),
        windows((10, 1), (100, 1 << 16)),
    ] {
        assert_eq!(Watch::fresh(&windows).err(), Some(answer::VALUES));
    }
}

/// "An event arises when errors reach or exceed the threshold at the window's end".
#[test]
fn a_sum_below_the_threshold_is_no_event_and_one_that_reaches_it_is() {
    for (counts, arisen) in [
        ([1, 0, 0, 0, 0, 0, 0, 0, 0, 1], vec![]),
        (
            [1, 0, 0, 0, 0, 0, 0, 0, 0, 2],
            vec![[2, 10, 10, 3, 3, 3, 1]],
        ),
        (
            [9, 0, 0, 0, 0, 0, 0, 0, 0, 0],
            vec![[2, 10, 10, 3, 9, 9, 1]],
        ),
    ] {
        let mut watch = fresh((10, 3), (100, 1));
        assert_eq!(last_of(&mut watch, &counts), arisen);
        let numbers = watch.numbers().frames;
        assert_eq!((numbers.at, numbers.errors), (0, 0));
        assert_eq!(numbers.total, counts.iter().sum::<u64>());
    }
}

#[test]
fn nothing_arises_between_the_ends_of_windows() {
    let mut watch = fresh((11, 1), (110, 1));
    let mut arisen = Vec::new();
    for tick in 1..=220 {
        let events = watch.take(1);
        arisen.extend(events.iter().map(|event| (tick, event.kind)));
    }
    let frames = (1..=20).map(|window| (11 * window, FRAME));
    let mut expected: Vec<(u64, u8)> = frames.collect();
    expected.extend([(110, FRAME_SECONDS), (220, FRAME_SECONDS)]);
    expected.sort_unstable();
    assert_eq!(arisen, expected);
}

#[test]
fn both_windows_end_at_tick_100_and_frames_come_first() {
    let mut watch = fresh((20, 2), (100, 3));
    let mut counts = [0; 100];
    for tick in [5, 25, 95, 100] {
        counts[tick - 1] = 1;
    }
    let both = vec![[2, 100, 20, 2, 2, 4, 1], [4, 100, 100, 3, 3, 3, 1]];
    assert_eq!(last_of(&mut watch, &counts), both);
    // The next windows end without one, and the totals stay.
    quiet(&mut watch, 80);
    assert_eq!(last_of(&mut watch, &[1; 20])[0], [2, 200, 20, 2, 20, 24, 2]);
    assert_eq!(watch.numbers().seconds.total, 5);
}

/// "with totals since fresh, itself included": also of windows without an event.
#[test]
fn totals_are_of_the_whole_history() {
    let mut watch = fresh((10, 5), (100, 1));
    assert_eq!(last_of(&mut watch, &[[0; 9], [0; 9]].concat()), [[0; 7]; 0]);
    quiet(&mut watch, 2);
    for expected in [4, 8] {
        assert_eq!(
            last_of(&mut watch, &[4, 0, 0, 0, 0, 0, 0, 0, 0, 0]),
            [[0; 7]; 0]
        );
        assert_eq!(watch.numbers().frames.total, expected);
    }
    let arisen = last_of(&mut watch, &[0, 5, 0, 0, 0, 0, 0, 0, 0, 0]);
    assert_eq!(arisen, [[2, 50, 10, 5, 5, 13, 1]]);
}

/// "as timestamp the ticks since fresh modulo 65,536".
#[test]
fn the_timestamp_at_tick_65536_is_0() {
    let mut watch = fresh((16, 1), (100, 65_535));
    quiet(&mut watch, 65_535);
    assert_eq!(watch.numbers().stamp, 65_535);
    assert_eq!(watch.take(1)[0].numbers(), [2, 0, 16, 1, 1, 1, 1]);
    assert_eq!(watch.numbers().stamp, 0);
    let mut watch = given(|numbers| {
        (numbers.stamp, numbers.frames.at) = (65_535, 9);
    });
    assert_eq!(watch.take(1)[0].numbers(), [2, 0, 10, 1, 1, 1, 1]);
}

#[test]
fn errors_too_many_show_the_largest_value() {
    for (counts, errors) in [
        (vec![MOST_ERRORS], MOST_ERRORS),
        (vec![1 << 32], MOST_ERRORS),
        (vec![MOST_ERRORS - 1, 1], MOST_ERRORS),
        (vec![MOST_ERRORS - 1, 0], MOST_ERRORS - 1),
        (vec![u64::MAX, u64::MAX], MOST_ERRORS),
    ] {
        let mut watch = fresh((10, 1), (100, 1));
        let total = counts.iter().fold(0, |sum: u64, c| sum.wrapping_add(*c));
        for count in &counts {
            watch.take(*count);
        }
        assert_eq!(watch.numbers().frames.errors, errors);
        let left = vec![0; 10 - counts.len()];
        let arisen = last_of(&mut watch, &left);
        assert_eq!(arisen, [[2, 10, 10, 1, errors, total, 1]]);
    }
}

/// A threshold of the largest value is reached by more than it.
#[test]
fn the_largest_threshold_is_reached() {
    let mut watch = fresh((10, MOST_ERRORS), (100, 1));
    watch.take(u64::MAX);
    quiet(&mut watch, 8);
    let arisen = [2, 10, 10, MOST_ERRORS, MOST_ERRORS, u64::MAX, 1];
    assert_eq!(watch.take(0)[0].numbers(), arisen);
    watch.take(MOST_ERRORS - 1);
    assert_eq!(last_of(&mut watch, &[0; 9]), [[0; 7]; 0]);
}

#[test]
fn totals_wrap_at_their_fields_width() {
    let mut watch = given(|numbers| {
        (numbers.frames.total, numbers.frames.events) = (u64::MAX, u32::MAX.into());
        (numbers.seconds.total, numbers.seconds.events) = (u32::MAX.into(), u32::MAX.into());
    });
    watch.take(2);
    assert_eq!(watch.numbers().frames.total, 1);
    assert_eq!(last_of(&mut watch, &[0; 9]), [[2, 10, 10, 1, 2, 1, 0]]);
    assert_eq!(watch.numbers().seconds.total, 0);
    let arisen = last_of(&mut watch, &[0; 90]);
    assert_eq!(arisen, [[4, 100, 100, 1, 1, 0, 0]]);
}

/// "Seconds run from fresh", and the tick that closes one belongs to it.
#[test]
fn a_bad_frame_in_tick_10_is_the_first_seconds_and_in_tick_11_the_second_ones() {
    for (tick, after_10, after_20) in [(10, 1, 1), (11, 0, 1), (1, 1, 1), (20, 0, 1), (21, 0, 0)] {
        let mut watch = fresh((600, 1), (100, 1));
        let errored: Vec<(u64, u64)> = (1..=20)
            .map(|now| {
                watch.take(u64::from(now == tick));
                let numbers = watch.numbers();
                (numbers.seconds.errors, numbers.bad)
            })
            .collect();
        assert_eq!(errored[9], (after_10, 0), "{tick}");
        assert_eq!(errored[19], (after_20, 0), "{tick}");
        let bad = (1..=20).filter(|now| now / 10 == tick / 10 && *now >= tick);
        let bad = bad.filter(|now| now % 10 > 0 && tick % 10 > 0);
        let shown = (1..=20).filter(|now| errored[*now as usize - 1].1 == 1);
        assert_eq!(bad.collect::<Vec<u64>>(), shown.collect::<Vec<u64>>());
    }
}

/// Two bad frames in one second are one errored second.
#[test]
fn seconds_are_counted_and_not_their_frames() {
    let mut watch = fresh((600, MOST_ERRORS), (100, 2));
    watch.take(7);
    watch.take(7);
    assert_eq!(last_of(&mut watch, &[0; 98]), [[0; 7]; 0]);
    watch.take(1);
    quiet(&mut watch, 9);
    watch.take(1 << 40);
    assert_eq!(last_of(&mut watch, &[0; 89]), [[4, 200, 100, 2, 2, 3, 1]]);
}

/// Wherever a list begins, what is given and what is in it come to the same.
#[test]
fn a_watch_goes_on_from_its_numbers() {
    let mut random = Random::new(5);
    for (frame, seconds) in [((10, 2), (100, 3)), ((37, 1), (110, 1))] {
        let mut whole = fresh(frame, seconds);
        let mut cut = whole.clone();
        for _ in 0..2_000 {
            let count = random.pick(&[0, 0, 0, 0, 1, 2, 1 << 32, u64::MAX]);
            assert_eq!(whole.take(count), cut.take(count));
            assert_eq!(whole.numbers(), cut.numbers());
            assert!(whole.numbers().are_in_range());
            if random.one_in(7) {
                cut = Watch::given(&cut.numbers());
            }
        }
        assert!(whole.numbers().seconds.events > 5);
    }
}

#[test]
fn numbers_are_packed_and_shown_in_their_orders() {
    let packed: [u64; WATCH_NUMBERS] = std::array::from_fn(|place| place as u64);
    let numbers = WatchNumbers::from_packed(&packed);
    assert_eq!(numbers.packed(), packed);
    let shown = [0, 1, 6, 7, 2, 3, 4, 5, 8, 9, 10, 11, 12, 13];
    assert_eq!(numbers.shown(), shown);
    assert_eq!(WatchNumbers::from_shown(&shown), numbers);
    let WindowNumbers { at, errors, .. } = numbers.seconds;
    assert_eq!((at, errors, numbers.stamp, numbers.bad), (8, 9, 12, 13));
}

#[test]
fn numbers_that_calls_cannot_lead_to_are_out_of_range() {
    let good = given(|numbers| {
        (numbers.frames.at, numbers.frames.errors) = (9, MOST_ERRORS);
        (numbers.seconds.at, numbers.seconds.errors) = (99, 9);
        (numbers.stamp, numbers.bad) = (65_535, 1);
    });
    let good = good.numbers();
    let changes: [fn(&mut WatchNumbers); 20] = [
        |n| n.frames.length = 9,
        |n| n.frames.length = 601,
        |n| n.frames.threshold = 0,
        |n| n.frames.threshold = 1 << 32,
        |n| n.frames.at = 10,
        |n| n.frames.at = 0, // with errors
        |n| n.frames.errors = 1 << 32,
        |n| n.frames.events = 1 << 32,
        |n| n.seconds.length = 90,
        |n| n.seconds.length = 105,
        |n| n.seconds.length = 9_010,
        |n| n.seconds.threshold = 0,
        |n| n.seconds.threshold = 1 << 16,
        |n| n.seconds.at = 100,
        |n| n.seconds.at = 90, // with a bad frame in no second
        |n| n.seconds.errors = 10,
        |n| n.seconds.total = 1 << 32,
        |n| n.seconds.events = 1 << 32,
        |n| n.stamp = 1 << 16,
        |n| n.bad = 2,
    ];
    for (place, change) in changes.into_iter().enumerate() {
        let mut numbers = good;
        change(&mut numbers);
        assert!(!numbers.are_in_range(), "{place}: {numbers:?}");
    }
}
