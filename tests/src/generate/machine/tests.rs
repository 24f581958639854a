//! Settings are as claimed, and scripts reach what they are there for.

use super::stretch::stretch_scripts;
use super::*;
use crate::library::machine::Call;
use crate::paper::machine::{Discovery, End, Role, Settings, MOST_FRAMES};
use crate::paper::windows::Windows;
use crate::paper::{answer, LONGEST};
use crate::random::Random;
use std::collections::BTreeSet;

#[test]
fn settings_are_out_of_range_for_each_reason() {
    let mut random = Random::new(1);
    let mut faults = BTreeSet::new();
    for _ in 0..2_000 {
        let (setup, fault) = any_setup(&mut random);
        let in_range = setup.settings.are_in_range() && setup.windows.are_in_range();
        assert_eq!(in_range, fault.is_none(), "{setup:?}");
        faults.extend(fault);
    }
    assert_eq!(faults.len(), SettingsFault::ALL.len());
}

/// The windows and thresholds that are named in change request (iii).
#[test]
fn windows_of_every_sort_are_in_range_and_at_its_ends() {
    let windows = windows_of_every_sort(&mut Random::new(5), 200);
    assert!(windows.iter().all(|windows| windows.are_in_range()));
    let has = |wanted: fn(&Windows) -> u64, number: u64| {
        let with = windows.iter().filter(|windows| wanted(windows) == number);
        assert!(with.count() > 10, "{number}");
    };
    has(|windows| windows.frame_window, 10);
    has(|windows| windows.frame_window, 600);
    has(|windows| windows.frame_threshold, 1);
    has(|windows| windows.frame_threshold, u32::MAX.into());
    has(|windows| windows.seconds_window, 100);
    has(|windows| windows.seconds_window, 110);
    has(|windows| windows.seconds_window, 9_000);
    has(|windows| windows.seconds_threshold, 1);
    has(|windows| windows.seconds_threshold, u16::MAX.into());
}

#[test]
fn counts_are_mostly_none_and_now_and_then_too_many() {
    let (mut random, mut counts) = (Random::new(7), Counts::default());
    let drawn: Vec<u64> = (0..20_000).map(|_| counts.next(&mut random)).collect();
    let none = drawn.iter().filter(|&&count| count == 0).count();
    assert!((10_000..19_000).contains(&none), "{none}");
    for count in [1, 19, u32::MAX.into(), 1 << 32, u64::MAX] {
        assert!(drawn.contains(&count), "{count}");
    }
}

/// Makes a call with room enough.
fn stepped(end: &mut End, call: &Call) {
    if let Ok(step) = call.step(end, &mut [0; LONGEST]) {
        *end = step.end;
    }
}

#[test]
fn most_scripts_reach_send_any_and_many_every_role() {
    let mut random = Random::new(2);
    let (mut any, mut roles) = (0, [0; Role::ALL.len()]);
    for _ in 0..200 {
        let settings = good_settings(&mut random);
        let mut script = Script::new(&mut random, &settings);
        let mut end = End::fresh(&settings).expect("in range");
        let mut seen = BTreeSet::new();
        for _ in 0..300 {
            let call = script.call(&mut random, &end);
            stepped(&mut end, &call);
            seen.insert((end.discovery, end.role));
        }
        let in_role = |role| usize::from(seen.contains(&(Discovery::SendAny, role)));
        any += in_role(Role::Idle);
        for (count, role) in roles.iter_mut().zip(Role::ALL) {
            *count += in_role(role);
        }
    }
    assert!(any > 150, "{any}");
    assert!(roles.iter().all(|&count| count > 50), "{roles:?}");
}

/// What is wrong with a response, told apart from the machine that refuses it.
#[test]
fn responses_are_refused_for_each_reason_alone() {
    let mut random = Random::new(3);
    let end = in_send_any();
    let (mut reasons, mut granted) = (BTreeSet::new(), 0);
    for _ in 0..4_000 {
        let call = any_respond(&mut random, 1518);
        let faults = faults_of(&call);
        let answer = call.step(&end, &mut [0; LONGEST]).err();
        assert_eq!(answer, (!faults.is_empty()).then_some(10), "{call}");
        granted += usize::from(answer.is_none());
        if let [fault] = faults[..] {
            reasons.insert(fault);
        }
    }
    assert!(granted > 2_000, "{granted}");
    assert_eq!(reasons, ResponseFault::ALL.into());
}

fn faults_of(call: &Call) -> Vec<ResponseFault> {
    match call {
        Call::Respond(given) => ResponseFault::all_of(given),
        other => panic!("no response: {other}"),
    }
}

/// An end in SEND_ANY that may respond.
fn in_send_any() -> End {
    let settings = Settings {
        configuration: 0x1D,
        ..WRAPPING.settings
    };
    let mut end = End::fresh(&settings).expect("in range");
    for call in wrapping_start() {
        stepped(&mut end, &call);
    }
    assert_eq!(end.discovery, Discovery::SendAny);
    end
}

/// At sizes up to 1,518 many responses end just below, at and just above the room
/// that there is.
#[test]
fn many_responses_just_fit_or_just_do_not() {
    let mut random = Random::new(4);
    let mut end = in_send_any();
    for size in [64, 65, 66, 67, 100, 1517, 1518] {
        end.settings.size = size;
        let mut lengths = [0; 3];
        for _ in 0..1_000 {
            let call = any_respond(&mut random, size.into());
            let Ok(step) = call.step(&end, &mut [0; LONGEST]) else {
                continue;
            };
            let below = usize::from(size) - 4 - step.length;
            if let Some(count) = lengths.get_mut(below) {
                *count += 1;
            }
        }
        assert!(lengths[0] > 30, "{size}: {lengths:?}");
    }
}

#[test]
fn the_long_script_passes_65535() {
    let mut end = End::fresh(&WRAPPING.settings).expect("in range");
    for call in wrapping_start() {
        stepped(&mut end, &call);
    }
    let (mut revision_wrapped, mut number_wrapped) = (false, false);
    for _ in 0..WRAPPING_ROUNDS {
        let before = end;
        for call in wrapping_round() {
            stepped(&mut end, &call);
        }
        revision_wrapped |= end.revision < before.revision;
        number_wrapped |= end.event_number < before.event_number;
    }
    assert!(revision_wrapped && number_wrapped);
}

/// Of each script of the limit, the phase and the ticks behind ten frames in one
/// interval: up to ten of them the last call is 13, and behind more it is granted.
#[test]
fn the_scripts_of_the_limit_are_of_every_phase_and_every_number_of_ticks() {
    let mut seen = BTreeSet::new();
    for (settings, turns) in stretch_scripts() {
        let mut end = End::fresh(&settings).expect("in range");
        let (mut phase, mut ticks, mut last) = (None, 0, None);
        for turn in turns {
            let step = turn.call.step(&end, &mut vec![0; turn.out]);
            ticks += usize::from(turn.call.is_tick() && step.is_ok());
            last = step.err();
            end = step.map_or(end, |step| step.end);
            if end.intervals[0] == MOST_FRAMES {
                (phase, ticks) = (Some(end.ticks), 0);
            }
        }
        assert_eq!(last, (ticks <= 10).then_some(answer::LIMIT), "{ticks}");
        seen.insert((phase, ticks));
    }
    let each = |phase| (1..=12).map(move |ticks| (Some(phase), ticks));
    assert_eq!(seen, (0..10).flat_map(each).collect());
}
