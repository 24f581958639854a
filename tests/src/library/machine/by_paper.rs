//! The paper's machine in the archive's place: what the octets hold is taken out for
//! each call, and put back.

use super::{Call, Machine, Setup, State};
use crate::library::ByPaper;
use crate::paper::answer;

impl Machine for ByPaper {
    fn fresh(&self, setup: &Setup, state: &mut [u8]) -> u64 {
        match State::fresh(setup).map(|fresh| fresh.octets()) {
            Ok(octets) if state.len() == octets.len() => {
                state.copy_from_slice(&octets);
                answer::ACCEPTED.into()
            }
            _ => answer::VALUES.into(),
        }
    }

    fn call(&self, call: &Call, numbers: &mut [u64], state: &mut [u8], out: &mut [u8]) -> u64 {
        let Some(mut held) = State::from_octets(state) else {
            return answer::VALUES.into();
        };
        let outcome = held.call(call, numbers, out);
        state.copy_from_slice(&held.octets());
        outcome
    }

    fn show(&self, state: &[u8], numbers: &mut [u64]) -> u64 {
        match State::from_octets(state) {
            Some(held) => held.show(numbers),
            None => answer::VALUES.into(),
        }
    }
}

#[cfg(test)]
mod tests {
    use super::*;
    use crate::library::machine::{ARISEN, RECEIVED, SHOWN_NUMBERS, STATE_OCTETS};
    use crate::paper::machine::{Breach, Settings, END_NUMBERS};
    use crate::paper::tests::{frame, LOCAL};
    use crate::paper::windows::Windows;

    const SETUP: Setup = Setup {
        settings: Settings {
            configuration: 0x0F,
            size: 1518,
            oui: 1,
            vendor: 2,
            source: 3,
            required: 0,
        },
        windows: Windows {
            frame_window: 10,
            frame_threshold: 2,
            seconds_window: 100,
            seconds_threshold: 1,
        },
    };
    const TICK: Call = Call::Tick(0);
    const OLD: u64 = 0xEEEE;
    /// The role Looping's State octet in an outcome.
    const LOOPING: u64 = 5 << 40;

    fn fresh() -> [u8; STATE_OCTETS] {
        let mut state = [0xEE; STATE_OCTETS];
        assert_eq!(ByPaper.fresh(&SETUP, &mut state), 0);
        state
    }

    fn call(call: &Call, state: &mut [u8], out: usize) -> u64 {
        ByPaper.call(call, &mut [0; ARISEN], state, &mut vec![0; out])
    }

    /// A looping end, and its number of frames written.
    fn looping() -> [u8; STATE_OCTETS] {
        let mut state = fresh();
        call(&Call::Report(0), &mut state, 60);
        for text in [&format!("00 {LOCAL}"), "04 01"] {
            let received = Call::Receive(frame(text));
            let outcome = ByPaper.call(&received, &mut [0; RECEIVED], &mut state, &mut [0; 60]);
            assert_eq!(outcome & 0xFF_FFFF_FFFF, 60 << 8);
        }
        state
    }

    fn packed_again(state: &[u8]) -> Option<[u8; STATE_OCTETS]> {
        State::from_octets(state).map(|held| held.octets())
    }

    #[test]
    fn a_state_is_packed_as_it_was() {
        let state = looping();
        assert_eq!(packed_again(&state), Some(state));
    }

    #[test]
    fn fresh_stores_a_state_or_nothing() {
        let mut longer = [0xEE; STATE_OCTETS + 1];
        assert_eq!(ByPaper.fresh(&SETUP, &mut longer), 10);
        assert_eq!(ByPaper.fresh(&SETUP, &mut longer[..STATE_OCTETS - 1]), 10);
        let (mut small, mut short) = (SETUP, SETUP);
        small.settings.size = 63;
        short.windows.frame_window = 9;
        for setup in [small, short] {
            assert_eq!(ByPaper.fresh(&setup, &mut longer[..STATE_OCTETS]), 10);
        }
        assert_eq!(longer, [0xEE; STATE_OCTETS + 1]);
        let mut numbers = [OLD; SHOWN_NUMBERS + 1];
        assert_eq!(ByPaper.show(&fresh(), &mut numbers), 0);
        let settings = [0x0F, 1518, 1, 2, 3, 0];
        assert_eq!(numbers[..6], settings);
        assert_eq!(numbers[6..END_NUMBERS], [0; END_NUMBERS - 6]);
        assert_eq!(numbers[END_NUMBERS..33], [10, 2, 100, 1]);
        assert_eq!(numbers[33..SHOWN_NUMBERS], [0; 10]);
        assert_eq!(numbers[SHOWN_NUMBERS], OLD);
    }

    #[test]
    fn an_outcome_shows_the_octet_on_refusals_too() {
        let mut state = looping();
        assert_eq!(call(&TICK, &mut state, 59), LOOPING | 9);
        assert_eq!(call(&Call::Start, &mut state, 60), LOOPING | 15);
        assert_eq!(call(&Call::Request(vec![]), &mut state, 60), LOOPING | 10);
        assert_eq!(call(&Call::Report(2), &mut state, 60), LOOPING | 60 << 8);
        assert_eq!(state[40..46], [0, 0, 0, 0, 0, 4]); // the intervals
        assert_eq!(state[46..48], [0, 1]); // the revision
    }

    /// The state first, then the report's number or the header, then the output,
    /// then the frame.
    #[test]
    fn a_bad_state_is_its_number_alone_and_comes_first() {
        let mut state = looping();
        assert_eq!(call(&Call::Report(6), &mut state, 0), LOOPING | 10);
        assert_eq!(call(&Call::Report(0), &mut state, 0), LOOPING | 9);
        let received = Call::Receive(vec![]);
        let receive = |state: &mut [u8], header: usize, out: usize| {
            let header = &mut [OLD; RECEIVED][..header];
            ByPaper.call(&received, header, state, &mut vec![0; out])
        };
        assert_eq!(receive(&mut state, 4, 60), LOOPING | 9);
        assert_eq!(receive(&mut state, 5, 59), LOOPING | 9);
        assert_eq!(receive(&mut state, 5, 60), LOOPING | 1);
        state[20] = 2; // neither held nor not
        assert_eq!(call(&TICK, &mut state, 60), 10);
        assert_eq!(call(&Call::Report(6), &mut state, 0), 10);
        assert_eq!(receive(&mut state, 4, 0), 10);
        assert_eq!(ByPaper.show(&state, &mut []), 10);
        assert_eq!(ByPaper.show(&fresh(), &mut [0; SHOWN_NUMBERS - 1]), 9);
    }

    /// No calls make an end that loops without bit 2 of its own.
    #[test]
    fn an_end_that_no_calls_make_is_refused() {
        let mut state = looping();
        state[0] &= !4; // the configuration
        assert_eq!(packed_again(&state), None);
        assert_eq!(call(&TICK, &mut state, 60), 10);
        assert_eq!(ByPaper.show(&state, &mut [0; SHOWN_NUMBERS]), 10);
        let loops = State::from_octets_with(&state, &[Breach::LoopingWithoutBit2]);
        assert_eq!(loops.map(|held| held.octets()), Some(state));
        assert!(State::from_octets_with(&state, &[Breach::EventWithoutRecord]).is_none());
    }

    /// The octets 39 and 40 to 45 of a state: ticks, and eleven digits of four bits.
    #[test]
    fn a_damaged_meter_is_refused() {
        let meter = |ticks: u8, intervals: u64| {
            let mut state = fresh();
            state[39] = ticks;
            state[82] = ticks; // the seconds' window stands there too
            state[40..46].copy_from_slice(&intervals.to_be_bytes()[2..]);
            state
        };
        for (ticks, intervals, written) in [
            (9, 0, 0),
            (0, 0xA, 10),
            (0, 0xA00_0000_0000, 10),
            (9, 0x100_1111_1111, 9),
            (9, 0x600_0000_0004, 10),
        ] {
            let mut numbers = [OLD; SHOWN_NUMBERS];
            let state = meter(ticks, intervals);
            assert_eq!(ByPaper.show(&state, &mut numbers), 0, "{intervals:x}");
            assert_eq!(numbers[20..22], [ticks.into(), written]);
            assert_eq!(numbers[28], intervals);
            assert_eq!(packed_again(&state), Some(state));
        }
        for (ticks, intervals) in [
            (10, 0),
            (0xFF, 0),
            (0, 0xB),
            (0, 0xB00_0000_0000),
            (0, 0x111_1111_1111), // eleven digits of 1
            (9, 0x600_0000_0005),
            (0, 0xFFF_FFFF_FFFF), // their sum is 165
            (0, 1 << 44),
            (0, 1 << 47),
        ] {
            let mut state = meter(ticks, intervals);
            assert_eq!(
                ByPaper.show(&state, &mut [0; SHOWN_NUMBERS]),
                10,
                "{intervals:x}"
            );
            assert_eq!(call(&TICK, &mut state, 60), 10);
        }
    }

    #[test]
    fn an_accepted_frame_stores_its_header() {
        let mut state = looping();
        let notification = Call::Receive(frame("01 1234 fe 02 05 02"));
        let receive = |state: &mut [u8]| {
            let mut header = [OLD; 6];
            let outcome = ByPaper.call(&notification, &mut header, state, &mut [0; 60]);
            (outcome >> 48, header)
        };
        let stored = [0x0200_0000_0001, 0x50, 1, 0x1234, 2, OLD];
        assert_eq!(receive(&mut state), (2, stored));
        let stored = [0x0200_0000_0001, 0x50, 1, 0, 2, OLD];
        assert_eq!(receive(&mut state), (1, stored));
        assert_eq!(receive(&mut fresh()), (1, stored));
    }
}
