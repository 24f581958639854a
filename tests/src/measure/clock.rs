//! The time of a call beside that of another.

use std::hint::black_box;
use std::time::{Duration, Instant};

/// About how long a run takes: short, so that some runs of many have the
/// processor to themselves.
pub const RUN: Duration = Duration::from_millis(2);

/// Nanoseconds that a call of each takes in its quickest run. The runs alternate,
/// so that both meet the same moods of the machine.
pub fn times<A, B>(runs: usize, first: impl FnMut() -> A, second: impl FnMut() -> B) -> [f64; 2] {
    let start = Instant::now();
    times_by(&|| start.elapsed(), runs, first, second)
}

/// The same by any clock.
fn times_by<A, B>(
    clock: &impl Fn() -> Duration,
    runs: usize,
    mut first: impl FnMut() -> A,
    mut second: impl FnMut() -> B,
) -> [f64; 2] {
    let calls = [filling(clock, &mut first), filling(clock, &mut second)];
    let mut quickest = [Duration::MAX; 2];
    for _ in 0..runs {
        quickest[0] = quickest[0].min(time(clock, &mut first, calls[0]));
        quickest[1] = quickest[1].min(time(clock, &mut second, calls[1]));
    }
    [0, 1].map(|side| quickest[side].as_secs_f64() * 1e9 / f64::from(calls[side]))
}

/// How many calls fill a run.
fn filling<T>(clock: &impl Fn() -> Duration, call: &mut impl FnMut() -> T) -> u32 {
    let mut calls = 1;
    while time(clock, call, calls) < RUN {
        calls *= 2;
    }
    calls
}

fn time<T>(clock: &impl Fn() -> Duration, call: &mut impl FnMut() -> T, calls: u32) -> Duration {
    let start = clock();
    for _ in 0..calls {
        black_box(call());
    }
    clock() - start
}

#[cfg(test)]
mod tests {
    use super::*;
    use std::cell::Cell;

    /// A clock that only the calls move: the machine's own has moods.
    #[test]
    fn the_quickest_run_of_each_is_told() {
        let clock = Cell::new(Duration::ZERO);
        let take = |nanoseconds| clock.set(clock.get() + Duration::from_nanos(nanoseconds));
        let mut calls = 0;
        let steady = || take(100);
        let hindered = || {
            calls += 1;
            take(if calls % 70_000 < 60_000 {
                5_000
            } else {
                2_000
            });
        };
        let times = times_by(&|| clock.get(), 200, steady, hindered);
        assert_eq!(times, [100.0, 2_000.0]);
    }

    #[test]
    fn a_run_has_as_many_calls_as_fill_it() {
        let clock = Cell::new(Duration::ZERO);
        let mut call = || clock.set(clock.get() + RUN / 5);
        assert_eq!(filling(&|| clock.get(), &mut call), 8);
    }
}
