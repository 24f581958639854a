//! What a trial saw: how often it reached what, and what was wrong.

use super::contest::Contest;
use crate::compare::grouped;
use std::collections::BTreeMap;

pub struct Report {
    /// Lines for people.
    pub counts: Vec<String>,
    /// What differs, and what was never reached; nothing is as it should be.
    pub faults: Vec<String>,
}

/// How often a thing must be reached in a run of this length, if it must so many times in
/// one of 200,000.
pub fn least(times: usize, run: usize) -> usize {
    (times * run / 200_000).max(1)
}

/// How often each thing was reached that must be.
pub struct Tally<K> {
    counts: BTreeMap<K, Count>,
}

/// How often a thing was reached, and how often it must be.
#[derive(Clone, Copy, Default)]
struct Count {
    reached: usize,
    least: usize,
}

impl<K: Ord> Tally<K> {
    pub fn expecting(keys: impl IntoIterator<Item = K>) -> Self {
        Tally::expecting_often(keys, 1)
    }

    /// Each must be reached so often.
    pub fn expecting_often(keys: impl IntoIterator<Item = K>, least: usize) -> Self {
        Tally::expecting_each(keys.into_iter().map(|key| (key, least)))
    }

    /// Each must be reached as often as stands beside it.
    pub fn expecting_each(keys: impl IntoIterator<Item = (K, usize)>) -> Self {
        let count = |(key, least)| (key, Count { reached: 0, least });
        let counts = keys.into_iter().map(count).collect();
        Tally { counts }
    }

    pub fn count(&mut self, key: K) {
        self.counts.entry(key).or_default().reached += 1;
    }

    /// How often it was reached.
    pub fn of(&self, key: &K) -> usize {
        self.counts.get(key).map_or(0, |count| count.reached)
    }
}

impl Report {
    pub fn of(contest: &Contest) -> Self {
        Report::with(contest.faults())
    }

    pub fn with(faults: Vec<String>) -> Self {
        Report {
            counts: Vec::new(),
            faults,
        }
    }

    /// Shows a single count.
    pub fn count(&mut self, count: usize, what: &str) {
        self.counts.push(format!("{} {what}", grouped(count)));
    }

    /// Shows each of a tally's counts.
    pub fn add<K: Ord>(&mut self, title: &str, tally: &Tally<K>, name: impl Fn(&K) -> String) {
        self.counts.push(String::from(title));
        for (key, count) in &tally.counts {
            let count = grouped(count.reached);
            self.counts.push(format!("  {count:>9} {}", name(key)));
        }
        self.add_missed(title, tally, name);
    }

    /// Shows only how many things there are and how often the rarest came.
    pub fn add_many<K: Ord>(&mut self, title: &str, tally: &Tally<K>, name: impl Fn(&K) -> String) {
        let things = tally.counts.len();
        let reached = tally.counts.values().map(|count| count.reached);
        let rarest = grouped(reached.min().unwrap_or(0));
        self.counts
            .push(format!("{title}: {things}, each {rarest} times or more"));
        self.add_missed(title, tally, name);
    }

    fn add_missed<K: Ord>(&mut self, title: &str, tally: &Tally<K>, name: impl Fn(&K) -> String) {
        for (key, &Count { reached, least }) in &tally.counts {
            if reached >= least {
                continue;
            }
            let mut fault = format!("never reached: {title}: {}", name(key));
            if least > 1 {
                let (least, reached) = (grouped(least), grouped(reached));
                fault += &format!(", {least} times; it was {reached}");
            }
            self.faults.push(fault);
        }
    }
}

#[cfg(test)]
mod tests {
    use super::*;
    use crate::library::ByPaper;

    #[test]
    fn counts_are_shown_and_what_was_missed_is_a_fault() {
        let mut tally = Tally::expecting([1, 2]);
        for _ in 0..1234 {
            tally.count(1);
        }
        let mut report = Report::of(&Contest::new(&ByPaper));
        report.add("answers", &tally, u8::to_string);
        assert_eq!(report.counts, ["answers", "      1,234 1", "          0 2"]);
        assert_eq!(report.faults, ["never reached: answers: 2"]);
        tally.count(2);
        let mut report = Report::of(&Contest::new(&ByPaper));
        report.add_many("answers", &tally, u8::to_string);
        assert_eq!(report.counts, ["answers: 2, each 1 times or more"]);
        assert!(report.faults.is_empty());
    }

    #[test]
    fn what_came_too_seldom_is_a_fault() {
        let mut tally = Tally::expecting_often([1, 2], 1_000);
        (0..999).for_each(|_| tally.count(1));
        (0..1_000).for_each(|_| tally.count(2));
        assert_eq!([1, 2, 3].map(|key| tally.of(&key)), [999, 1_000, 0]);
        let mut report = Report::of(&Contest::new(&ByPaper));
        report.add("answers", &tally, u8::to_string);
        let fault = "never reached: answers: 1, 1,000 times; it was 999";
        assert_eq!(report.faults, [fault]);
    }

    #[test]
    fn each_has_its_own_least() {
        let mut tally = Tally::expecting_each([(1, 1), (2, 3)]);
        for key in [1, 2, 2] {
            tally.count(key);
        }
        let mut report = Report::of(&Contest::new(&ByPaper));
        report.add("answers", &tally, u8::to_string);
        let fault = "never reached: answers: 2, 3 times; it was 2";
        assert_eq!(report.faults, [fault]);
    }
}
