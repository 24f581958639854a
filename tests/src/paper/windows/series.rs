//! A list of numbers, cut into windows that "follow each other without a gap". The
//! whole list is kept, and sums are taken over it anew: of the window that has not
//! ended with each number, of all that have ended as one more does.

use super::WindowNumbers;

#[derive(Clone, Debug)]
pub struct Series {
    /// What stood before the list, its `length` and `at` counted in numbers of the
    /// list.
    before: WindowNumbers,
    list: Vec<u64>,
    ended: Ended,
    /// The sum of the window that has not ended, as far as it is in the list.
    present: u128,
}

/// What the windows that have ended come to.
#[derive(Clone, Copy, Debug, Default)]
struct Ended {
    sum: u128,
    /// Those that reached the threshold.
    events: u64,
}

impl Series {
    /// A series that nothing was added to.
    pub fn behind(before: WindowNumbers) -> Self {
        Series {
            before,
            list: Vec::new(),
            ended: Ended::default(),
            present: 0,
        }
    }

    /// Adds a number; where it ends a window that reaches or exceeds the threshold,
    /// that window's sum.
    pub fn push(&mut self, number: u64) -> Option<u128> {
        self.list.push(number);
        let ended = self.ended_length();
        self.present = sum(&self.list[ended..]);
        if ended < self.list.len() {
            return None;
        }
        let reaches = |errors: &u128| *errors >= u128::from(self.before.threshold);
        self.ended = Ended {
            sum: sum(&self.list),
            events: self.windows().filter(reaches).count() as u64,
        };
        self.windows().next_back().filter(reaches)
    }

    /// How many numbers there are.
    pub fn len(&self) -> u64 {
        self.list.len() as u64
    }

    /// The last so many of them, or all.
    pub fn last(&self, count: u64) -> &[u64] {
        let from = self.len().saturating_sub(count);
        &self.list[from as usize..]
    }

    pub fn threshold(&self) -> u64 {
        self.before.threshold
    }

    /// The sum of the window that has not ended.
    pub fn errors(&self) -> u128 {
        let ended = self.ended_length();
        let before = if ended == 0 { self.before.errors } else { 0 };
        u128::from(before) + self.present
    }

    /// The sum of all numbers.
    pub fn total(&self) -> u128 {
        u128::from(self.before.total) + self.ended.sum + self.present
    }

    /// The windows that reached the threshold.
    pub fn events(&self) -> u128 {
        u128::from(self.before.events) + u128::from(self.ended.events)
    }

    /// Numbers that the first window has of the list.
    fn first(&self) -> usize {
        (self.before.length - self.before.at) as usize
    }

    /// Numbers of windows that have ended.
    fn ended_length(&self) -> usize {
        match self.list.len().checked_sub(self.first()) {
            Some(others) => self.list.len() - others % self.before.length as usize,
            None => 0,
        }
    }

    /// The sums of the windows that have ended, the oldest first.
    fn windows(&self) -> impl DoubleEndedIterator<Item = u128> + '_ {
        let ended = &self.list[..self.ended_length()];
        let (first, others) = ended.split_at(self.first().min(ended.len()));
        let first = (!first.is_empty()).then(|| u128::from(self.before.errors) + sum(first));
        let others = others.chunks_exact(self.before.length as usize);
        first.into_iter().chain(others.map(sum))
    }
}

fn sum(numbers: &[u64]) -> u128 {
    numbers.iter().map(|&number| u128::from(number)).sum()
}
