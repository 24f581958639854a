//! A call as it is made.

use super::Call;
use crate::paper::LONGEST;
use std::fmt;

/// A call, and how much is lent to it.
#[derive(Clone, Debug)]
pub struct Turn {
    pub call: Call,
    /// Numbers for what a tick or a received frame stores.
    pub numbers: usize,
    pub out: usize,
}

impl Turn {
    /// A call with room for everything.
    pub fn with_room(call: Call) -> Self {
        Turn {
            numbers: call.least_numbers(),
            call,
            out: LONGEST,
        }
    }

    /// Whether fewer numbers are lent than the call must have.
    pub fn is_short_of_numbers(&self) -> bool {
        self.numbers < self.call.least_numbers()
    }
}

impl fmt::Display for Turn {
    fn fmt(&self, text: &mut fmt::Formatter) -> fmt::Result {
        write!(text, "{}, lent {}", self.call, self.out)?;
        match self.call {
            Call::Receive(_) => write!(text, ", header {}", self.numbers),
            Call::Tick(_) => write!(text, ", events {}", self.numbers),
            _ => Ok(()),
        }
    }
}
