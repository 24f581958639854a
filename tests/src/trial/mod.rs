//! Trials: a library's functions beside the paper's, over many calls.

mod contest;
mod lent;
mod log;
mod machine;
mod pair;
mod reading;
mod report;
mod skipping;
mod storms;
mod writers;

#[cfg(test)]
mod tests;

pub use log::log;
pub use machine::machine;
pub use pair::pair;
pub use reading::reading;
pub use report::{Report, Tally};
pub use skipping::without_end;
pub use writers::writers;

/// The name under which a claim of this package's own makers fails.
const THIS_PACKAGE: &str = "this package errs";
