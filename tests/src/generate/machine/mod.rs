//! Makers for the link machine: settings, windows, counts of bad frames, the frames
//! of a peer, and scripts of calls.

mod counts;
mod directed;
mod peer;
mod requests;
mod responding;
mod response_faults;
mod responses;
mod script;
mod settings;
mod storms;
mod stretch;
mod windows;
mod wraps;

#[cfg(test)]
mod tests;

pub use counts::Counts;
pub use directed::directed_scripts;
pub use requests::any_request;
pub use response_faults::ResponseFault;
pub use responses::any_respond;
pub use script::Script;
pub use settings::{any_setup, good_settings, paired_setups, SettingsFault};
pub use windows::windows_of_every_sort;
pub use wraps::{wrapping_round, wrapping_start, WRAPPING, WRAPPING_ROUNDS};
