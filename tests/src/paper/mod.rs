//! The paper's frames: their readings, their answers, their plain form, the two
//! texts, listing and log, captures, the link machine, and the windows over bad frames.

pub mod answer;
mod attribute;
pub mod capture;
mod container;
mod draft;
pub mod log;
pub mod machine;
mod message;
mod numbers;
mod part;
mod plain;
mod read;
mod text;
pub mod walk;
pub mod windows;
mod write;

#[cfg(test)]
pub(crate) mod tests;

pub use attribute::{MOST_ASKED, MOST_ATTRIBUTES, NOT_SUPPORTED};
pub use container::{container_octets, PLAIN_CONTAINER_OCTETS};
pub use draft::{Draft, DraftBody};
pub use message::{
    code, Body, Container, Content, Descriptor, Event, Information, Message, Part, Skipped,
};
pub use numbers::{joined, parted, NUMBERS};
pub use part::{list, list_start, Listed, Standing, MOST_PARTS};
pub use plain::is_plain;
pub use read::{
    asked, check, read, Heading, BODY, DESTINATION, LONGEST, SHORTEST, SLOW_PROTOCOLS, SUBTYPE,
};
pub use text::{answers, decode, lines, listing, row, HEADER};
pub use walk::{EVENTS, INFORMATION_LENGTH};
pub use write::{write, PLAIN_DATA, PLAIN_DESCRIPTORS, PLAIN_EVENTS};
