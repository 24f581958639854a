//! The independent test package of the OAM link end (IEEE 802.3ah Clause 57).
//!
//! "The paper" is the build paper throughout. Nothing in this package was
//! taken from the product's sources: `paper` is a second implementation,
//! written from the paper alone, to which the product is compared.

pub mod by_hand;
pub mod compare;
pub mod generate;
pub mod library;
pub mod measure;
pub mod paper;
pub mod random;
pub mod streaming;
pub mod trial;
