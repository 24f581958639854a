//! The settings of an end, and the configuration bits that both ends have.

use crate::paper::write::fits;
use std::ops::RangeInclusive;

/// The bits of a Configuration octet.
pub mod configuration {
    pub const ACTIVE: u8 = 1 << 0;
    pub const UNIDIRECTIONAL: u8 = 1 << 1;
    pub const LOOPBACK: u8 = 1 << 2;
    pub const LINK_EVENTS: u8 = 1 << 3;
    pub const VARIABLE_RETRIEVAL: u8 = 1 << 4;

    /// What may be required of the peer.
    pub const CAPABILITIES: u8 = UNIDIRECTIONAL | LOOPBACK | LINK_EVENTS | VARIABLE_RETRIEVAL;
}

/// The least maximum OAMPDU size of either end.
pub const SMALLEST_SIZE: u16 = 64;
/// The own maximum OAMPDU sizes, FCS counted.
pub const SIZES: RangeInclusive<u16> = SMALLEST_SIZE..=1518;

/// Settings as a caller gives them; they need not be in range.
#[derive(Clone, Copy, Debug, PartialEq, Eq)]
pub struct Settings {
    pub configuration: u8,
    pub size: u16,
    pub oui: u32,
    pub vendor: u32,
    pub source: u64,
    /// Capabilities that the peer must have.
    pub required: u8,
}

impl Settings {
    pub fn are_in_range(&self) -> bool {
        fits(self.configuration.into(), 5)
            && SIZES.contains(&self.size)
            && fits(self.oui.into(), 24)
            && fits(self.source, 48)
            && self.required & !configuration::CAPABILITIES == 0
    }

    pub fn is_active(&self) -> bool {
        self.configuration & configuration::ACTIVE != 0
    }

    pub fn is_unidirectional(&self) -> bool {
        self.configuration & configuration::UNIDIRECTIONAL != 0
    }

    pub fn has_loopback(&self) -> bool {
        self.configuration & configuration::LOOPBACK != 0
    }

    pub fn has_retrieval(&self) -> bool {
        self.configuration & configuration::VARIABLE_RETRIEVAL != 0
    }
}
