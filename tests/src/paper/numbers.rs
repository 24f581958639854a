//! The numbers in which the fields of a message pass to and from a caller. Back
//! from numbers there is nothing where one of them is beyond its field.

use super::message::{Descriptor, Event, Information, Part};

/// The numbers of an Information TLV (version, revision, state, configuration,
/// OAMPDU configuration, OUI, vendor), and those of an event (its type, then the
/// table's six fields).
pub const NUMBERS: usize = 7;

/// Octets as one number, the first octet highest.
pub fn joined(octets: &[u8]) -> u64 {
    octets
        .iter()
        .fold(0, |number, &octet| 256 * number + u64::from(octet))
}

/// The `N` octets of a number.
pub fn parted<const N: usize>(number: u64) -> Option<[u8; N]> {
    let octets = number.to_be_bytes();
    let (above, octets) = octets.split_at(octets.len() - N);
    let fits = above.iter().all(|&octet| octet == 0);
    fits.then(|| octets.try_into().expect("N octets are left"))
}

impl Part {
    pub fn fields(&self) -> &Information {
        match self {
            Part::Local(fields) | Part::Remote(fields) => fields,
        }
    }
}

impl Information {
    pub fn numbers(&self) -> [u64; NUMBERS] {
        [
            self.version.into(),
            self.revision.into(),
            self.state.into(),
            self.configuration.into(),
            self.pdu_configuration.into(),
            joined(&self.oui),
            joined(&self.vendor),
        ]
    }

    pub fn from_numbers(numbers: &[u64; NUMBERS]) -> Option<Self> {
        let [version, revision, state, configuration, pdu_configuration, oui, vendor] = *numbers;
        Some(Information {
            version: version.try_into().ok()?,
            revision: revision.try_into().ok()?,
            state: state.try_into().ok()?,
            configuration: configuration.try_into().ok()?,
            pdu_configuration: pdu_configuration.try_into().ok()?,
            oui: parted(oui)?,
            vendor: parted(vendor)?,
        })
    }
}

impl Event {
    pub fn numbers(&self) -> [u64; NUMBERS] {
        let [timestamp, window, threshold, errors, error_total, event_total] = self.values;
        [
            self.kind.into(),
            timestamp,
            window,
            threshold,
            errors,
            error_total,
            event_total,
        ]
    }

    pub fn from_numbers(numbers: &[u64; NUMBERS]) -> Option<Self> {
        let [kind, values @ ..] = *numbers;
        Some(Event {
            kind: kind.try_into().ok()?,
            values,
        })
    }
}

impl Descriptor {
    /// The branch above the leaf's sixteen bits.
    pub fn number(&self) -> u32 {
        u32::from(self.branch) << 16 | u32::from(self.leaf)
    }

    pub fn from_number(number: u64) -> Option<Self> {
        let [branch, high, low] = parted(number)?;
        Some(Descriptor {
            branch,
            leaf: u16::from_be_bytes([high, low]),
        })
    }
}

#[cfg(test)]
mod tests {
    use super::super::tests::local;
    use super::*;

    #[test]
    fn octets_are_one_number_and_back() {
        assert_eq!(joined(&[0x01, 0x02, 0x03]), 66_051);
        assert_eq!(joined(&[]), 0);
        assert_eq!(parted(66_051), Some([0x01, 0x02, 0x03]));
        assert_eq!(parted(0x00FF_FFFF), Some([0xFF; 3]));
        assert_eq!(parted::<3>(0x0100_0000), None);
        assert_eq!(parted(u64::MAX), Some([0xFF; 8]));
    }

    #[test]
    fn a_descriptor_has_its_branch_above_its_leaf() {
        let descriptor = Descriptor {
            branch: 7,
            leaf: 0x0102,
        };
        assert_eq!(descriptor.number(), 0x07_0102);
        assert_eq!(Descriptor::from_number(0x07_0102), Some(descriptor));
        assert_eq!(Descriptor::from_number(0x0100_0000), None);
    }

    #[test]
    fn fields_are_the_papers_numbers_in_its_order() {
        let numbers = [1, 42, 5, 0x1D, 1518, 0x00_1B21, 0xDEAD_BEEF];
        assert_eq!(local().numbers(), numbers);
        assert_eq!(Information::from_numbers(&numbers), Some(local()));
        for field in 0..NUMBERS {
            let mut beyond = numbers;
            beyond[field] = 1 << [8, 16, 8, 8, 16, 24, 32][field];
            assert_eq!(Information::from_numbers(&beyond), None, "field {field}");
        }
    }

    #[test]
    fn an_event_is_its_type_and_six_values() {
        let event = Event {
            kind: 2,
            values: [10, 20, 30, 40, 50, 60],
        };
        assert_eq!(event.numbers(), [2, 10, 20, 30, 40, 50, 60]);
        assert_eq!(Event::from_numbers(&event.numbers()), Some(event));
        assert_eq!(Event::from_numbers(&[256, 0, 0, 0, 0, 0, 0]), None);
    }
}
