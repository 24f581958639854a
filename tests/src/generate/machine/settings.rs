//! Settings and windows in range and out of it.

use super::windows::any_windows;
use crate::generate::beyond::beyond;
use crate::library::machine::Setup;
use crate::paper::machine::{configuration, Settings, SIZES};
use crate::paper::windows::{Windows, FRAME_WINDOWS, SECONDS_WINDOWS};
use crate::random::Random;

/// A way to be out of range.
#[derive(Clone, Copy, Debug, PartialEq, Eq, PartialOrd, Ord)]
pub enum SettingsFault {
    ConfigurationAboveBit4,
    SizeTooSmall,
    SizeTooLarge,
    OuiBeyond24Bits,
    SourceBeyond48Bits,
    RequiredBit0,
    RequiredAboveBit4,
    FrameWindowTooShort,
    FrameWindowTooLong,
    FrameThreshold0,
    FrameThresholdBeyond32Bits,
    SecondsWindowTooShort,
    SecondsWindowTooLong,
    SecondsWindowNoMultiple,
    SecondsThreshold0,
    SecondsThresholdBeyond16Bits,
}

impl SettingsFault {
    pub const ALL: [SettingsFault; 16] = [
        SettingsFault::ConfigurationAboveBit4,
        SettingsFault::SizeTooSmall,
        SettingsFault::SizeTooLarge,
        SettingsFault::OuiBeyond24Bits,
        SettingsFault::SourceBeyond48Bits,
        SettingsFault::RequiredBit0,
        SettingsFault::RequiredAboveBit4,
        SettingsFault::FrameWindowTooShort,
        SettingsFault::FrameWindowTooLong,
        SettingsFault::FrameThreshold0,
        SettingsFault::FrameThresholdBeyond32Bits,
        SettingsFault::SecondsWindowTooShort,
        SettingsFault::SecondsWindowTooLong,
        SettingsFault::SecondsWindowNoMultiple,
        SettingsFault::SecondsThreshold0,
        SettingsFault::SecondsThresholdBeyond16Bits,
    ];

    fn befall(self, random: &mut Random, setup: &mut Setup) {
        self.befall_settings(random, &mut setup.settings);
        self.befall_windows(random, &mut setup.windows);
    }

    fn befall_settings(self, random: &mut Random, settings: &mut Settings) {
        let (least, most) = (usize::from(*SIZES.start()), usize::from(*SIZES.end()));
        match self {
            SettingsFault::ConfigurationAboveBit4 => {
                settings.configuration |= 1 << random.between(5, 7)
            }
            SettingsFault::SizeTooSmall => {
                let any = random.below(least);
                settings.size = random.pick(&[least - 1, 0, any]) as u16;
            }
            SettingsFault::SizeTooLarge => {
                let any = random.between(most + 1, 65_535);
                settings.size = random.pick(&[most + 1, 65_535, any]) as u16;
            }
            SettingsFault::OuiBeyond24Bits => settings.oui = beyond(random, 24, 32) as u32,
            SettingsFault::SourceBeyond48Bits => settings.source = beyond(random, 48, 64),
            SettingsFault::RequiredBit0 => settings.required |= 1,
            SettingsFault::RequiredAboveBit4 => settings.required |= 1 << random.between(5, 7),
            _ => {}
        }
    }

    fn befall_windows(self, random: &mut Random, windows: &mut Windows) {
        match self {
            SettingsFault::FrameWindowTooShort => {
                let any = random.below(10) as u64;
                windows.frame_window = random.pick(&[9, 0, any]);
            }
            SettingsFault::FrameWindowTooLong => {
                let beyond = wrapping_to(random, windows.frame_window);
                windows.frame_window = random.pick(&[FRAME_WINDOWS.end() + 1, beyond]);
            }
            SettingsFault::FrameThreshold0 => windows.frame_threshold = 0,
            SettingsFault::FrameThresholdBeyond32Bits => {
                windows.frame_threshold = beyond(random, 32, 64);
            }
            SettingsFault::SecondsWindowTooShort => {
                let any = 10 * random.below(10) as u64;
                windows.seconds_window = random.pick(&[90, 0, any]);
            }
            SettingsFault::SecondsWindowTooLong => {
                let beyond = wrapping_to(random, windows.seconds_window);
                windows.seconds_window = random.pick(&[SECONDS_WINDOWS.end() + 10, beyond]);
            }
            SettingsFault::SecondsWindowNoMultiple => {
                let any = windows.seconds_window - random.between(1, 9) as u64;
                windows.seconds_window = random.pick(&[105, any.max(101)]);
            }
            SettingsFault::SecondsThreshold0 => windows.seconds_threshold = 0,
            SettingsFault::SecondsThresholdBeyond16Bits => {
                windows.seconds_threshold = beyond(random, 16, 64);
            }
            _ => {}
        }
    }
}

/// A number that is beyond every window, though its lowest bits may be one.
fn wrapping_to(random: &mut Random, window: u64) -> u64 {
    let above = random.pick(&[1 << 16, 1 << 32, 1 << 63]);
    random.pick(&[above | window, above, u64::MAX])
}

/// What a fresh end is given, every other time out of range for the reason told.
pub fn any_setup(random: &mut Random) -> (Setup, Option<SettingsFault>) {
    let mut setup = good_setup(random);
    let fault = random.one_in(2).then(|| random.pick(&SettingsFault::ALL));
    if let Some(fault) = fault {
        fault.befall(random, &mut setup);
    }
    (setup, fault)
}

fn good_setup(random: &mut Random) -> Setup {
    Setup {
        settings: good_settings(random),
        windows: any_windows(random),
    }
}

/// Settings in range: mostly of an active end that can loop and be asked.
pub fn good_settings(random: &mut Random) -> Settings {
    let mut own = random.octet() & 0x1F;
    if random.one_in(2) {
        own |= configuration::ACTIVE;
    }
    if !random.one_in(4) {
        own |= configuration::LOOPBACK;
    }
    if random.one_in(2) {
        own |= configuration::VARIABLE_RETRIEVAL;
    }
    let required = match random.below(3) {
        0 => random.octet() & configuration::CAPABILITIES,
        _ => 0,
    };
    Settings {
        configuration: own,
        size: size(random),
        oui: random.value(3) as u32,
        vendor: random.value(4) as u32,
        source: random.value(6),
        required,
    }
}

/// Small sizes stop requests, 1,518 stops none.
fn size(random: &mut Random) -> u16 {
    let (least, most) = (usize::from(*SIZES.start()), usize::from(*SIZES.end()));
    let size = match random.below(6) {
        0 => least,
        1 => random.between(least, least + 60),
        2 => random.between(least, most),
        _ => most,
    };
    size as u16
}

/// What two ends are given that mostly satisfy each other and can loop; now and
/// then their addresses are equal.
pub fn paired_setups(random: &mut Random) -> [Setup; 2] {
    let mut pair = [good_setup(random), good_setup(random)];
    if !random.one_in(8) {
        for Setup { settings, .. } in &mut pair {
            settings.required = 0;
            settings.configuration |= configuration::LOOPBACK;
        }
        pair[random.below(2)].settings.configuration |= configuration::ACTIVE;
    }
    if random.one_in(8) {
        pair[0].settings.source = pair[1].settings.source;
    }
    pair
}
