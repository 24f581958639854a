//! The numbers in which an end is packed and shown, and the end that has given
//! numbers.

use super::{Discovery, End, Role, Settings, COMPLETE, LOST_LINK, MOST_FRAMES, SECOND, STRETCH};
use crate::paper::{Information, NUMBERS};

/// The numbers in which an end is packed: six settings; link up, lost-link count,
/// kept field; whether a record is held and its seven fields; whether an event
/// number is held and its value; role, ticks, the intervals, revision, next event
/// number; dying gasp, critical event, owed.
pub const PACKED_NUMBERS: usize = 27;
/// The numbers in which it is shown: the same, but with the frames written in the
/// place of the intervals; where discovery stands; and the intervals.
pub const END_NUMBERS: usize = PACKED_NUMBERS + 2;
/// The place of the frames written, where the intervals are packed.
const WRITTEN: usize = 21;
/// The place where the intervals are shown.
const INTERVALS: usize = END_NUMBERS - 1;
/// The bits that each interval's frames have in the one number.
const DIGIT: usize = 4;

impl End {
    pub fn packed_numbers(&self) -> [u64; PACKED_NUMBERS] {
        let numbers = self.with_written(self.intervals_number());
        numbers.try_into().expect("as many numbers as are packed")
    }

    pub fn numbers(&self) -> [u64; END_NUMBERS] {
        let mut numbers = self.with_written(self.written().into());
        numbers.extend([self.discovery as u64, self.intervals_number()]);
        numbers.try_into().expect("as many numbers as are shown")
    }

    /// The numbers that are packed, with this one in the place of the intervals.
    fn with_written(&self, written: u64) -> Vec<u64> {
        let mut numbers = Vec::with_capacity(END_NUMBERS);
        numbers.extend(self.settings.numbers());
        numbers.extend([u64::from(self.link_up), self.lost_link.into()]);
        numbers.push(self.kept_field.into());
        numbers.push(self.peer.is_some().into());
        numbers.extend(self.peer.map_or([0; NUMBERS], |peer| peer.numbers()));
        numbers.push(self.last_event.is_some().into());
        numbers.push(self.last_event.unwrap_or(0).into());
        numbers.extend([self.role as u64, self.ticks.into(), written]);
        numbers.extend([u64::from(self.revision), self.event_number.into()]);
        numbers.extend([self.dying_gasp, self.critical_event, self.owed].map(u64::from));
        numbers
    }

    /// The intervals as one number, the present one in its lowest bits.
    fn intervals_number(&self) -> u64 {
        let digits = self.intervals.iter().rev();
        digits.fold(0, |number, &frames| number << DIGIT | u64::from(frames))
    }

    /// The end that is shown in these numbers. There is none where one of them is
    /// beyond its range, where the frames written are not those of the intervals,
    /// where discovery would not rest where they say, or where no calls make such an
    /// end.
    pub fn from_numbers(numbers: &[u64; END_NUMBERS]) -> Option<Self> {
        let mut packed: [u64; PACKED_NUMBERS] = *numbers.first_chunk()?;
        packed[WRITTEN] = numbers[INTERVALS];
        let end = End::at_rest(&packed)?;
        (end.numbers() == *numbers && end.breaches().is_empty()).then_some(end)
    }

    /// The end that is packed in these numbers, its discovery where the moves take
    /// it. It need not be one that calls can lead to.
    pub fn at_rest(numbers: &[u64; PACKED_NUMBERS]) -> Option<Self> {
        let mut given = numbers.iter().copied();
        let mut next = || given.next().unwrap_or(0);
        let settings: [u64; 6] = std::array::from_fn(|_| next());
        let mut end = End::fresh(&Settings::from_numbers(settings)?).ok()?;
        end.link_up = truth(next())?;
        end.lost_link = below(next(), LOST_LINK)?;
        end.kept_field = below(next(), COMPLETE + 1)?;
        let held = truth(next())?;
        let record: [u64; NUMBERS] = std::array::from_fn(|_| next());
        let fields = Information::from_numbers(&record)?;
        end.peer = held_or_zero(held, record == [0; NUMBERS], fields)?;
        let (held, number) = (truth(next())?, next());
        end.last_event = held_or_zero(held, number == 0, number.try_into().ok()?)?;
        end.role = *Role::ALL.get(usize::try_from(next()).ok()?)?;
        end.ticks = below(next(), SECOND)?;
        end.intervals = intervals(next())?;
        end.revision = next().try_into().ok()?;
        end.event_number = next().try_into().ok()?;
        end.dying_gasp = truth(next())?;
        end.critical_event = truth(next())?;
        end.owed = truth(next())?;
        end.run_moves();
        Some(end)
    }
}

impl Settings {
    fn numbers(&self) -> [u64; 6] {
        [
            self.configuration.into(),
            self.size.into(),
            self.oui.into(),
            self.vendor.into(),
            self.source,
            self.required.into(),
        ]
    }

    fn from_numbers(numbers: [u64; 6]) -> Option<Self> {
        let [configuration, size, oui, vendor, source, required] = numbers;
        Some(Settings {
            configuration: configuration.try_into().ok()?,
            size: size.try_into().ok()?,
            oui: oui.try_into().ok()?,
            vendor: vendor.try_into().ok()?,
            source,
            required: required.try_into().ok()?,
        })
    }
}

impl Discovery {
    pub fn from_number(number: u64) -> Option<Self> {
        Discovery::ALL.get(usize::try_from(number).ok()?).copied()
    }
}

fn truth(number: u64) -> Option<bool> {
    below(number, 2).map(|number| number == 1)
}

fn below(number: u64, bound: u8) -> Option<u8> {
    u8::try_from(number).ok().filter(|&number| number < bound)
}

/// The frames of each interval, ten at most in all, from the one number that holds
/// them.
fn intervals(number: u64) -> Option<[u8; STRETCH]> {
    let frames = std::array::from_fn(|place| (number >> (place * DIGIT) & 0xF) as u8);
    let in_range = number >> (STRETCH * DIGIT) == 0 && frames.iter().sum::<u8>() <= MOST_FRAMES;
    in_range.then_some(frames)
}

/// What is held; what is not must be shown as zeros.
fn held_or_zero<T>(held: bool, zero: bool, value: T) -> Option<Option<T>> {
    match (held, zero) {
        (true, _) => Some(Some(value)),
        (false, true) => Some(None),
        (false, false) => None,
    }
}
