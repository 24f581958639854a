//! Drafts for the writers: such as have a plain form, and such as have none, for
//! a reason that is known without trying to write them.

use super::beyond::{beyond, narrow_fields, no_event_type};
use super::containers::{branch_0_put_in, cut_by_the_end, ended_by_zeros, past_the_end, too_many};
use super::encode;
use super::messages::{any_event, any_message, descriptor, event, information, Style};
use crate::paper::{
    answer, code, write, Draft, DraftBody, Message, LONGEST, NUMBERS, PLAIN_DATA,
    PLAIN_DESCRIPTORS, PLAIN_EVENTS,
};
use crate::random::Random;

/// A draft and what its maker claims of it.
#[derive(Clone, Debug)]
pub struct MadeDraft {
    pub draft: Draft,
    /// Octets of its frame, or of the frame it had before it was spoilt.
    pub length: usize,
    pub claim: DraftClaim,
}

#[derive(Clone, Debug)]
pub enum DraftClaim {
    /// It is written, and its frame says exactly this.
    Written(Message<'static>),
    /// It has no plain form.
    Refused(Fault),
}

impl MadeDraft {
    /// Whether the paper's writer answers as claimed, and writes the octets that
    /// the generators have for the message.
    pub fn holds(&self) -> bool {
        let mut out = [0; LONGEST];
        let written = write(&self.draft, &mut out);
        match &self.claim {
            DraftClaim::Written(message) => {
                written == Ok(self.length) && out[..self.length] == encode::plain(message)
            }
            DraftClaim::Refused(_) => written == Err(answer::VALUES),
        }
    }
}

/// A draft of this code; every other one is spoilt, a few of them twice.
pub fn any_draft(random: &mut Random, code: u8) -> MadeDraft {
    let message = any_message(random, code, Style::Plain);
    let mut draft = Draft::of(&message);
    let length = encode::plain(&message).len();
    let claim = match random.below(16) {
        0..=7 => DraftClaim::Written(message),
        8 => {
            spoil(random, &mut draft);
            DraftClaim::Refused(spoil(random, &mut draft))
        }
        _ => DraftClaim::Refused(spoil(random, &mut draft)),
    };
    MadeDraft {
        draft,
        length,
        claim,
    }
}

fn spoil(random: &mut Random, draft: &mut Draft) -> Fault {
    let fault = random.pick(&faults(draft.body.code()));
    fault.befall(random, draft);
    fault
}

/// A way to have no plain form.
#[derive(Clone, Copy, Debug, PartialEq, Eq, PartialOrd, Ord)]
pub enum Fault {
    SourceBeyond48Bits,
    FlagsAboveBit6,
    LocalField3,
    RemoteField3,
    LocalOfOtherLength,
    RemoteOfOtherLength,
    RemoteWithoutLocal,
    /// The number at this place of the TLV is beyond its bits.
    LocalBeyond(usize),
    RemoteBeyond(usize),
    NoEvent,
    TooManyEvents,
    NoWholeEvent,
    NoEventType,
    /// The number at this place of an event is beyond its width.
    EventBeyond {
        kind: u8,
        place: usize,
    },
    NoDescriptor,
    TooManyDescriptors,
    Branch0,
    BranchBeyondItsOctet,
    /// The last container is cut off by the octets' end.
    ContainerCut,
    /// The last container's width runs past the octets' end.
    WidthPastTheEnd,
    ContainerOfBranch0,
    /// The containers have an end behind them, which only the frame may have.
    ContainersEnded,
    TooManyContainers,
    NoCommand,
    TooFewData,
    TooManyData,
    OuiBeyond24Bits,
}

/// The bits of an Information TLV's fields that the plain form may use.
const INFORMATION_BITS: [u32; NUMBERS] = [8, 16, 3, 5, 11, 24, 32];

/// What can be wrong with containers.
const CONTAINER_FAULTS: [Fault; 5] = [
    Fault::ContainerCut,
    Fault::WidthPastTheEnd,
    Fault::ContainerOfBranch0,
    Fault::ContainersEnded,
    Fault::TooManyContainers,
];

/// All faults that drafts of a code can have.
pub fn faults(code: u8) -> Vec<Fault> {
    let mut faults = vec![
        Fault::SourceBeyond48Bits,
        Fault::FlagsAboveBit6,
        Fault::LocalField3,
        Fault::RemoteField3,
    ];
    match code {
        code::INFORMATION => {
            faults.extend([
                Fault::LocalOfOtherLength,
                Fault::RemoteOfOtherLength,
                Fault::RemoteWithoutLocal,
            ]);
            faults.extend((0..NUMBERS).map(Fault::LocalBeyond));
            faults.extend((0..NUMBERS).map(Fault::RemoteBeyond));
        }
        code::NOTIFICATION => {
            faults.extend([
                Fault::NoEvent,
                Fault::TooManyEvents,
                Fault::NoWholeEvent,
                Fault::NoEventType,
            ]);
            faults.extend((1..=4).flat_map(|kind| {
                let fields = narrow_fields(kind).into_iter();
                fields.map(move |(place, _)| Fault::EventBeyond { kind, place })
            }));
        }
        code::REQUEST => faults.extend([
            Fault::NoDescriptor,
            Fault::TooManyDescriptors,
            Fault::Branch0,
            Fault::BranchBeyondItsOctet,
        ]),
        code::RESPONSE => faults.extend(CONTAINER_FAULTS),
        code::LOOPBACK => faults.push(Fault::NoCommand),
        _ => faults.extend([
            Fault::TooFewData,
            Fault::TooManyData,
            Fault::OuiBeyond24Bits,
        ]),
    }
    faults
}

impl Fault {
    /// Spoils a draft of a code that can have this fault, whatever other faults
    /// it has already.
    fn befall(self, random: &mut Random, draft: &mut Draft) {
        match self {
            Fault::SourceBeyond48Bits => draft.source = beyond(random, 48, 64),
            Fault::FlagsAboveBit6 => draft.flags |= 1 << random.between(7, 15),
            Fault::LocalField3 => draft.flags |= 3 << 3,
            Fault::RemoteField3 => draft.flags |= 3 << 5,
            _ => self.befall_body(random, &mut draft.body),
        }
    }

    fn befall_body(self, random: &mut Random, body: &mut DraftBody) {
        match body {
            DraftBody::Information { local, remote } => self.befall_tlvs(random, local, remote),
            DraftBody::Notification { events, .. } => self.befall_events(random, events),
            DraftBody::Request { descriptors } => self.befall_descriptors(random, descriptors),
            DraftBody::Response { containers } => *containers = self.containers(random),
            DraftBody::Loopback { command } => {
                *command = match random.below(3) {
                    0 => 0,
                    1 => 3,
                    _ => random.octet_between(3, 255),
                }
            }
            DraftBody::Organization { oui, data } => match self {
                Fault::OuiBeyond24Bits => *oui = beyond(random, 24, 32) as u32,
                _ => *data = self.data(random),
            },
        }
    }

    fn befall_tlvs(self, random: &mut Random, local: &mut Vec<u64>, remote: &mut Vec<u64>) {
        let mut good = || information(random, Style::Plain).numbers();
        let (good_local, good_remote) = (good(), good());
        match self {
            Fault::LocalOfOtherLength => *local = of_other_length(random, &good_local),
            Fault::RemoteOfOtherLength => {
                *local = good_local.to_vec();
                *remote = of_other_length(random, &good_remote);
            }
            Fault::LocalBeyond(field) => *local = with_beyond(random, good_local, field),
            Fault::RemoteBeyond(field) => {
                *local = good_local.to_vec();
                *remote = with_beyond(random, good_remote, field);
            }
            _ => {
                *local = Vec::new();
                *remote = good_remote.to_vec();
            }
        }
    }

    fn befall_events(self, random: &mut Random, events: &mut Vec<u64>) {
        match self {
            Fault::NoEvent => events.clear(),
            Fault::TooManyEvents => {
                let count = more_than(random, PLAIN_EVENTS);
                *events = good_events(random, count);
            }
            Fault::NoWholeEvent => {
                if random.one_in(8) {
                    events.clear(); // not even one is whole
                }
                events.extend(good_event(random));
                let cut = random.between(1, NUMBERS - 1);
                events.truncate(events.len() / NUMBERS * NUMBERS - cut);
            }
            Fault::EventBeyond { kind, place } => {
                let mut spoilt = event(random, kind).numbers();
                let fields = narrow_fields(kind);
                let field = fields.iter().find(|field| field.0 == place);
                let (_, bits) = field.expect("a field that has a bound");
                spoilt[place] = beyond(random, *bits, 64);
                put_event(random, events, spoilt);
            }
            _ => {
                let mut spoilt = good_event(random);
                spoilt[0] = no_event_type(random);
                put_event(random, events, spoilt);
            }
        }
    }

    fn befall_descriptors(self, random: &mut Random, descriptors: &mut Vec<u32>) {
        let leaf = random.value(2) as u32;
        match self {
            Fault::NoDescriptor => descriptors.clear(),
            Fault::TooManyDescriptors => {
                let count = more_than(random, PLAIN_DESCRIPTORS);
                *descriptors = (0..count).map(|_| descriptor(random).number()).collect();
            }
            Fault::Branch0 => put(random, descriptors, leaf),
            _ => {
                let branch = beyond(random, 8, 16) as u32;
                put(random, descriptors, branch << 16 | leaf);
            }
        }
    }

    fn containers(self, random: &mut Random) -> Vec<u8> {
        match self {
            Fault::ContainerCut => cut_by_the_end(random),
            Fault::WidthPastTheEnd => past_the_end(random),
            Fault::ContainerOfBranch0 => branch_0_put_in(random),
            Fault::ContainersEnded => ended_by_zeros(random),
            _ => too_many(random),
        }
    }

    fn data(self, random: &mut Random) -> Vec<u8> {
        let (least, most) = (*PLAIN_DATA.start(), *PLAIN_DATA.end());
        let length = match (self, random.below(4)) {
            (Fault::TooFewData, 0) => 0,
            (Fault::TooFewData, 1) => random.below(least),
            (Fault::TooFewData, _) => least - 1,
            (_, 0) => random.between(most + 1, 2 * most),
            // A count of 16 bits would take it for one that is right.
            (_, 1) if random.one_in(16) => 65_536 + random.between(least, most),
            _ => most + 1,
        };
        random.octets(length)
    }
}

/// One or two more than `most`, some more, or so many that a count of one octet would
/// take them for few enough.
fn more_than(random: &mut Random, most: usize) -> usize {
    match random.below(8) {
        0 => random.between(most + 1, 5 * most),
        1 => 256 + random.between(1, most),
        2..=4 => most + 2,
        _ => most + 1,
    }
}

/// A TLV's numbers cut short, or with some of them again behind the seven.
fn of_other_length(random: &mut Random, numbers: &[u64; NUMBERS]) -> Vec<u64> {
    let length = match random.below(3) {
        0 => random.between(1, NUMBERS - 1),
        1 => random.between(NUMBERS + 1, 2 * NUMBERS),
        _ => random.pick(&[NUMBERS - 1, NUMBERS + 1]),
    };
    numbers.iter().cycle().take(length).copied().collect()
}

fn with_beyond(random: &mut Random, mut numbers: [u64; NUMBERS], field: usize) -> Vec<u64> {
    numbers[field] = beyond(random, INFORMATION_BITS[field], 64);
    numbers.to_vec()
}

pub fn good_events(random: &mut Random, count: usize) -> Vec<u64> {
    (0..count).flat_map(|_| good_event(random)).collect()
}

fn good_event(random: &mut Random) -> [u64; NUMBERS] {
    any_event(random).numbers()
}

/// Puts an event in the place of one of the whole ones, or as the only one.
fn put_event(random: &mut Random, events: &mut Vec<u64>, new: [u64; NUMBERS]) {
    match events.len() / NUMBERS {
        0 => *events = new.to_vec(),
        count => {
            let start = NUMBERS * random.below(count);
            events[start..start + NUMBERS].copy_from_slice(&new);
        }
    }
}

/// Puts a descriptor in the place of one, or as the only one.
fn put(random: &mut Random, descriptors: &mut Vec<u32>, new: u32) {
    match descriptors.len() {
        0 => descriptors.push(new),
        count => descriptors[random.below(count)] = new,
    }
}
