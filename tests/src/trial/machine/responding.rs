//! What came of responses, told from the paper's end before them and from the
//! numbers that were lent. The counts that change request (i) asks for are for a
//! million calls, and grow with the calls.

use crate::generate::machine::ResponseFault;
use crate::library::machine::{Call, Outcome, Response};
use crate::paper::machine::{End, FCS};
use crate::paper::{answer, BODY, MOST_ASKED, MOST_ATTRIBUTES};
use crate::trial::report::{Report, Tally};
use crate::trial::THIS_PACKAGE;

/// One response or more in so many calls.
const CALLS_A_RESPONSE: usize = 1_000_000 / 30_000;
/// Each answer, and each reason for 10, once or more in so many.
const CALLS_AN_ANSWER: usize = 1_000_000 / 200;

/// What must come of responses at least once.
#[derive(Clone, Copy, Debug, PartialEq, Eq, PartialOrd, Ord)]
enum Sort {
    AllAnswered,
    CutOff,
    CutThoughALaterOneFits,
    NothingFits,
    OneOctetLeft,
    JustFits,
    OneOctetTooMany,
    /// The containers end at this octet.
    EndsAt(usize),
    NoAttribute,
    MostAttributes,
    MostAsked,
    AskedTwice,
    Widest,
    NotHeld,
    OwnSizeSmaller,
    PeersSizeSmaller,
    /// Whether the end and the peer are active.
    Granted(bool, bool),
    GrantedOfAPeerWithoutBit4,
    ForbiddenWithoutBit4,
    ForbiddenToAPassivePeer,
}

impl Sort {
    fn all() -> Vec<Sort> {
        let mut all = vec![
            Sort::AllAnswered,
            Sort::CutOff,
            Sort::CutThoughALaterOneFits,
            Sort::NothingFits,
            Sort::OneOctetLeft,
            Sort::JustFits,
            Sort::OneOctetTooMany,
            Sort::NoAttribute,
            Sort::MostAttributes,
            Sort::MostAsked,
            Sort::AskedTwice,
            Sort::Widest,
            Sort::NotHeld,
            Sort::OwnSizeSmaller,
            Sort::PeersSizeSmaller,
            Sort::Granted(false, true),
            Sort::Granted(true, true),
            Sort::GrantedOfAPeerWithoutBit4,
            Sort::ForbiddenWithoutBit4,
            Sort::ForbiddenToAPassivePeer,
        ];
        all.extend((58..=61).map(Sort::EndsAt));
        all
    }
}

/// The sizes of the range's two ends, at which containers must have been cut and
/// must have been let go whole.
fn sizes() -> impl Iterator<Item = (usize, bool)> {
    let sizes = (64..=70).chain(1514..=1518);
    sizes.flat_map(|size| [(size, false), (size, true)])
}

pub struct Responding {
    count: Tally<()>,
    answers: Tally<u8>,
    /// Reasons for 10 that no other one stood beside.
    reasons: Tally<ResponseFault>,
    sorts: Tally<Sort>,
    /// The smaller size, and whether all was answered.
    sizes: Tally<(usize, bool)>,
    /// The paper's answer is not what the makers' faults say.
    misjudged: Option<String>,
}

impl Responding {
    pub fn new(calls: usize) -> Self {
        let least = |a_time: usize| (calls / a_time).max(1);
        let answers = [0, 9, 10, 11, 13, 15];
        let often = least(CALLS_AN_ANSWER);
        Responding {
            count: Tally::expecting_often([()], least(CALLS_A_RESPONSE)),
            answers: Tally::expecting_often(answers, often),
            reasons: Tally::expecting_often(ResponseFault::ALL, often),
            sorts: Tally::expecting(Sort::all()),
            sizes: Tally::expecting(sizes()),
            misjudged: None,
        }
    }

    /// Notes a call; other calls are no responses.
    pub fn note(&mut self, before: &End, call: &Call, outcome: &Outcome) {
        let Call::Respond(given) = call else {
            return;
        };
        self.count.count(());
        self.answers.count(outcome.answer);
        let faults = ResponseFault::all_of(given);
        if faults.is_empty() == (outcome.answer == answer::VALUES) {
            let told = || format!("{THIS_PACKAGE}: {call} is {faults:?}, {outcome:?}");
            self.misjudged.get_or_insert_with(told);
        }
        if let [fault] = faults[..] {
            self.reasons.count(fault);
        }
        if faults.is_empty() {
            let asked = Asked::new(before, given);
            self.note_sorts(&asked, outcome.answer);
        }
    }

    fn note_sorts(&mut self, asked: &Asked, answer: u8) {
        let mut sorts = asked.sorts_of_ends(answer);
        if answer == answer::ACCEPTED {
            sorts.extend(asked.sorts_of_lists());
            sorts.extend(asked.sorts_of_fits());
            let all = asked.answered == asked.lengths.len();
            let size = asked.room() + BODY + FCS;
            if sizes().any(|wanted| wanted == (size, all)) {
                self.sizes.count((size, all));
            }
        }
        for (sort, holds) in sorts {
            if holds {
                self.sorts.count(sort);
            }
        }
    }

    pub fn report(&self, report: &mut Report) {
        report.add("responses", &self.count, |()| String::from("in all"));
        report.add("responses by answer", &self.answers, |answer| {
            format!("answered {answer}")
        });
        report.add(
            "responses with one reason for 10",
            &self.reasons,
            |reason| format!("{reason:?}"),
        );
        report.add("what came of responses", &self.sorts, |sort| {
            format!("{sort:?}")
        });
        let title = "responses at a smaller size of note";
        report.add(title, &self.sizes, |(size, all)| {
            let cut = if *all { "all answered" } else { "cut off" };
            format!("{size}, {cut}")
        });
        report.faults.extend(self.misjudged.clone());
        if self.answers.of(&answer::SIZE) > 0 {
            report.faults.push(String::from("oam_respond gives 12"));
        }
    }
}

/// Numbers in range that an end was asked with, and the octets of the container for
/// each descriptor.
struct Asked<'a> {
    end: &'a End,
    attributes: &'a [u32],
    descriptors: &'a [u32],
    lengths: Vec<usize>,
    /// How many of them have room, and their octets.
    answered: usize,
    octets: usize,
}

impl<'a> Asked<'a> {
    fn new(end: &'a End, given: &'a Response) -> Self {
        let (attributes, descriptors) = (&given.attributes[..], &given.descriptors[..]);
        let width = |descriptor: &u32| {
            let mut held = attributes.chunks(2);
            held.find(|held| held[0] == *descriptor)
                .map_or(0, |held| held[1] as usize)
        };
        let mut asked = Asked {
            end,
            attributes,
            descriptors,
            lengths: descriptors.iter().map(|one| 4 + width(one)).collect(),
            answered: 0,
            octets: 0,
        };
        for length in &asked.lengths {
            if asked.octets + length > asked.room() {
                break;
            }
            asked.answered += 1;
            asked.octets += length;
        }
        asked
    }

    fn peers_size(&self) -> usize {
        let peer = self.end.peer.map(|peer| peer.maximum_size());
        peer.map_or(usize::MAX, usize::from)
    }

    /// The octets for containers.
    fn room(&self) -> usize {
        let size = self.peers_size().min(self.end.settings.size.into());
        size.saturating_sub(BODY + FCS)
    }

    fn sorts_of_ends(&self, answer: u8) -> Vec<(Sort, bool)> {
        let Some(peer) = self.end.peer else {
            return Vec::new();
        };
        let own_is_active = self.end.settings.is_active();
        let bit_4 = self.end.settings.has_retrieval();
        let (granted, forbidden) = (answer == answer::ACCEPTED, answer == answer::FORBIDDEN);
        let own_size = usize::from(self.end.settings.size);
        vec![
            (Sort::Granted(own_is_active, peer.is_active()), granted),
            (
                Sort::GrantedOfAPeerWithoutBit4,
                granted && peer.configuration & 0x10 == 0,
            ),
            (Sort::ForbiddenWithoutBit4, forbidden && !bit_4),
            (
                Sort::ForbiddenToAPassivePeer,
                forbidden && bit_4 && own_is_active && !peer.is_active(),
            ),
            (
                Sort::OwnSizeSmaller,
                granted && own_size < self.peers_size(),
            ),
            (
                Sort::PeersSizeSmaller,
                granted && self.peers_size() < own_size,
            ),
        ]
    }

    fn sorts_of_lists(&self) -> Vec<(Sort, bool)> {
        let written = &self.descriptors[..self.answered];
        let mut distinct = written.to_vec();
        distinct.sort_unstable();
        distinct.dedup();
        let lengths = &self.lengths[..self.answered];
        vec![
            (Sort::NoAttribute, self.attributes.is_empty()),
            (
                Sort::MostAttributes,
                self.attributes.len() == 2 * MOST_ATTRIBUTES,
            ),
            (Sort::MostAsked, self.descriptors.len() == MOST_ASKED),
            (Sort::AskedTwice, distinct.len() < written.len()),
            (Sort::Widest, lengths.contains(&132)),
            (Sort::NotHeld, lengths.contains(&4)),
        ]
    }

    fn sorts_of_fits(&self) -> Vec<(Sort, bool)> {
        let left = self.room() - self.octets;
        let all = self.answered == self.lengths.len();
        let beyond = self.lengths.get(self.answered).copied();
        let behind = self.lengths.iter().skip(self.answered + 1);
        let mut sorts = vec![
            (Sort::AllAnswered, all),
            (Sort::CutOff, !all),
            (
                Sort::CutThoughALaterOneFits,
                behind.copied().any(|length| length <= left),
            ),
            (Sort::NothingFits, self.answered == 0),
            (Sort::OneOctetLeft, all && left == 1),
            (Sort::JustFits, left == 0),
            (Sort::OneOctetTooMany, beyond == Some(left + 1)),
        ];
        if let end @ 58..=61 = BODY + self.octets {
            sorts.push((Sort::EndsAt(end), true));
        }
        sorts
    }
}
