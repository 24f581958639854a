//! The client's requests, with values in range and out of it.

use super::responses::any_respond;
use crate::generate::drafts::{any_draft, good_events};
use crate::generate::messages::{any_message, Style};
use crate::library::machine::Call;
use crate::paper::{code, Draft, DraftBody, PLAIN_EVENTS};
use crate::random::Random;

/// One of the six requests, of an end whose smaller maximum size is this one, as far
/// as it is known.
pub fn any_request(random: &mut Random, size: usize) -> Call {
    let code = random.pick(&[
        code::LOOPBACK,
        code::REQUEST,
        code::NOTIFICATION,
        code::ORGANIZATION,
        code::RESPONSE,
        code::RESPONSE,
    ]);
    if code == code::RESPONSE {
        return any_respond(random, size);
    }
    if code == code::NOTIFICATION && random.one_in(8) {
        return Call::Notify(good_events(random, PLAIN_EVENTS + 1));
    }
    let draft = match random.below(4) {
        0 => any_draft(random, code).draft,
        _ => {
            let message = any_message(random, code, Style::Plain);
            Draft::of(&message)
        }
    };
    match draft.body {
        DraftBody::Request { descriptors } => Call::Request(descriptors),
        DraftBody::Notification { events, .. } => Call::Notify(events),
        DraftBody::Organization { oui, data } => Call::Organization { oui, octets: data },
        _ if random.one_in(2) => Call::Start,
        _ => Call::Stop,
    }
}
