//! The link between two ends. It never alters, invents or turns back a frame.

use crate::random::Random;

/// A frame under way.
#[derive(Clone)]
pub struct Sent {
    pub frame: Vec<u8>,
    /// It is an enable that an active end sent in SEND_ANY.
    pub is_rightful_enable: bool,
}

/// What the link does next to a frame.
#[derive(Clone, Copy, Debug, PartialEq, Eq, PartialOrd, Ord)]
pub enum Arrival {
    InOrder,
    OutOfOrder,
    /// One that has arrived before.
    Again,
    Lost,
}

impl Arrival {
    pub const ALL: [Arrival; 4] = [
        Arrival::InOrder,
        Arrival::OutOfOrder,
        Arrival::Again,
        Arrival::Lost,
    ];
}

/// By the end to which they go: frames under way in the order in which they were
/// sent, and those that have arrived.
#[derive(Default)]
pub struct Link {
    under_way: [Vec<Sent>; 2],
    arrived: [Vec<Sent>; 2],
}

impl Link {
    /// Takes over what an end has sent, if anything.
    pub fn sent(&mut self, to: usize, sent: Option<Sent>) {
        self.under_way[to].extend(sent);
    }

    /// Whether there is a frame for it.
    pub fn can(&self, to: usize, arrival: Arrival) -> bool {
        match arrival {
            Arrival::InOrder | Arrival::Lost => !self.under_way[to].is_empty(),
            Arrival::OutOfOrder => self.under_way[to].len() > 1,
            Arrival::Again => !self.arrived[to].is_empty(),
        }
    }

    /// Takes the frame that arrives, or loses one.
    pub fn take(&mut self, random: &mut Random, to: usize, arrival: Arrival) -> Option<Sent> {
        let (under_way, arrived) = (&mut self.under_way[to], &mut self.arrived[to]);
        let place = match arrival {
            Arrival::InOrder => 0,
            Arrival::OutOfOrder => random.between(1, under_way.len() - 1),
            Arrival::Again => return Some(arrived[random.below(arrived.len())].clone()),
            Arrival::Lost => random.below(under_way.len()),
        };
        let sent = under_way.remove(place);
        if arrival == Arrival::Lost {
            return None;
        }
        arrived.push(sent.clone());
        Some(sent)
    }
}

#[cfg(test)]
mod tests {
    use super::*;

    /// A link with the frames 1, 2 and 3 under way to end 0.
    fn link() -> Link {
        let mut link = Link::default();
        for octet in 1..=3 {
            let sent = Sent {
                frame: vec![octet],
                is_rightful_enable: false,
            };
            link.sent(0, Some(sent));
        }
        link
    }

    fn taken(link: &mut Link, arrival: Arrival) -> Option<u8> {
        assert!(link.can(0, arrival));
        let sent = link.take(&mut Random::new(1), 0, arrival);
        sent.map(|sent| sent.frame[0])
    }

    #[test]
    fn frames_arrive_in_order_and_again() {
        let mut link = link();
        assert!(!link.can(0, Arrival::Again));
        let arrived = [(); 3].map(|()| taken(&mut link, Arrival::InOrder));
        assert_eq!(arrived, [Some(1), Some(2), Some(3)]);
        assert!(!link.can(0, Arrival::InOrder) && !link.can(0, Arrival::Lost));
        assert!(taken(&mut link, Arrival::Again).is_some());
    }

    #[test]
    fn a_frame_overtakes_others_or_is_lost() {
        let mut link = link();
        assert_ne!(taken(&mut link, Arrival::OutOfOrder), Some(1));
        assert_eq!(taken(&mut link, Arrival::Lost), None);
        assert!(!link.can(0, Arrival::OutOfOrder));
        assert!(taken(&mut link, Arrival::InOrder).is_some());
        assert!(!link.can(0, Arrival::InOrder));
    }

    /// Nothing is turned back.
    #[test]
    fn frames_go_to_one_end_only() {
        assert!(Arrival::ALL
            .into_iter()
            .all(|arrival| !link().can(1, arrival)));
    }
}
