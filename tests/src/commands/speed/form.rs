//! The two forms of a lister's input, lines and captures, and traffic in each of them.

use crate::commands::process::Program;
use oam_tests::compare::hex;
use oam_tests::generate::{traffic_line, usual_header, usual_record, TRAFFIC};
use oam_tests::paper::decode;
use oam_tests::random::Random;
use std::io;

#[derive(Clone, Copy, Debug, PartialEq, Eq)]
pub enum Form {
    Lines,
    Captures,
}

impl Form {
    /// What reads the form.
    pub fn lister(self) -> &'static str {
        match self {
            Form::Lines => "Lister",
            Form::Captures => "Capture lister",
        }
    }

    /// What a frame stands in.
    pub fn places(self) -> &'static str {
        match self {
            Form::Lines => "lines",
            Form::Captures => "records",
        }
    }

    /// The command that compares what a lister of the form writes.
    pub fn command(self) -> &'static str {
        match self {
            Form::Lines => "lister",
            Form::Captures => "captures",
        }
    }

    /// The hand-written lister.
    pub fn by_hand(self) -> io::Result<Program> {
        let command = match self {
            Form::Lines => "list",
            Form::Captures => "list_captures",
        };
        let own = std::env::current_exe()?;
        Ok(Program::new(own, &[String::from(command)]))
    }

    /// An input of these frames.
    pub fn holding(self, frames: &[Vec<u8>]) -> Vec<u8> {
        let mut input = self.start();
        for frame in frames {
            match self {
                Form::Lines => input.extend(hex(frame).into_bytes()),
                Form::Captures => input.extend(usual_record(frame)),
            }
            input.extend(self.end());
        }
        input
    }

    /// What stands before the first place, and behind each.
    fn start(self) -> Vec<u8> {
        match self {
            Form::Lines => Vec::new(),
            Form::Captures => usual_header(),
        }
    }

    fn end(self) -> &'static [u8] {
        match self {
            Form::Lines => b"\n",
            Form::Captures => b"",
        }
    }

    /// What a line is in this form. One that is no octets has no place in a capture.
    fn place(self, line: Vec<u8>) -> Option<Vec<u8>> {
        match self {
            Form::Lines => Some(line),
            Form::Captures => decode(&line).ok().map(|frame| usual_record(&frame)),
        }
    }
}

/// An input of the usual mix, and how many lines or records and octets of each kind.
pub struct Traffic {
    pub input: Vec<u8>,
    pub kinds: [(usize, usize); TRAFFIC.len()],
}

impl Traffic {
    /// So many megabytes or a little more.
    pub fn with_seed(form: Form, seed: u64, megabytes: u64) -> Self {
        let least = megabytes as usize * 1_000_000;
        let mut random = Random::new(seed);
        let mut input = Vec::with_capacity(least + 4_000);
        input.extend(form.start());
        let mut kinds = [(0, 0); TRAFFIC.len()];
        while input.len() < least {
            let (kind, line) = traffic_line(&mut random);
            let Some(place) = form.place(line) else {
                continue;
            };
            let (places, octets) = &mut kinds[kind];
            *places += 1;
            *octets += place.len() + form.end().len();
            input.extend_from_slice(&place);
            input.extend_from_slice(form.end());
        }
        Traffic { input, kinds }
    }
}

#[cfg(test)]
mod tests {
    use super::*;
    use oam_tests::paper::capture::{self, records};
    use oam_tests::paper::{lines, listing};

    #[test]
    fn both_forms_hold_the_same_frames_of_the_mix() {
        let [text, file] =
            [Form::Lines, Form::Captures].map(|form| Traffic::with_seed(form, 57, 1).input);
        let captured = records(&file).expect("a capture");
        let captured: Vec<&[u8]> = captured
            .map(|record| record.expect("whole").octets)
            .collect();
        let frames: Vec<Vec<u8>> = lines(&text).filter_map(|line| decode(line).ok()).collect();
        assert!(frames
            .iter()
            .zip(&captured)
            .all(|(frame, other)| frame == other));
        assert!(frames.len() > 1_000 && captured.len() > frames.len());
        let [text, file] = [Form::Lines, Form::Captures].map(|form| form.holding(&frames));
        assert_eq!(listing(&text), capture::listing(&file));
    }

    #[test]
    fn each_octet_is_of_a_kind() {
        for (form, header) in [(Form::Lines, 0), (Form::Captures, 24)] {
            let Traffic { input, kinds } = Traffic::with_seed(form, 57, 1);
            let octets: usize = kinds.iter().map(|(_, octets)| octets).sum();
            assert_eq!(octets + header, input.len());
            assert!(input.len() >= 1_000_000 && input.len() < 1_004_000);
        }
    }
}
