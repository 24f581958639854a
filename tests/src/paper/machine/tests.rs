//! The machine against the paper's rules, worked by hand. Numbers like B28 are
//! those of the list of open points.

mod discovery;
mod fresh;
mod loopback;
mod requests;
mod responding;
mod sending;
mod stretch;

use super::*;
use crate::paper::tests::octets;
use crate::paper::{joined, SHORTEST};

/// The own address of the ends below, and one lower and one higher.
const OWN: &str = "020000000005";
const LOWER: &str = "020000000004";
const HIGHER: &str = "030000000001";

/// An active end with loopback, events and retrieval.
fn active() -> Settings {
    Settings {
        configuration: 0x1D,
        size: 1518,
        oui: 0x00_1B21,
        vendor: 0xDEAD_BEEF,
        source: joined(&octets(OWN)),
        required: 0,
    }
}

fn passive() -> Settings {
    Settings {
        configuration: 0x1C,
        ..active()
    }
}

/// The Local TLVs of `active` and `passive` at revision 0, role Idle.
const ACTIVE_TLV: &str = "01 10 01 0000 00 1d 05ee 001b21 deadbeef";
const PASSIVE_TLV: &str = "01 10 01 0000 00 1c 05ee 001b21 deadbeef";
/// A Local TLV with this State octet, of an active peer with loopback.
fn peer_tlv(state: &str) -> String {
    format!("01 10 01 0007 {state} 0d 0200 a0b1c2 01020304")
}

/// A frame from `source`, zeros up to 60 octets.
fn frame_from(source: &str, flags: u16, code_and_body: &str) -> Vec<u8> {
    let header = format!("0180c2000002 {source} 8809 03 {flags:04x}");
    let mut frame = octets(&format!("{header} {code_and_body}"));
    let length = frame.len().max(SHORTEST);
    frame.resize(length, 0);
    frame
}

/// A frame of the peer at the higher address.
fn frame(flags: u16, code_and_body: &str) -> Vec<u8> {
    frame_from(HIGHER, flags, code_and_body)
}

/// The flags of a peer whose discovery is complete.
const DONE: u16 = 0x0050;
const ENABLE_BODY: &str = "04 01";
const DISABLE_BODY: &str = "04 02";

/// An end under test, and the frame that its last call wrote.
struct Tried {
    end: End,
    sent: Vec<u8>,
    shown: Shown,
}

impl Tried {
    fn fresh(settings: Settings) -> Self {
        Tried::at(End::fresh(&settings).expect("in range"))
    }

    fn at(end: End) -> Self {
        Tried {
            end,
            sent: Vec::new(),
            shown: Shown::Nothing,
        }
    }

    /// An end whose link is up.
    fn up(settings: Settings) -> Self {
        let mut tried = Tried::fresh(settings);
        tried.report(Report::LinkUp);
        tried
    }

    /// An end in SEND_ANY, the peer active, that owes nothing.
    fn any(settings: Settings) -> Self {
        let mut tried = Tried::up(settings);
        tried.receive(&frame(DONE, &format!("00 {}", peer_tlv("00"))));
        assert_eq!(tried.end.discovery, Discovery::SendAny);
        assert!(!tried.end.owed);
        tried
    }

    /// Makes a call with room enough; a refusal leaves all as it was.
    fn call(&mut self, call: impl Fn(&End, &mut [u8]) -> Result<Step, u8>) -> u8 {
        let mut out = [0xEE; 1600];
        let (length, answer) = match call(&self.end, &mut out) {
            Ok(step) => {
                self.end = step.end;
                self.shown = step.shown;
                (step.length, answer::ACCEPTED)
            }
            Err(refusal) => {
                self.shown = Shown::Nothing;
                (0, refusal)
            }
        };
        assert!(out[length..].iter().all(|&octet| octet == 0xEE));
        self.sent = out[..length].to_vec();
        answer
    }

    fn tick(&mut self) {
        assert_eq!(self.call(End::tick), answer::ACCEPTED);
    }

    fn ticks(&mut self, count: usize) {
        (0..count).for_each(|_| self.tick());
    }

    fn report(&mut self, report: Report) {
        let answer = self.call(|end, out| end.report(report, out));
        assert_eq!(answer, answer::ACCEPTED);
    }

    fn receive(&mut self, frame: &[u8]) {
        let answer = self.call(|end, out| end.receive(frame, out));
        assert_eq!(answer, answer::ACCEPTED);
    }

    fn start(&mut self) -> u8 {
        self.call(End::start)
    }

    fn stop(&mut self) -> u8 {
        self.call(End::stop)
    }

    fn notify(&mut self) -> u8 {
        self.call(|end, out| end.notify(&EVENT, out))
    }

    fn organize(&mut self) -> u8 {
        self.call(|end, out| end.organization(0xA0_B1C2, &[7; 39], out))
    }

    /// Writes frames until ten stand in the stretch.
    fn fill_stretch(&mut self) {
        let left = MOST_FRAMES - self.end.written();
        self.requests(left.into());
    }

    fn requests(&mut self, count: usize) {
        (0..count).for_each(|_| assert_eq!(self.organize(), answer::ACCEPTED));
    }

    /// What was sent is an Information frame with these flags and TLVs.
    fn assert_sent(&self, flags: u16, tlvs: &str) {
        assert_eq!(self.sent, frame_from(OWN, flags, &format!("00 {tlvs}")));
    }

    fn assert_silent(&self) {
        assert_eq!(self.sent, []);
    }
}

/// The intervals of an end that has written so many frames, all in the present one.
fn only_now(frames: u8) -> [u8; STRETCH] {
    let mut intervals = [0; STRETCH];
    intervals[0] = frames;
    intervals
}

/// Frame seconds: 18 octets.
const EVENT: [u64; 7] = [4, 1, 2, 3, 4, 5, 6];
