//! The most stack that each entry of the archive took, over many inputs.

use super::frames::{storm, storm_draft};
use super::machine::Stand;
use oam_tests::generate::machine::{any_setup, directed_scripts, Script};
use oam_tests::generate::{any_draft, any_frame, any_log_entry, any_log_line, every_frame};
use oam_tests::library::machine::{
    Call, Machine, Setup, State, Turn, ARISEN, SHOWN_NUMBERS, STATE_OCTETS,
};
use oam_tests::library::{writer_name, Archive, Library, HEADER, ROW};
use oam_tests::measure::stack::PaintedStack;
use oam_tests::paper::machine::End;
use oam_tests::paper::{code, log, LONGEST, MOST_PARTS};
use oam_tests::random::Random;
use std::collections::BTreeMap;
use std::hint::black_box;

/// Drafts of each kind, frames, and log entries and lines.
const INPUTS: usize = 10_000;
const SCRIPTS: usize = 300;
const SCRIPT_CALLS: usize = 200;

/// The most octets that an entry took, and how often it was called.
#[derive(Clone, Copy, Debug, Default, PartialEq, Eq)]
pub struct Deepest {
    pub octets: usize,
    pub calls: usize,
}

pub struct Depths {
    stack: PaintedStack,
    random: Random,
    pub deepest: BTreeMap<&'static str, Deepest>,
}

/// Calls every entry on inputs of all makers; a seed makes the same ones.
pub fn measure(seed: u64) -> Result<Depths, String> {
    let mut depths = Depths {
        stack: PaintedStack::new(),
        random: Random::new(seed),
        deepest: BTreeMap::new(),
    };
    depths.writers();
    let any = Stand::in_send_any()?.state;
    depths.storm(any);
    depths.frames(any);
    depths.log();
    for _ in 0..SCRIPTS {
        depths.script();
    }
    for (setup, turns) in directed_scripts(&mut depths.random) {
        depths.directed(&setup, &turns);
    }
    Ok(depths)
}

impl Depths {
    /// Makes a call of an entry on the painted stack.
    fn note(&mut self, entry: &'static str, mut call: impl FnMut() -> u64) {
        let octets = self.stack.depth(|| {
            black_box(call());
        });
        let deepest = self.deepest.entry(entry).or_default();
        deepest.octets = deepest.octets.max(octets);
        deepest.calls += 1;
    }

    fn writers(&mut self) {
        let mut out = [0; LONGEST];
        for code in code::ALL {
            for _ in 0..INPUTS {
                let draft = any_draft(&mut self.random, code).draft;
                self.note(writer_name(code), || Archive.write(&draft, &mut out));
            }
        }
    }

    /// As many events as there may be, written and sent by an end with this state.
    fn storm(&mut self, mut state: [u8; STATE_OCTETS]) {
        let (draft, mut out) = (storm_draft(), [0; LONGEST]);
        let writer = writer_name(code::NOTIFICATION);
        self.note(writer, || Archive.write(&draft, &mut out));
        let notify = Call::Notify(storm());
        self.note(notify.name(), || {
            Archive.call(&notify, &mut [], &mut state, &mut out)
        });
    }

    /// Frames of every length and kind: read, read with their rows, read for their
    /// descriptors, and received by an end with this state.
    fn frames(&mut self, state: [u8; STATE_OCTETS]) {
        let mut frames = every_frame(&mut self.random);
        frames.extend((0..INPUTS).map(|_| any_frame(&mut self.random)));
        let (mut header, mut rows) = ([0; HEADER], [0; ROW * MOST_PARTS]);
        let mut descriptors = [0; MOST_PARTS];
        for made in frames {
            let frame = &made.frame;
            self.note("oam_read", || Archive.read(frame, &mut header));
            let first = self.random.below(3);
            self.note("oam_read_all", || {
                Archive.read_all(frame, first, &mut header, &mut rows)
            });
            let room = match self.random.below(4) {
                0 => self.random.below(MOST_PARTS),
                _ => MOST_PARTS,
            };
            self.note("oam_descriptors", || {
                Archive.descriptors(frame, &mut descriptors[..room])
            });
            self.call(&Call::Receive(made.frame), &mut state.clone());
        }
    }

    fn log(&mut self) {
        let (mut line, mut values) = ([0; log::LONGEST_LINE], [0; log::FIELDS]);
        for _ in 0..INPUTS {
            let entry = any_log_entry(&mut self.random);
            self.note("oam_log_write", || {
                Archive.log_write(entry.number, entry.position, &entry.event, &mut line)
            });
            let text = any_log_line(&mut self.random).text;
            self.note("oam_log_read", || Archive.log_read(&text, &mut values));
        }
    }

    fn script(&mut self) {
        let (setup, _) = any_setup(&mut self.random);
        let mut state = self.fresh(&setup);
        let mut script = Script::new(&mut self.random, &setup.settings);
        for _ in 0..SCRIPT_CALLS {
            let Some(end) = self.show(&state) else {
                return; // the settings were refused
            };
            let call = script.call(&mut self.random, &end);
            self.call(&call, &mut state);
        }
    }

    fn directed(&mut self, setup: &Setup, turns: &[Turn]) {
        let mut state = self.fresh(setup);
        for turn in turns {
            self.call(&turn.call, &mut state);
        }
    }

    fn fresh(&mut self, setup: &Setup) -> [u8; STATE_OCTETS] {
        let mut state = [0; STATE_OCTETS];
        self.note("oam_fresh", || Archive.fresh(setup, &mut state));
        state
    }

    fn show(&mut self, state: &[u8]) -> Option<End> {
        let mut numbers = [0; SHOWN_NUMBERS];
        self.note("oam_show", || Archive.show(state, &mut numbers));
        State::from_numbers(&numbers).map(|shown| shown.end)
    }

    /// Makes a call, mostly with room for every frame.
    fn call(&mut self, call: &Call, state: &mut [u8]) {
        let room = match self.random.below(16) {
            0 => self.random.below(LONGEST),
            _ => LONGEST,
        };
        let (mut numbers, mut out) = ([0; ARISEN], [0; LONGEST]);
        let out = &mut out[..room];
        match call {
            Call::Respond(given) => self.note(call.name(), || Archive.respond(given, state, out)),
            _ => self.note(call.name(), || Archive.call(call, &mut numbers, state, out)),
        }
    }
}

#[cfg(test)]
mod tests;
