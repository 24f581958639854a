//! The two sides of a row of a table: they are timed, or their instructions are
//! counted.

use oam_tests::measure::clock::times;
use oam_tests::measure::instructions::counted;
use std::collections::BTreeMap;
use std::hint::black_box;

pub trait Meter {
    /// A row: what is called, through the archive and by hand. A call gives the
    /// same each time.
    fn row<A: PartialEq, B: PartialEq>(
        &mut self,
        what: &str,
        archive: impl FnMut() -> A,
        own: impl FnMut() -> B,
    );
}

/// The instructions of each row's two calls.
pub type Instructions = BTreeMap<String, [u64; 2]>;

/// Prints rows: nanoseconds where there are runs, and the instructions that are
/// known.
pub struct Table {
    pub runs: Option<usize>,
    pub instructions: Instructions,
}

impl Table {
    pub fn head(&self) {
        let (names, lines) = match self.runs {
            Some(_) => (" ns | by hand | ratio |", "---|---|---|"),
            None => ("", ""),
        };
        println!("| Call |{names} instructions | by hand | ratio |");
        println!("|---|{lines}---|---|---|");
    }
}

impl Meter for Table {
    fn row<A: PartialEq, B: PartialEq>(
        &mut self,
        what: &str,
        archive: impl FnMut() -> A,
        own: impl FnMut() -> B,
    ) {
        print!("| {what} |");
        if let Some(runs) = self.runs {
            let [archive, own] = times(runs, archive, own);
            let ratio = archive / own;
            print!(" {archive:.1} | {own:.1} | {ratio:.2} |");
        }
        match self.instructions.get(what) {
            Some(&[archive, own]) => {
                let ratio = archive as f64 / own as f64;
                println!(" {archive} | {own} | {ratio:.2} |");
            }
            None => println!(" | | |"),
        }
    }
}

/// Prints what is called and makes both calls to be counted, each once
/// before, so that nothing is done for the first time.
pub struct Counter;

impl Meter for Counter {
    fn row<A: PartialEq, B: PartialEq>(
        &mut self,
        what: &str,
        archive: impl FnMut() -> A,
        own: impl FnMut() -> B,
    ) {
        println!("{what}");
        count(archive);
        count(own);
    }
}

fn count<T>(mut call: impl FnMut() -> T) {
    black_box(call());
    counted(&mut || {
        black_box(call());
    });
}
