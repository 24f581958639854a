//! The instructions of calls, or of a whole program, counted by valgrind's tool
//! callgrind, which writes a file for each.

use super::instructions::{Told, Tool, COUNTED};
use std::error::Error;
use std::fs;
use std::path::Path;
use std::process::Command;

pub const VALGRIND: &str = "valgrind";

/// The words behind valgrind's name and before a program's, whose instructions are
/// then told by this file.
pub fn words(file: &Path) -> [String; 3] {
    [
        String::from("--tool=callgrind"),
        String::from("--quiet"),
        format!("--callgrind-out-file={}", file.display()),
    ]
}

/// The instructions that a file tells.
pub fn told(file: &Path) -> Result<u64, Box<dyn Error>> {
    let text = fs::read_to_string(file)?;
    Ok(total(&text).ok_or("a file of callgrind has no count")?)
}

/// Callgrind, about to write files of this name, one for each counted call.
pub(super) fn tool(files: &Path) -> Tool {
    let mut command = Command::new(VALGRIND);
    command
        .args(words(files))
        .arg(format!("--toggle-collect={COUNTED}"))
        .arg(format!("--dump-after={COUNTED}"));
    Tool {
        name: "callgrind",
        command,
        read: dumped,
    }
}

/// The counts of the files with the numbers 1, 2 and so on.
fn dumped(files: &Path) -> Told {
    let mut counts = Vec::new();
    loop {
        let file = files.with_extension((counts.len() + 1).to_string());
        match file.exists() {
            true => counts.push(told(&file)?),
            false => return Ok(counts),
        }
    }
}

/// The instructions that a file of callgrind tells in all.
fn total(text: &str) -> Option<u64> {
    let told = |line: &str| line.strip_prefix("summary:")?.trim().parse().ok();
    text.lines().find_map(told)
}

#[cfg(test)]
mod tests {
    use super::super::instructions::Folder;
    use super::*;

    #[test]
    fn the_summary_of_a_file_is_its_count() {
        let text = "version: 1\npart: 2\nevents: Ir\nsummary: 1234\n\nfn=(1) tick\n0 99\n";
        assert_eq!(total(text), Some(1234));
        assert_eq!(total("events: Ir\n0 99\n"), None);
        assert_eq!(total("summary: many\n"), None);
    }

    #[test]
    fn the_files_are_read_in_order_up_to_the_first_that_is_not_there() {
        let folder = Folder::new("dumped").expect("made");
        let files = folder.0.join("calls");
        for (number, count) in [(1, 30), (2, 7), (4, 9)] {
            let text = format!("summary: {count}\n");
            fs::write(files.with_extension(number.to_string()), text).expect("written");
        }
        assert_eq!(dumped(&files).expect("they have counts"), [30, 7]);
        fs::write(files.with_extension("2"), "").expect("written");
        assert!(dumped(&files).is_err());
    }
}
