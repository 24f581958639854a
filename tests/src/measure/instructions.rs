//! The instructions of calls. A tool runs this very program once more; that run
//! makes each call by `counted`, and the tool counts what runs inside.

use super::{callgrind, emulator};
use std::error::Error;
use std::fs;
use std::io::{self, ErrorKind};
use std::path::{Path, PathBuf};
use std::process::Command;

/// The name of `counted` for the tools.
pub(super) const COUNTED: &str = "oam_tests_counted";

/// Makes a call. What runs inside is counted where a tool runs this program.
#[export_name = "oam_tests_counted"]
#[inline(never)]
pub fn counted(call: &mut dyn FnMut()) {
    call();
    std::hint::black_box(()); // so that the call comes back to here
}

/// The counts that a tool's files tell.
pub(super) type Told = Result<Vec<u64>, Box<dyn Error>>;

/// What counts instructions.
pub(super) struct Tool {
    pub name: &'static str,
    /// Runs the program that is named behind it.
    pub command: Command,
    /// Reads the files that were written.
    pub read: fn(&Path) -> Told,
}

/// What a run told: the lines that it printed, and the instructions of each
/// counted call, in order.
pub struct Counts {
    pub by: &'static str,
    pub lines: Vec<String>,
    pub instructions: Vec<u64>,
}

/// Runs this program with these words: under the emulator where it runs emulated
/// now, else under callgrind. There is nothing where the tool is not installed.
pub fn counts(words: &[&str]) -> Result<Option<Counts>, Box<dyn Error>> {
    let folder = Folder::new("counts")?;
    let files = folder.0.join("calls");
    let mut tool = match emulator::plugin() {
        Some(plugin) => emulator::tool(&plugin, &files),
        None => callgrind::tool(&files),
    };
    let program = std::env::current_exe()?;
    let ran = match tool.command.arg(program).args(words).output() {
        Err(error) if error.kind() == ErrorKind::NotFound => return Ok(None),
        ran => ran?,
    };
    if !ran.status.success() {
        let said = String::from_utf8_lossy(&ran.stderr);
        return Err(format!("{} ended with {}: {said}", tool.name, ran.status).into());
    }
    let printed = String::from_utf8(ran.stdout)?;
    Ok(Some(Counts {
        by: tool.name,
        lines: printed.lines().map(String::from).collect(),
        instructions: (tool.read)(&files)?,
    }))
}

/// A folder for a tool's files, removed when it is dropped.
pub(super) struct Folder(pub PathBuf);

impl Folder {
    pub fn new(name: &str) -> io::Result<Self> {
        let name = format!("oam-tests-{}-{name}", std::process::id());
        let path = std::env::temp_dir().join(name);
        fs::create_dir(&path)?;
        Ok(Folder(path))
    }
}

impl Drop for Folder {
    fn drop(&mut self) {
        // Nothing hangs on it: the folder is only in the way.
        let _ = fs::remove_dir_all(&self.0);
    }
}

#[cfg(test)]
mod tests {
    use super::*;

    #[test]
    fn a_counted_call_is_made_once() {
        let mut made = 0;
        counted(&mut || made += 1);
        assert_eq!(made, 1);
    }

    #[test]
    fn a_folder_goes_with_what_is_in_it() {
        let folder = Folder::new("folder").expect("made");
        let path = folder.0.clone();
        fs::write(path.join("file"), "text").expect("written");
        drop(folder);
        assert!(!path.exists());
    }
}
