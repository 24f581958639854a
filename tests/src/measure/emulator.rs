//! The instructions of calls, counted by the emulator that this program runs
//! under, with the plugin of tests/counting: valgrind runs programs of the
//! machine's own processor only.

use super::instructions::{Told, Tool};
use std::ffi::{OsStr, OsString};
use std::fs;
use std::path::Path;
use std::process::Command;

/// The plugin's file, which tests/emulated.sh names. Without it this program is
/// taken to run on the machine itself.
pub(super) fn plugin() -> Option<OsString> {
    std::env::var_os("OAM_COUNTING_PLUGIN")
}

/// Whether this program runs under an emulator. A time measured so says nothing.
pub fn emulated() -> bool {
    plugin().is_some()
}

/// The emulator, about to write a file of this name. Its processor is the one of
/// most features, as callgrind's has them: the C library chooses its `memcpy` by
/// them.
pub(super) fn tool(plugin: &OsStr, file: &Path) -> Tool {
    let mut plugin = plugin.to_os_string();
    plugin.push(",into=");
    plugin.push(file);
    let mut command = Command::new("qemu-x86_64");
    command.args(["-cpu", "max", "-plugin"]).arg(plugin);
    Tool {
        name: "the emulator",
        command,
        read: listed,
    }
}

/// The counts of a file, one a line.
fn listed(file: &Path) -> Told {
    let text = fs::read_to_string(file)?;
    let counts: Result<Vec<u64>, _> = text.lines().map(str::parse).collect();
    Ok(counts?)
}

#[cfg(test)]
mod tests {
    use super::super::instructions::Folder;
    use super::*;

    #[test]
    fn a_count_is_a_line() {
        let folder = Folder::new("listed").expect("made");
        let file = folder.0.join("calls");
        assert!(listed(&file).is_err());
        fs::write(&file, "30\n7\n").expect("written");
        assert_eq!(listed(&file).expect("they are counts"), [30, 7]);
        fs::write(&file, "30\nmany\n").expect("written");
        assert!(listed(&file).is_err());
    }

    /// Calls of known length.
    #[cfg(target_arch = "x86_64")]
    mod known {
        use super::super::super::instructions::{counted, counts};
        use super::emulated;
        use std::arch::asm;

        const STEPS: u64 = 1_000;
        /// What a call takes beside its steps.
        const BESIDE: u64 = 20;

        /// Two instructions for each step, of which there is one or more.
        fn take(steps: u64) {
            // SAFETY: nothing but a register that the compiler gave is changed.
            unsafe {
                asm!("2:", "dec {left}", "jnz 2b", left = inout(reg) steps => _);
            }
        }

        #[test]
        #[ignore = "the other test has it counted"]
        fn calls() {
            for steps in [STEPS, 2 * STEPS, STEPS] {
                take(7 * STEPS); // outside
                counted(&mut || take(steps));
            }
            take(7 * STEPS);
            counted(&mut || ());
        }

        #[test]
        fn all_that_runs_inside_is_counted_and_nothing_outside() {
            if !emulated() {
                return;
            }
            let calls = "measure::emulator::tests::known::calls";
            let words = ["--exact", calls, "--ignored", "--test-threads=1"];
            let counts = counts(&words).expect("it runs").expect("it is installed");
            let [once, twice, again, nothing] = counts.instructions[..] else {
                panic!("four calls are counted {:?}", counts.instructions);
            };
            assert_eq!(twice - once, 2 * STEPS);
            assert_eq!(again, once);
            assert!((2 * STEPS..2 * STEPS + BESIDE).contains(&once), "{once}");
            assert!((1..BESIDE).contains(&nothing), "{nothing}");
        }
    }
}
