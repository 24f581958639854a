//! The memory of a process, as the system tells it.

use std::error::Error;
use std::fs;

/// The most memory that a process has taken since it began, in octets.
#[derive(Clone, Copy, Debug)]
pub struct Memory {
    /// Addresses it had, used or not.
    pub addressed: usize,
    /// Of them, what lay in the machine's memory.
    pub resident: usize,
}

impl Memory {
    pub(super) fn of_process(number: u32) -> Result<Self, Box<dyn Error>> {
        let status = fs::read_to_string(format!("/proc/{number}/status"))?;
        Memory::told(&status).ok_or_else(|| "the system does not tell a process's memory".into())
    }

    /// From the lines of the system's own text on a process.
    fn told(status: &str) -> Option<Self> {
        let octets = |name: &str| {
            let told = status.lines().find_map(|line| line.strip_prefix(name))?;
            let kilo: usize = told.trim().strip_suffix(" kB")?.parse().ok()?;
            Some(1024 * kilo)
        };
        Some(Memory {
            addressed: octets("VmPeak:")?,
            resident: octets("VmHWM:")?,
        })
    }
}

#[cfg(test)]
mod tests {
    use super::*;

    #[test]
    fn memory_is_told_in_thousands() {
        let status = "Name:\tcat\nVmPeak:\t    5608 kB\nVmSize:\t 1 kB\nVmHWM:\t  1700 kB\n";
        let memory = Memory::told(status).expect("both are there");
        assert_eq!(memory.addressed, 5608 * 1024);
        assert_eq!(memory.resident, 1700 * 1024);
        assert!(Memory::told("Name:\tcat\n").is_none());
    }
}
