//! Measuring calls: their time, their stack and their instructions, and the size
//! of the archive that holds them.

pub mod callgrind;
pub mod clock;
pub mod emulator;
pub mod instructions;
pub mod objects;
#[cfg(target_arch = "x86_64")]
pub mod stack;
