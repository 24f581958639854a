//! The commands of the test package. A further one is a module in `commands`
//! and a row of `commands::ALL`.
//!
//! ```text
//! cargo test --release                     the package's own tests
//! cargo run --release -- lister PROGRAM    is PROGRAM the paper's lister?
//! cargo run --release -- captures PROGRAM  is PROGRAM the paper's lister of captures?
//! cargo run --release -- speed PROGRAM     how fast is a lister?
//! ```
//!
//! Those that try the archive liboam.a are built with the feature `archive`, and
//! OAM_ARCHIVE_DIR names its folder:
//!
//! ```text
//! cargo run --release --features archive -- writers       does it write as the paper says?
//! cargo run --release --features archive -- reading       does it read so?
//! cargo run --release --features archive -- log           does it keep the log so?
//! cargo run --release --features archive -- figures       how fast, how deep and how large is it?
//! cargo run --release --features archive -- machine       is its link machine the paper's?
//! cargo run --release --features archive -- pair          do two of its ends keep the third demand?
//! ```

mod commands;

use std::process::ExitCode;

fn main() -> ExitCode {
    match commands::run(std::env::args().skip(1)) {
        Ok(()) => ExitCode::SUCCESS,
        Err(failure) => {
            eprintln!("{failure}");
            ExitCode::FAILURE
        }
    }
}
