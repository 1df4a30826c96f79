//! Standard output of the maker of area files, with no failure passed over.
//!
//! The library's own start opens the empty device in the place of a closed output, and its handle takes a closed output for one that was
//! written to. So this command has a `main` of its own, and writes through a file.

use std::ffi::c_int;
use std::fs::File;
use std::io::Write;
use std::os::fd::AsFd;

/// Writes all of these bytes to standard output.
pub fn write_output(bytes: &[u8]) -> Result<(), String> {
    let write = || File::from(std::io::stdout().as_fd().try_clone_to_owned()?).write_all(bytes);
    write().map_err(|wrong| format!("the output cannot be written: {wrong}"))
}

/// The exit status of a command: 0, or 1 once it has said what is wrong. Where that cannot be written either, the status has to do.
pub fn status(command: &str, result: Result<(), String>) -> c_int {
    match result {
        Ok(()) => 0,
        Err(wrong) => {
            let _ = writeln!(std::io::stderr(), "{command}: {wrong}");
            1
        }
    }
}
