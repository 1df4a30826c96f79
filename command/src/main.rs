//! `rbu`, with a `main` of its own: src/streams.rs says why.
#![no_main]
use rbu_command::streams::{say, Failure, Status};
use rbu_command::subcommands;
use std::ffi::{c_int, OsString};

extern "C" {
    fn signal(number: c_int, handler: usize) -> usize;
}

/// The signal of a file that has come to the size that is allowed; ignored, so that the write fails and its reason is told.
const SIGXFSZ: c_int = 25;
const IGNORE: usize = 1;

#[no_mangle]
pub extern "C" fn main() -> c_int {
    // SAFETY: it is the C library's function, with the numbers that it has on Linux.
    unsafe { signal(SIGXFSZ, IGNORE) };
    let words: Vec<OsString> = std::env::args_os().skip(1).collect();
    let status = match subcommands::run(&words) {
        Ok(status) => status,
        Err(Failure::Because(reason)) => {
            say(format!("rbu: {reason}"));
            Status::Failed
        }
        Err(Failure::Unread) => Status::Failed,
    };
    status as c_int
}
