//! For the comparison: the functions over bytes, with answers as the numbers that the core tells. The layouts are in docs/FORMATS.md.
//!
//! `load`, `view` and `run_file` are those of the crate. The others take any record at all: the tables are those that a file's bytes
//! spell, with no rule tested, the rest is what a state spells. Of such a record the claim says nothing.

use crate::linked::*;
use crate::UNWRITTEN;

/// Load's answer, number and place; 0 is done.
pub fn load(file: &[u8]) -> (u8, u16) {
    let mut place = UNWRITTEN.into();
    // SAFETY: the file is a slice, the place is lent by `&mut`.
    let number = unsafe { rbu_load(file.as_ptr(), file.len(), &mut place) };
    (number, place)
}

/// Start and count of a route view; both are 0 where it is empty.
pub fn view(file: &[u8], route: u16) -> (u32, u32) {
    let (mut start, mut count) = (UNWRITTEN.into(), UNWRITTEN.into());
    // SAFETY: the file is a slice, the two numbers are lent by `&mut`.
    unsafe { rbu_view(file.as_ptr(), file.len(), route, &mut start, &mut count) };
    (start, count)
}

/// Load's answer and how many calls were run; answers and state are written unless load refused.
pub fn run_file(file: &[u8], script: &[u16], answers: &mut [u8], state: &mut [u8]) -> ((u8, u16), usize) {
    let (mut number, mut place) = (UNWRITTEN, UNWRITTEN.into());
    // SAFETY: all four are slices, those that are written by `&mut`, as are number and place.
    let calls = unsafe {
        rbu_run_file(
            file.as_ptr(),
            file.len(),
            script.as_ptr(),
            script.len(),
            answers.as_mut_ptr(),
            answers.len(),
            state.as_mut_ptr(),
            state.len(),
            &mut number,
            &mut place,
        )
    };
    ((number, place), calls)
}

/// Runs a script from any record: how many calls were run. The state after them is written to `state`.
pub fn run_record(file: &[u8], script: &[u16], answers: &mut [u8], state: &mut [u8]) -> usize {
    // SAFETY: all four are slices, those that are written by `&mut`.
    unsafe {
        rbu_run_record(
            file.as_ptr(),
            file.len(),
            script.as_ptr(),
            script.len(),
            answers.as_mut_ptr(),
            answers.len(),
            state.as_mut_ptr(),
            state.len(),
        )
    }
}

/// Any record's soundness.
pub fn sound(file: &[u8], state: &[u8]) -> bool {
    // SAFETY: both are slices.
    unsafe { rbu_sound(file.as_ptr(), file.len(), state.as_ptr(), state.len()) }
}

/// Any record's report, as by [`crate::Area::report_numbers`].
pub fn report_record(file: &[u8], state: &[u8]) -> (u8, u8, u8) {
    let (mut allocated, mut free) = (UNWRITTEN, UNWRITTEN);
    // SAFETY: both are slices, the two numbers are lent by `&mut`.
    let number = unsafe { rbu_report_record(file.as_ptr(), file.len(), state.as_ptr(), state.len(), &mut allocated, &mut free) };
    (number, allocated, free)
}

/// Writes the tables of any record as a file into a buffer: the number of the answer. The buffer is as it was unless that is 0.
pub fn write_record(file: &[u8], state: &[u8], buffer: &mut [u8]) -> u8 {
    // SAFETY: all three are slices, the one that is written by `&mut`.
    unsafe { rbu_write_record(file.as_ptr(), file.len(), state.as_ptr(), state.len(), buffer.as_mut_ptr(), buffer.len()) }
}
