//! The functions of librbu.a, as include/rbu.h declares them.
//!
//! What they ask of a caller: each pointer is aligned and lends as many entries as are said for the time of the call, and what is
//! written overlaps nothing else. A reference is such a pointer, and a slice such a pointer with its length; those that are written are
//! `&mut`, so nothing overlaps them. Any numbers may stand there. What the functions write are numbers of the types that are declared,
//! and a bool that they return is 0 or 1.

use crate::Record;

#[link(name = "rbu", kind = "static")]
extern "C" {
    pub fn rbu_start(area: *mut Record, file: *const u8, file_length: usize, place: *mut u16) -> u8;
    pub fn rbu_enter(area: *mut Record, train: u16, route: u16, speed: u16, length: u16) -> u8;
    pub fn rbu_leave(area: *mut Record, train: u16) -> u8;
    pub fn rbu_speed(area: *mut Record, wishes: *const u16, count: usize) -> u8;
    pub fn rbu_request(area: *mut Record) -> u8;
    pub fn rbu_grant(area: *mut Record) -> u8;
    pub fn rbu_position(area: *mut Record) -> u8;
    pub fn rbu_report(area: *const Record, allocated: *mut u8, free_segment: *mut u8) -> u8;
    pub fn rbu_is_sound(area: *const Record) -> bool;
    pub fn rbu_write(area: *const Record, buffer: *mut u8, buffer_length: usize) -> u8;
    pub fn rbu_load(file: *const u8, file_length: usize, place: *mut u16) -> u8;
    pub fn rbu_view(file: *const u8, file_length: usize, route: u16, start: *mut u32, count: *mut u32);
    pub fn rbu_run_file(
        file: *const u8,
        file_length: usize,
        script: *const u16,
        script_length: usize,
        answers: *mut u8,
        answers_length: usize,
        state: *mut u8,
        state_length: usize,
        number: *mut u8,
        place: *mut u16,
    ) -> usize;
    pub fn rbu_run_record(
        file: *const u8,
        file_length: usize,
        script: *const u16,
        script_length: usize,
        answers: *mut u8,
        answers_length: usize,
        state: *mut u8,
        state_length: usize,
    ) -> usize;
    pub fn rbu_sound(file: *const u8, file_length: usize, state: *const u8, state_length: usize) -> bool;
    pub fn rbu_report_record(
        file: *const u8,
        file_length: usize,
        state: *const u8,
        state_length: usize,
        allocated: *mut u8,
        free_segment: *mut u8,
    ) -> u8;
    pub fn rbu_write_record(
        file: *const u8,
        file_length: usize,
        state: *const u8,
        state_length: usize,
        buffer: *mut u8,
        buffer_length: usize,
    ) -> u8;
    pub fn rbu_braking_distance(rate: u16, speed: u16) -> u32;
}
