//! Makes area files.
//!
//!     areas NAME          writes one file to standard output; `areas list` names them
//!     areas verdicts      writes, for each file, its name and what `rbu check` must print of it
//!     areas entries       writes, for each file on which `area_a` is refused an entry, its name and the line that it must print
//!
//! Each file is Area A of document 01 with one thing changed, but for `full`, which has every segment and every route, for `ore_line`,
//! which goes on after Area A's merge, and for `fast_line` and those at the bounds of R-3 of document 02, which have Area A's shape with
//! speeds and lengths that fit.
#![no_main]
use reference::file::{route_start, segment_start};
use reference::*;
use std::ffi::c_int;

fn planned(change: impl Fn(&mut Description)) -> Vec<u8> {
    let mut plan = area_a();
    change(&mut plan);
    plan.file()
}

/// The file with the check of each block set right.
fn sealed(mut file: Vec<u8>) -> Vec<u8> {
    put_checks(&mut file);
    file
}

/// Area A with one byte changed and the checks set right.
fn patched(at: usize, byte: u8) -> Vec<u8> {
    sealed(damaged(at, byte))
}

/// Area A with one byte changed after the checks were set.
fn damaged(at: usize, byte: u8) -> Vec<u8> {
    let mut file = area_a().file();
    file[at] = byte;
    file
}

/// A line at 180 km/h, which is 2000 decimetres in a cycle of four seconds; a cycle of full braking takes 100 off.
fn fast_line() -> Description {
    let mut line = like_area_a(TOP_SPEED, 100, 21_000);
    for (segment, (length, limit)) in line.segments.iter_mut().zip([(40_000, 2000), (35_000, 1900), (50_000, 1900)]) {
        (segment.length, segment.limit) = (length, limit);
    }
    line
}

/// Every file, with what `rbu check` must print of it: number, place and word of the answer, and the counts of an accepted one.
fn files() -> Vec<(&'static str, Vec<u8>, &'static str)> {
    let a = area_a().file();
    let mut longer = a.clone();
    longer.push(0);
    let mut two_wrong = patched(KIND_AT, 9);
    two_wrong[4 * BLOCK_SIZE + CHECK_AT] ^= 1;
    let mut zero_then_length = area_a().file();
    zero_then_length[segment_start(1) + SEGMENT_ZEROS.start] = 1;
    zero_then_length[segment_start(2)..][..4].copy_from_slice(&4950u32.to_le_bytes());
    let mut length_then_zero = area_a().file();
    length_then_zero[segment_start(1)..][..4].copy_from_slice(&4950u32.to_le_bytes());
    length_then_zero[segment_start(2) + SEGMENT_ZEROS.start] = 1;
    // a block whose first sum comes to 255, which is 0, and is stored as 255
    let mut stored_255 = patched(2 * BLOCK_SIZE + 100, 251);
    assert_eq!(stored_255[2 * BLOCK_SIZE + CHECK_AT], 0);
    stored_255[2 * BLOCK_SIZE + CHECK_AT] = 255;
    // all lengths are 4,000,000, which is above d + gmax with a `d` one less
    let margin_3999999 = Description { d: LONGEST - 1, ..like_area_a(1, 1, LONGEST - 2) };
    vec![
        ("area_a", a.clone(), "0 0 done, 3 segments, 2 routes"),
        ("full", full_area().file(), "0 0 done, 62 segments, 30 routes"),
        ("fast_line", fast_line().file(), "0 0 done, 3 segments, 2 routes"),
        ("ore_line", ore_line().file(), "0 0 done, 4 segments, 2 routes"),
        ("no_entry", planned(|p| p.segments[1].flags = 0), "0 0 done, 3 segments, 2 routes"),
        ("one_entry", planned(|p| p.routes[1] = vec![1, 3]), "0 0 done, 3 segments, 2 routes"),
        ("limit_249", planned(|p| p.segments[0].limit = 249), "0 0 done, 3 segments, 2 routes"),
        ("single_route", planned(|p| p.routes.truncate(1)), "0 0 done, 3 segments, 1 route"),
        ("empty", vec![], "1 0 size"),
        ("shorter", a[..FILE_SIZE - 1].to_vec(), "1 0 size"),
        ("longer", longer, "1 0 size"),
        ("byte_600", damaged(600, 1), "2 1 damaged"),
        ("second_sum", damaged(CHECK_AT + 1, a[CHECK_AT + 1] ^ 1), "2 0 damaged"),
        ("check_stored_as_255", stored_255, "2 2 damaged"),
        ("kind_and_check", two_wrong, "2 4 damaged"),
        ("kind", patched(KIND_AT, 9), "3 0 misfiled"),
        ("block_number", patched(4 * BLOCK_SIZE + BLOCK_NUMBER_AT, 3), "3 4 misfiled"),
        ("tail_zero", patched(BLOCK_SIZE + TAIL_ZEROS.end - 1, 1), "3 1 misfiled"),
        ("route_block_zero", patched(3 * BLOCK_SIZE + ROUTE_BLOCK_ZEROS.start, 1), "3 3 misfiled"),
        ("version", patched(VERSION_AT, 2), "4 0 header"),
        ("header_byte_3", patched(ZERO_AT, 1), "4 0 header"),
        ("header_zero", patched(HEADER_ZEROS.end - 1, 1), "4 0 header"),
        ("no_segments", patched(N_AT, 0), "4 0 header"),
        ("segments_63", patched(N_AT, SEGMENTS + 1), "4 0 header"),
        ("no_routes", patched(R_AT, 0), "4 0 header"),
        ("routes_31", patched(R_AT, ROUTES + 1), "4 0 header"),
        ("gmax_1001", like_area_a(1001, 1001, 1001).file(), "0 0 done, 3 segments, 2 routes"),
        ("gmax_2000", like_area_a(TOP_SPEED, 10, 201_000).file(), "0 0 done, 3 segments, 2 routes"),
        ("gmax_2001", like_area_a(TOP_SPEED + 1, 10, 201_201).file(), "4 0 header"),
        ("no_braking", planned(|p| p.b = 0), "4 0 header"),
        ("braking_301", planned(|p| p.b = 301), "4 0 header"),
        ("margin_1000001", like_area_a(300, 10, 1_000_001).file(), "0 0 done, 3 segments, 2 routes"),
        ("margin_3999998", like_area_a(1, 1, LONGEST - 2).file(), "0 0 done, 3 segments, 2 routes"),
        ("margin_3999999", margin_3999999.file(), "6 1 segment"),
        ("margin_4000000", planned(|p| p.d = LONGEST), "6 1 segment"),
        ("margin_4000001", planned(|p| p.d = LONGEST + 1), "4 0 header"),
        ("margin_4649", planned(|p| p.d = 4649), "5 0 margin"),
        ("margin_2000999", like_area_a(TOP_SPEED, 1, 2_000_999).file(), "5 0 margin"),
        ("margin_2001000", like_area_a(TOP_SPEED, 1, 2_001_000).file(), "0 0 done, 3 segments, 2 routes"),
        ("two_segments", patched(N_AT, 2), "6 1 segment"),
        ("length_4950", planned(|p| p.segments[1].length = 4950), "6 2 segment"),
        ("length_4951", planned(|p| p.segments[1].length = 4951), "0 0 done, 3 segments, 2 routes"),
        ("length_1000000", planned(|p| p.segments[2].length = 1_000_000), "0 0 done, 3 segments, 2 routes"),
        ("length_1000001", planned(|p| p.segments[2].length = 1_000_001), "0 0 done, 3 segments, 2 routes"),
        ("length_4000000", planned(|p| p.segments[2].length = LONGEST), "0 0 done, 3 segments, 2 routes"),
        ("length_4000001", planned(|p| p.segments[2].length = LONGEST + 1), "6 3 segment"),
        ("limit_0", planned(|p| p.segments[0].limit = 0), "6 1 segment"),
        ("limit_301", planned(|p| p.segments[0].limit = 301), "6 1 segment"),
        ("link_4", planned(|p| p.segments[2].next = [4, 0]), "6 3 segment"),
        ("same_links", planned(|p| p.segments[2].previous = [1, 1]), "6 3 segment"),
        ("second_link_alone", planned(|p| p.segments[2].previous = [0, 2]), "6 3 segment"),
        ("flags_4", planned(|p| p.segments[2].flags = 4), "6 3 segment"),
        ("record_62", patched(segment_start(SEGMENTS) + FLAGS_AT, 1), "6 62 segment"),
        ("zero_then_length", sealed(zero_then_length), "6 1 segment"),
        ("length_then_zero", sealed(length_then_zero), "6 1 segment"),
        ("previous_missing", planned(|p| p.segments[2].previous = [2, 0]), "7 1 joint"),
        ("next_missing", planned(|p| p.segments[1].next = [0, 0]), "7 3 joint"),
        (
            "back_link",
            planned(|p| {
                p.segments[2].next = [1, 0];
                p.segments[0].previous = [3, 0];
            }),
            "8 3 order",
        ),
        (
            "own_link",
            planned(|p| {
                p.segments[0].next = [3, 1];
                p.segments[0].previous = [1, 0];
            }),
            "8 1 order",
        ),
        ("limit_289", planned(|p| p.segments[2].limit = 289), "9 1 drop"),
        ("one_route", patched(R_AT, 1), "10 2 route"),
        ("route_backwards", planned(|p| p.routes[1] = vec![3, 2]), "10 2 route"),
        ("route_number_4", planned(|p| p.routes[1] = vec![2, 4]), "10 2 route"),
        ("route_number_0", planned(|p| p.routes[0] = vec![0, 3]), "10 1 route"),
        ("route_count_0", planned(|p| p.routes[1] = vec![]), "10 2 route"),
        ("route_count_32", patched(route_start(1), ROUTE_SEGMENTS + 1), "10 1 route"),
        ("route_30_last_byte", patched(route_start(ROUTES) + ROUTE_SIZE - 1, 1), "10 30 route"),
    ]
}

/// The accepted files on which an entry of `area_a` is refused, with the line that it must print.
const ENTRIES: [(&str, &str); 5] = [
    ("no_entry", "enter of train 2: 17 0 no entry"),
    ("one_entry", "enter of train 2: 18 0 taken"),
    ("limit_249", "enter of train 1: 19 0 too fast"),
    ("single_route", "enter of train 2: 16 0 route number"),
    ("margin_3999998", "enter of train 1: 19 0 too fast"),
];

fn areas() -> Result<(), String> {
    let named = |text: &mut dyn Iterator<Item = String>| text.collect::<String>().into_bytes();
    let wanted = std::env::args_os().nth(1).unwrap_or_else(|| "list".into());
    let wanted = wanted.to_string_lossy();
    streams::write_output(&match &*wanted {
        "list" => named(&mut files().iter().map(|(name, _, _)| format!("{name}\n"))),
        "verdicts" => named(&mut files().iter().map(|(name, _, says)| format!("{name} {says}\n"))),
        "entries" => named(&mut ENTRIES.iter().map(|(name, says)| format!("{name} {says}\n"))),
        _ => match files().into_iter().find(|(name, _, _)| *name == wanted) {
            Some((_, file, _)) => file,
            None => return Err(format!("there is no file named {wanted}; 'areas list' names them")),
        },
    })
}

#[no_mangle]
pub extern "C" fn main() -> c_int {
    streams::status("areas", areas())
}
