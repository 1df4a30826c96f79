//! The area file: "Five blocks of 512 bytes, numbers little-endian".

use crate::numbers::*;
use crate::tables::{Route, Segment, Tables};

/// "Each answer has a number and a place; the place is 0 unless named."
#[derive(Clone, Copy, PartialEq, Eq, Debug)]
pub struct Refusal {
    pub number: u8,
    pub place: u16,
}

/// "Kinds: 1 header, 2 and 2 segments, 3 and 3 routes."
pub const KINDS: [u8; BLOCKS] = [1, 2, 2, 3, 3];

/// "Check: two sums start at 0; for bytes 0 to 509, first = (first + byte) mod 255, then
/// second = (second + first) mod 255; stored first, second."
pub fn check(block: &[u8]) -> [u8; 2] {
    let (mut first, mut second) = (0u16, 0u16);
    for &byte in &block[..CHECK_AT] {
        first = (first + u16::from(byte)) % 255;
        second = (second + first) % 255;
    }
    [first as u8, second as u8]
}

/// Where segment record `number` (1 to 62) starts: "16 bytes, 31 a block, numbered from 1",
/// blocks 1 and 2.
pub fn segment_start(number: u8) -> usize {
    let before = usize::from(number) - 1;
    (1 + before / SEGMENTS_A_BLOCK) * BLOCK_SIZE + before % SEGMENTS_A_BLOCK * SEGMENT_SIZE
}

/// Where route record `number` (1 to 30) starts: "32 bytes, 15 a block, numbered from 1",
/// blocks 3 and 4.
pub fn route_start(number: u8) -> usize {
    let before = usize::from(number) - 1;
    (3 + before / ROUTES_A_BLOCK) * BLOCK_SIZE + before % ROUTES_A_BLOCK * ROUTE_SIZE
}

fn number_16(file: &[u8], at: usize) -> u16 {
    u16::from_le_bytes([file[at], file[at + 1]])
}

fn number_32(file: &[u8], at: usize) -> u32 {
    u32::from_le_bytes([file[at], file[at + 1], file[at + 2], file[at + 3]])
}

fn all_zero(bytes: &[u8]) -> bool {
    bytes.iter().all(|&byte| byte == 0)
}

/// The tables of a file of 2,560 bytes, without testing any rule. Panics if it is shorter.
pub fn decode_tables(file: &[u8]) -> Tables {
    let mut tables = Tables::ZERO;
    // "byte 1 segments N"; "byte 2 routes R"; "4-5 `gmax`"; "6-7 `b`"; "8-11 `d`"
    tables.n = file[N_AT];
    tables.r = file[R_AT];
    tables.gmax = number_16(file, GMAX_AT);
    tables.b = number_16(file, B_AT);
    tables.d = number_32(file, D_AT);
    for number in 1..=SEGMENTS {
        let at = segment_start(number);
        // "length (4 bytes), limit (2), two next links, two previous links (a byte each),
        // flags, five zeros"
        tables.segments[usize::from(number) - 1] = Segment {
            length: number_32(file, at + LENGTH_AT),
            limit: number_16(file, at + LIMIT_AT),
            next: [file[at + NEXT_AT], file[at + NEXT_AT + 1]],
            previous: [file[at + PREVIOUS_AT], file[at + PREVIOUS_AT + 1]],
            flags: file[at + FLAGS_AT],
        };
    }
    for number in 1..=ROUTES {
        let at = route_start(number);
        // "count 1 to 31, then the segment numbers, rest zero"
        let mut route = Route { count: file[at], ..Route::ZERO };
        route.numbers.copy_from_slice(&file[at + 1..at + ROUTE_SIZE]);
        tables.routes[usize::from(number) - 1] = route;
    }
    tables
}

/// 3 misfiled: "kind, block number or a zero byte (498-509; 480-495 of routes) wrong".
fn misfiled(number: usize, block: &[u8]) -> bool {
    let kind = KINDS[number];
    block[KIND_AT] != kind
        || usize::from(block[BLOCK_NUMBER_AT]) != number
        || !all_zero(&block[TAIL_ZEROS])
        || (kind == 3 && !all_zero(&block[ROUTE_BLOCK_ZEROS]))
}

/// "Load tests 1 to 10 in that order, each over the whole file." The tables of an accepted
/// file, or the first rule broken with its place.
pub fn read(file: &[u8]) -> Result<Tables, Refusal> {
    read_within(file, &Bounds::DOCUMENT_02)
}

/// The same with these bounds: with those of document 01 it is what R-3 of document 02 calls
/// "until now".
pub fn read_within(file: &[u8], bounds: &Bounds) -> Result<Tables, Refusal> {
    let refuse = |number: u8, place: usize| Err(Refusal { number, place: place as u16 });

    // 1 size: "file not 2,560 bytes"
    if file.len() != FILE_SIZE {
        return refuse(1, 0);
    }
    // 2 damaged: "a block's check differs", first block
    for (number, block) in file.chunks(BLOCK_SIZE).enumerate() {
        if check(block) != block[CHECK_AT..] {
            return refuse(2, number);
        }
    }
    // 3 misfiled, first block
    for (number, block) in file.chunks(BLOCK_SIZE).enumerate() {
        if misfiled(number, block) {
            return refuse(3, number);
        }
    }
    let tables = decode_tables(file);
    // 4 header: "version, bound or zero broken"
    if file[VERSION_AT] != 1 || file[ZERO_AT] != 0 || !all_zero(&file[HEADER_ZEROS]) || tables.breaks_4(bounds) {
        return refuse(4, 0);
    }
    // 5 margin
    if tables.breaks_5() {
        return refuse(5, 0);
    }
    // 6 segment, least record; the "five zeros" are not kept in the tables
    let zeros_broken = |number| !all_zero(&file[segment_start(number)..][SEGMENT_ZEROS]);
    if let Some(number) = (1..=SEGMENTS).find(|&number| tables.breaks_6(number, bounds) || zeros_broken(number)) {
        return refuse(6, number.into());
    }
    // 7 joint, "least segment with such a link"
    if let Some(number) = (1..=tables.n).find(|&number| tables.breaks_7(number)) {
        return refuse(7, number.into());
    }
    // 8 order, least segment
    if let Some(number) = (1..=tables.n).find(|&number| tables.breaks_8(number)) {
        return refuse(8, number.into());
    }
    // 9 drop, least segment
    // reading: "own limit" is that of the segment with the next link, and that one is the place.
    if let Some(number) = (1..=tables.n).find(|&number| tables.breaks_9(number)) {
        return refuse(9, number.into());
    }
    // 10 route, least record
    if let Some(number) = (1..=ROUTES).find(|&number| tables.breaks_10(number)) {
        return refuse(10, number.into());
    }
    Ok(tables)
}
