//! Where things lie in an area file (docs/FORMATS.md). Bytes and blocks are counted from 0, records from 1.
use std::ops::Range;

pub const BLOCK_SIZE: usize = 512;

// the tail of each block
pub const KIND_AT: usize = 496;
pub const NUMBER_AT: usize = 497;
pub const TAIL_ZEROS: Range<usize> = 498..510;
pub const CHECK_AT: usize = 510;
/// The kind of each block: the header, two of segments, two of routes.
pub const KINDS: [u8; 5] = [1, 2, 2, 3, 3];
/// The zeros before the tail of a route block.
pub const ROUTE_BLOCK_ZEROS: Range<usize> = 480..496;

// the header
pub const VERSION_AT: usize = 0;
pub const N_AT: usize = 1;
pub const R_AT: usize = 2;
pub const ZERO_AT: usize = 3;
pub const GMAX_AT: usize = 4;
pub const B_AT: usize = 6;
pub const D_AT: usize = 8;
pub const HEADER_ZEROS: Range<usize> = 12..496;
pub const VERSION: u8 = 1;

// a segment record
pub const SEGMENT_SIZE: usize = 16;
pub const LENGTH_AT: usize = 0;
pub const LIMIT_AT: usize = 4;
pub const NEXT_AT: usize = 6;
pub const PREVIOUS_AT: usize = 8;
pub const FLAGS_AT: usize = 10;
pub const SEGMENT_ZEROS: Range<usize> = 11..16;
pub const ENTRY: u8 = 1;
pub const EXIT: u8 = 2;

// a route record: the count, then the segments
pub const ROUTE_SIZE: usize = 32;
pub const ROUTE_SEGMENTS: usize = ROUTE_SIZE - 1;

/// The first byte of a segment's record.
pub fn segment_at(number: usize) -> usize {
    BLOCK_SIZE * (1 + (number - 1) / 31) + SEGMENT_SIZE * ((number - 1) % 31)
}

/// The first byte of a route's record.
pub fn route_at(number: usize) -> usize {
    BLOCK_SIZE * (3 + (number - 1) / 15) + ROUTE_SIZE * ((number - 1) % 15)
}

pub fn u16_at(file: &[u8], at: usize) -> u16 {
    u16::from_le_bytes([file[at], file[at + 1]])
}

pub fn u32_at(file: &[u8], at: usize) -> u32 {
    u32::from_le_bytes([file[at], file[at + 1], file[at + 2], file[at + 3]])
}

/// The check of a block: two sums over its first 510 bytes.
pub fn check_of(block: &[u8]) -> [u8; 2] {
    let (mut first, mut second) = (0u16, 0u16);
    for &byte in &block[..CHECK_AT] {
        first = (first + u16::from(byte)) % 255;
        second = (second + first) % 255;
    }
    [first as u8, second as u8]
}

/// Puts the right check on each block.
pub fn put_checks(file: &mut [u8]) {
    for block in file.chunks_exact_mut(BLOCK_SIZE) {
        let check = check_of(block);
        block[CHECK_AT..].copy_from_slice(&check);
    }
}
