//! The numbers of the papers that stand in more than one place, each named once; at the end, those of docs/FORMATS.md.

use std::ops::Range;

// Bounds

/// "segments N, 1 to 62": so many segment records there are, used or not.
pub const SEGMENTS: u8 = 62;
/// "routes R, 1 to 30": so many route records.
pub const ROUTES: u8 = 30;
/// "count 1 to 31, then the segment numbers": a route's segments, at the most.
pub const ROUTE_SEGMENTS: u8 = 31;
/// 13 train: "number not 1 to 24".
pub const TRAINS: u8 = 24;
/// "with 24 wishes"
pub const WISHES: usize = 24;

/// The bounds that R-3 of document 02 widens: "Rules 4 and 6 read the new bounds", and no other rule does.
#[derive(Clone, Copy, PartialEq, Eq, Debug)]
pub struct Bounds {
    /// the greatest `gmax`
    pub top_speed: u16,
    /// the greatest `d`, and the greatest length
    pub longest: u32,
}

impl Bounds {
    /// "`gmax`, 1 to 1000"; "`d`, 1 to 1,000,000"; of a length: "over 1,000,000".
    pub const DOCUMENT_01: Bounds = Bounds { top_speed: 1000, longest: 1_000_000 };
    /// In force: "`gmax` may be 1 to 2000; `d` and lengths may be up to 4,000,000."
    pub const DOCUMENT_02: Bounds = Bounds { top_speed: 2000, longest: 4_000_000 };
}

/// The bounds in force.
pub const TOP_SPEED: u16 = Bounds::DOCUMENT_02.top_speed;
pub const LONGEST: u32 = Bounds::DOCUMENT_02.longest;

/// A train's count, of document 02: "stops at 65,535".
pub const LAST_COUNT: u16 = 65_535;
/// A train's length, of document 02: "1 to 20,000 decimetres".
pub const LONGEST_TRAIN: u16 = 20_000;

// The area file

/// "Five blocks of 512 bytes"
pub const BLOCKS: usize = 5;
pub const BLOCK_SIZE: usize = 512;
/// 1 size: "file not 2,560 bytes"; 22 of document 02: "the buffer isn't 2,560 bytes".
pub const FILE_SIZE: usize = 2560;

// "Tail of each: byte 496 kind, 497 block number 0 to 4, 498 to 509 zero, 510 and 511 the check."
pub const KIND_AT: usize = 496;
pub const BLOCK_NUMBER_AT: usize = 497;
pub const TAIL_ZEROS: Range<usize> = 498..510;
pub const CHECK_AT: usize = 510;

// "byte 0 version 1; byte 1 segments N ..; byte 2 routes R ..; byte 3 zero; 4-5 `gmax` ..; 6-7 `b` ..; 8-11 `d` ..; 12-495 zero."
pub const VERSION_AT: usize = 0;
pub const N_AT: usize = 1;
pub const R_AT: usize = 2;
pub const ZERO_AT: usize = 3;
pub const GMAX_AT: usize = 4;
pub const B_AT: usize = 6;
pub const D_AT: usize = 8;
pub const HEADER_ZEROS: Range<usize> = 12..496;

/// "Segment record, 16 bytes, 31 a block"
pub const SEGMENT_SIZE: usize = 16;
pub const SEGMENTS_A_BLOCK: usize = 31;

// "length (4 bytes), limit (2), two next links, two previous links (a byte each ..), flags .., five zeros."
pub const LENGTH_AT: usize = 0;
pub const LIMIT_AT: usize = 4;
pub const NEXT_AT: usize = 6;
pub const PREVIOUS_AT: usize = 8;
pub const FLAGS_AT: usize = 10;
pub const SEGMENT_ZEROS: Range<usize> = 11..16;

/// "Route record, 32 bytes, 15 a block"
pub const ROUTE_SIZE: usize = 32;
pub const ROUTES_A_BLOCK: usize = 15;
/// "Bytes 480 to 495 of a route block are zero."
pub const ROUTE_BLOCK_ZEROS: Range<usize> = 480..496;

// docs/FORMATS.md: the script

/// Items of 16 bits a call.
pub const ITEMS: usize = 32;
/// So many wishes a call has room for.
pub const MOST_WISHES: usize = 25;

// docs/FORMATS.md: the state

/// The bytes of a state: the step due, an allocation a segment, a zero, and the trains.
pub const STATE_SIZE: usize = 832;
pub const STATE_ALLOCATIONS: Range<usize> = 1..63;
pub const STATE_TRAINS_AT: usize = 64;
pub const STATE_TRAIN_SIZE: usize = 32;
