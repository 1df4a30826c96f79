//! Request R-1 of document 02: "Send the area file back out."
//!
//! "From a sound area record, write its tables as 2,560 bytes into a lent buffer; trains aren't written. Loading that file gives those
//! tables, and an accepted file, loaded and written, comes out the same byte for byte."

use crate::file::{route_start, segment_start, KINDS};
use crate::numbers::*;
use crate::record::{sound, Record};
use crate::tables::Tables;
use crate::write::{put, put_checks};

/// "Turned away: 22, the buffer isn't 2,560 bytes, after 11; either refusal leaves the buffer untouched." The answer's number.
pub fn send(record: &Record, buffer: &mut [u8]) -> u8 {
    // 11 "the area record breaks a condition"
    if !sound(record) {
        return 11;
    }
    // 22 "the buffer isn't 2,560 bytes"
    if buffer.len() != FILE_SIZE {
        return 22;
    }
    put_file(buffer, &record.tables);
    0
}

/// The file of tables, sound or not: every byte that they keep stands in it.
pub fn file_of(tables: &Tables) -> [u8; FILE_SIZE] {
    let mut file = [0; FILE_SIZE];
    put_file(&mut file, tables);
    file
}

/// Puts the file of tables over these 2,560 bytes, whatever they held.
fn put_file(file: &mut [u8], tables: &Tables) {
    // What is not put below is one of the zeros: "byte 3 zero"; "12-495 zero"; "five zeros" of a segment; "Bytes 480 to 495 of a route
    // block are zero"; of each tail "498 to 509 zero".
    file.fill(0);
    // "Header: byte 0 version 1; byte 1 segments N ..; byte 2 routes R ..; 4-5 `gmax` ..; 6-7 `b` ..; 8-11 `d`"
    // reading: the tables keep no version, since every accepted file has version 1; so that one is written.
    file[VERSION_AT] = 1;
    file[N_AT] = tables.n;
    file[R_AT] = tables.r;
    put(file, GMAX_AT, &tables.gmax.to_le_bytes());
    put(file, B_AT, &tables.b.to_le_bytes());
    put(file, D_AT, &tables.d.to_le_bytes());
    // All records are written: "a record above N not all zero" and "a record above R not all zero" are in no sound record.
    for (number, segment) in (1..).zip(&tables.segments) {
        // "length (4 bytes), limit (2), two next links, two previous links (a byte each, 0 for none), flags .., five zeros"
        let record = &mut file[segment_start(number)..][..SEGMENT_SIZE];
        put(record, LENGTH_AT, &segment.length.to_le_bytes());
        put(record, LIMIT_AT, &segment.limit.to_le_bytes());
        put(record, NEXT_AT, &segment.next);
        put(record, PREVIOUS_AT, &segment.previous);
        record[FLAGS_AT] = segment.flags;
    }
    for (number, route) in (1..).zip(&tables.routes) {
        // "count 1 to 31, then the segment numbers, rest zero"
        let record = &mut file[route_start(number)..][..ROUTE_SIZE];
        record[0] = route.count;
        put(record, 1, &route.numbers);
    }
    // "Tail of each: byte 496 kind, 497 block number 0 to 4, 498 to 509 zero, 510 and 511 the check." The checks come last, since each is
    // over all the bytes before it.
    for (number, block) in file.chunks_mut(BLOCK_SIZE).enumerate() {
        block[KIND_AT] = KINDS[number];
        block[BLOCK_NUMBER_AT] = number as u8;
    }
    put_checks(file);
}
