//! The core of the radio block unit: a safe wrapper of the functions that include/rbu.h declares.
//!
//! A running unit keeps one [`Area`]: [`Area::start`] loads it from a file, and the six calls follow as they come. After each of them,
//! refused ones included, no two trains are on one segment, and the other points hold of the repository's README.md, "What has been shown". It is proved
//! of the functions that are linked in here, for an area that `start` made.
//!
//! ```
//! # fn main() -> Result<(), rbu::Refusal> {
//! let file = include_bytes!(concat!(env!("CARGO_MANIFEST_DIR"), "/../crates/area_a/stdin"));
//! let mut area = rbu::Area::start(file)?;
//! area.enter(1, 1, 250, 6000)?;
//! area.speed(&[300; rbu::TRAINS])?;
//! area.request()?;
//! area.grant()?;
//! area.position()?;
//! assert_eq!((area.train(1).position, area.train(1).speed), (300, 300));
//! assert_eq!(area.leave(1).unwrap_err().to_string(), "20 0 no exit");
//! # Ok(())
//! # }
//! ```
//!
//! Nothing is allocated and there are no globals: the crate needs no standard library.
#![no_std]

pub mod bytes;
mod linked;
mod words;

use core::fmt;
use linked::*;

/// The bytes of an area file.
pub const FILE_SIZE: usize = 2560;
/// The bytes of a state.
pub const STATE_SIZE: usize = 832;
/// The 16-bit items of one call of a script.
pub const CALL_ITEMS: usize = 32;
/// Segments, routes and trains of an area, at the most; as many wishes as trains has a speed step.
pub const SEGMENTS: usize = 62;
pub const ROUTES: usize = 30;
pub const TRAINS: usize = 24;
/// The greatest `gmax`, in decimetres per cycle.
pub const FASTEST: u16 = 2000;
/// The greatest `d` and the greatest length of a segment, in decimetres.
pub const LONGEST: u32 = 4_000_000;
/// The greatest length of a train, in decimetres.
pub const LONGEST_TRAIN: u16 = 20_000;

// ---- answers

/// An answer other than done: load's of a file, 1 to 10, or a call's, from 11 on. The place is 0 unless load names one.
#[derive(Clone, Copy, PartialEq, Eq, Debug)]
pub struct Refusal {
    pub number: u8,
    pub place: u16,
}

impl Refusal {
    /// The word for it.
    pub fn word(&self) -> &'static str {
        words::word(self.number).unwrap_or("no such answer")
    }
}

/// `NUMBER PLACE WORD`, as `rbu check` prints it.
impl fmt::Display for Refusal {
    fn fmt(&self, f: &mut fmt::Formatter<'_>) -> fmt::Result {
        write!(f, "{} {} {}", self.number, self.place, self.word())
    }
}

impl core::error::Error for Refusal {}

/// Nothing for done, otherwise the refusal.
fn answer(number: u8, place: u16) -> Result<(), Refusal> {
    match number {
        0 => Ok(()),
        _ => Err(Refusal { number, place }),
    }
}

// ---- the record

/// A train: route and place in it, counted from 1; route 0 is a train off, which is all zero. Place and position are its front's:
/// position in its segment in decimetres; speed in decimetres per cycle; its rear lies `length` decimetres behind its front along the
/// route. `asks` is 1 between request and grant where it asks for its next segment, and 0 otherwise; `count` is at how many grant steps
/// it has asked and got nothing since it entered or was last granted a segment, 65,535 at the most.
#[repr(C)]
#[derive(Clone, Copy, PartialEq, Eq, Debug)]
pub struct Train {
    pub route: u8,
    pub place: u8,
    pub count: u16,
    pub position: u32,
    pub speed: u16,
    pub length: u16,
    pub asks: u8,
}

impl Train {
    /// A train off.
    pub const OFF: Train = Train { route: 0, place: 0, count: 0, position: 0, speed: 0, length: 0, asks: 0 };

    pub fn is_on(&self) -> bool {
        self.route != 0
    }
}

/// The tables of the file: N, R, `gmax`, `b` and `d`; then a slot for each segment, two for its next and two for its previous links,
/// and the route records of 32 bytes each, the count and then the segment numbers.
#[repr(C)]
#[derive(Clone, Copy, PartialEq, Eq, Debug)]
pub struct Tables {
    pub segments: u8,
    pub routes: u8,
    pub gmax: u16,
    pub braking: u16,
    pub margin: u32,
    pub lengths: [u32; SEGMENTS],
    pub limits: [u16; SEGMENTS],
    pub next: [u8; 2 * SEGMENTS],
    pub previous: [u8; 2 * SEGMENTS],
    pub flags: [u8; SEGMENTS],
    pub routebytes: [u8; 32 * ROUTES],
}

impl Tables {
    /// All zero.
    pub const BLANK: Tables = Tables {
        segments: 0,
        routes: 0,
        gmax: 0,
        braking: 0,
        margin: 0,
        lengths: [0; SEGMENTS],
        limits: [0; SEGMENTS],
        next: [0; 2 * SEGMENTS],
        previous: [0; 2 * SEGMENTS],
        flags: [0; SEGMENTS],
        routebytes: [0; 32 * ROUTES],
    };

    /// The segments that a route's record lists; none where the number is not 1 to 30. (A count above 31, which no accepted file has,
    /// is read as 31.)
    pub fn route(&self, number: u8) -> &[u8] {
        let record = usize::from(number).checked_sub(1).and_then(|before| self.routebytes.chunks_exact(32).nth(before));
        record.map_or(&[], |record| &record[1..][..usize::from(record[0].min(31))])
    }
}

/// A record of an area, with any contents: `struct rbu_area` of include/rbu.h. Segment s has the allocation `allocations[s - 1]`, 0 or
/// the number of the train that it is allocated to; train t is `trains[t - 1]`. The step due is 0 speed, 1 request, 2 grant,
/// 3 position.
#[repr(C)]
#[derive(Clone, Copy, PartialEq, Eq, Debug)]
pub struct Record {
    pub tables: Tables,
    pub allocations: [u8; SEGMENTS],
    pub trains: [Train; TRAINS],
    pub due: u8,
}

/// The bytes of a record.
pub const RECORD_SIZE: usize = 2108;

const _: () = assert!(size_of::<Record>() == RECORD_SIZE && align_of::<Record>() == 4, "the layout of a record");

impl Record {
    /// All zero: what a refused file leaves. It is unsound.
    pub const BLANK: Record = Record { tables: Tables::BLANK, allocations: [0; SEGMENTS], trains: [Train::OFF; TRAINS], due: 0 };
}

/// What a report tells.
#[derive(Clone, Copy, PartialEq, Eq, Debug)]
pub struct Report {
    /// how many segments are allocated
    pub allocated: u8,
    /// the least free segment, 0 if none
    pub free: u8,
}

// ---- a running unit: one area, one call at a time

/// An area that a running unit keeps: `start` or `restart` loads it, and the six calls change it.
#[derive(Clone, PartialEq, Eq, Debug)]
pub struct Area {
    record: Record,
}

impl Area {
    /// The area of a file, without trains; or the rule that the file breaks, 1 to 10, and where.
    pub fn start(file: &[u8]) -> Result<Area, Refusal> {
        let mut area = Area { record: Record::BLANK };
        area.restart(file)?;
        Ok(area)
    }

    /// Loads a file into this area. What it held before plays no part. After a refusal it is blank, and refuses every call with 11.
    pub fn restart(&mut self, file: &[u8]) -> Result<(), Refusal> {
        let (number, place) = self.restart_numbers(file);
        answer(number, place)
    }

    /// The front of the train enters at the start of the route. Arguments are tested whole: train 257 is refused. Its length, in
    /// decimetres, is 1 to [`LONGEST_TRAIN`].
    pub fn enter(&mut self, train: u16, route: u16, speed: u16, length: u16) -> Result<(), Refusal> {
        // SAFETY: the record is lent by `&mut`.
        answer(unsafe { rbu_enter(&mut self.record, train, route, speed, length) }, 0)
    }

    /// The train goes off, when the whole of it has gone by its exit: all that is allocated to it is freed.
    pub fn leave(&mut self, train: u16) -> Result<(), Refusal> {
        // SAFETY: the record is lent by `&mut`.
        answer(unsafe { rbu_leave(&mut self.record, train) }, 0)
    }

    /// The speed step. Wishes are those of all 24 trains, of train 1 first; those of trains off are ignored.
    pub fn speed(&mut self, wishes: &[u16]) -> Result<(), Refusal> {
        // SAFETY: the record is lent by `&mut`, the wishes are a slice.
        answer(unsafe { rbu_speed(&mut self.record, wishes.as_ptr(), wishes.len()) }, 0)
    }

    /// The request step: trains near their segment's end ask for their next one.
    pub fn request(&mut self) -> Result<(), Refusal> {
        // SAFETY: the record is lent by `&mut`.
        answer(unsafe { rbu_request(&mut self.record) }, 0)
    }

    /// The grant step: of the trains that ask for a free segment the one with the highest count gets it, of equal counts the higher
    /// number.
    pub fn grant(&mut self) -> Result<(), Refusal> {
        // SAFETY: the record is lent by `&mut`.
        answer(unsafe { rbu_grant(&mut self.record) }, 0)
    }

    /// The position step: trains run on by their speeds, and a segment is freed once the rear is at its end or past it.
    pub fn position(&mut self) -> Result<(), Refusal> {
        // SAFETY: the record is lent by `&mut`.
        answer(unsafe { rbu_position(&mut self.record) }, 0)
    }

    /// How many segments are allocated, and the least free one.
    pub fn report(&self) -> Result<Report, Refusal> {
        let (number, allocated, free) = self.report_numbers();
        answer(number, 0).map(|()| Report { allocated, free })
    }

    /// Writes the tables into a buffer as an area file; trains are not written. An area gives the file that it was
    /// last loaded from, byte for byte. A buffer that has not [`FILE_SIZE`] bytes is refused with 22; after a refusal it is as it was.
    pub fn write(&self, buffer: &mut [u8]) -> Result<(), Refusal> {
        // SAFETY: the record is lent by `&`, the buffer is a slice by `&mut`.
        answer(unsafe { rbu_write(&self.record, buffer.as_mut_ptr(), buffer.len()) }, 0)
    }

    /// Every condition of a sound record is met, as in any area that was started and handed on.
    pub fn is_sound(&self) -> bool {
        // SAFETY: the record is lent by `&`.
        unsafe { rbu_is_sound(&self.record) }
    }

    /// The record, to be read.
    pub fn record(&self) -> &Record {
        &self.record
    }

    pub fn tables(&self) -> &Tables {
        &self.record.tables
    }

    /// The step due: 0 speed, 1 request, 2 grant, 3 position.
    pub fn due(&self) -> u8 {
        self.record.due
    }

    /// A train by number, 1 to 24. Panics where it is another.
    pub fn train(&self, number: u8) -> &Train {
        &self.record.trains[usize::from(number) - 1]
    }

    /// The trains on, with their numbers.
    pub fn trains_on(&self) -> impl Iterator<Item = (u8, &Train)> {
        (1..).zip(&self.record.trains).filter(|(_, train)| train.is_on())
    }

    /// The segment that a train's front is on, by the train's number, 1 to 24; 0 where it is off. Panics where the number is another.
    pub fn segment_of(&self, number: u8) -> u8 {
        let train = self.train(number);
        let listed = self.record.tables.route(train.route);
        usize::from(train.place).checked_sub(1).and_then(|before| listed.get(before)).copied().unwrap_or(0)
    }

    /// The number of the train that a segment, 1 to 62, is allocated to; 0 for none. Panics where the segment is another.
    pub fn allocated_to(&self, segment: u8) -> u8 {
        self.record.allocations[usize::from(segment) - 1]
    }
}

// ---- files

/// Load's answer to a file.
pub fn load(file: &[u8]) -> Result<(), Refusal> {
    let (number, place) = bytes::load(file);
    answer(number, place)
}

/// The part of the file that lists the segments of a route; empty where load refuses the file or it has no such route.
pub fn view(file: &[u8], route: u16) -> &[u8] {
    let (start, count) = bytes::view(file, route);
    &file[start as usize..][..count as usize]
}

// ---- a list of calls from a file

/// Runs a script from a file: how many calls were run, or load's refusal. The answers' numbers go to `answers`, one byte each, and the
/// state after them to `state`, as far as they have room; where load refuses, both are as they were.
pub fn run_file(file: &[u8], script: &[u16], answers: &mut [u8], state: &mut [u8]) -> Result<usize, Refusal> {
    let ((number, place), calls) = bytes::run_file(file, script, answers, state);
    answer(number, place).map(|()| calls)
}

// ---- braking

/// The way run until standstill, in decimetres, from a speed in decimetres per cycle, at full braking that takes `rate` off it each
/// cycle; 0 at a rate of 0.
pub fn braking_distance(rate: u16, speed: u16) -> u32 {
    // SAFETY: it is handed numbers alone.
    unsafe { rbu_braking_distance(rate, speed) }
}

// ---- for the comparison: any record at all, of which the claim says nothing, and answers as the numbers that the core tells; `bytes`
// has more of it

/// What a number that is to be written holds before: no answer's, so that it shows where it is not written.
const UNWRITTEN: u8 = 0xee;

impl Area {
    /// The area with this record, sound or not.
    pub fn of_record(record: Record) -> Area {
        Area { record }
    }

    /// Overwrites bytes of the record from one on, of 0 to 2,107, those between the fields too. Panics where they go beyond.
    pub fn overwrite(&mut self, from: usize, bytes: &[u8]) {
        assert!(bytes.len() <= RECORD_SIZE && from <= RECORD_SIZE - bytes.len(), "a record has {RECORD_SIZE} bytes");
        let record: *mut Record = &mut self.record;
        // SAFETY: the bytes are within the record, which is lent by `&mut`, and its fields are numbers, for which any bytes will do.
        unsafe { record.cast::<u8>().add(from).copy_from_nonoverlapping(bytes.as_ptr(), bytes.len()) }
    }

    /// As `restart`: number and place of load's answer, 0 and 0 for done.
    pub fn restart_numbers(&mut self, file: &[u8]) -> (u8, u16) {
        let mut place = UNWRITTEN.into();
        // SAFETY: the record and the place are lent by `&mut`, the file is a slice.
        let number = unsafe { rbu_start(&mut self.record, file.as_ptr(), file.len(), &mut place) };
        (number, place)
    }

    /// As `report`: the number of the answer, and the report's two numbers, which are told with a refusal too.
    pub fn report_numbers(&self) -> (u8, u8, u8) {
        let (mut allocated, mut free) = (UNWRITTEN, UNWRITTEN);
        // SAFETY: the record is lent by `&`, the two numbers by `&mut`.
        let number = unsafe { rbu_report(&self.record, &mut allocated, &mut free) };
        (number, allocated, free)
    }
}
