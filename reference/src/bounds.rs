//! Areas at the bounds of `gmax`, `d` and lengths and one past them, and records with the greatest numbers, for the comparison. What load
//! answers, and what a step makes of a record, is known from how they were made; neither program is asked.

use crate::area::{cycle, Call};
use crate::file::decode_tables;
use crate::numbers::{Bounds, LONGEST, LONGEST_TRAIN, TOP_SPEED, WISHES};
use crate::random::{area, area_with, speeds_to, Random, Speeds};
use crate::record::{RawTrain, Record, GRANT, POSITION, REQUEST, SPEED};
use crate::write::{like_area_a, Description};

// ---- areas

/// A bound, or one past it.
pub struct AtBound {
    pub name: &'static str,
    /// the number of load's answer, with the bounds in force and with those of document 01
    pub answers: [u8; 2],
    /// an area there, and the segment that an answer 6 names
    pub make: fn(&mut Random) -> (Description, u8),
}

impl AtBound {
    /// An area there, and load's two answers, each "a number and a place": of 0, 4, 5 and 6 only 6 has one.
    pub fn made(&self, random: &mut Random) -> (Description, [(u8, u16); 2]) {
        let (area, segment) = (self.make)(random);
        (area, self.answers.map(|number| (number, if number == 6 { segment.into() } else { 0 })))
    }
}

/// With this `gmax`, and lengths up to document 01's bound or to the one in force.
fn with_gmax(random: &mut Random, gmax: u16, Bounds { longest, .. }: Bounds) -> (Description, u8) {
    let lively = random.one_in(2);
    let speeds = speeds_to(random, gmax, longest, lively);
    (area_with(random, speeds, longest, lively), 1)
}

/// With these speeds, and lengths that fit, up to this one.
fn with_speeds(random: &mut Random, speeds: Speeds, longest: u32) -> (Description, u8) {
    (area_with(random, speeds, longest, false), 1)
}

/// The same, but for another `d`.
fn but_for_d(random: &mut Random, speeds: Speeds, longest: u32, d: u32) -> (Description, u8) {
    (Description { d, ..area_with(random, speeds, longest, false) }, 1)
}

/// With this `d` and a `gmax` that document 01 allows; the lengths fit.
fn with_d(random: &mut Random, d: u32) -> (Description, u8) {
    let gmax = random.edgy(1, Bounds::DOCUMENT_01.top_speed.into()) as u16;
    let b = random.edgy(1, gmax.into()) as u16;
    with_speeds(random, (gmax, b, d), LONGEST)
}

/// Any area with this `d`, above which no length is left.
fn any_but_for_d(random: &mut Random, d: u32) -> (Description, u8) {
    let lively = random.one_in(2);
    (Description { d, ..area(random, lively) }, 1)
}

/// An area that document 01 allows, but for this length of one segment.
fn with_length(random: &mut Random, length: u32) -> (Description, u8) {
    let gmax = random.edgy(1, Bounds::DOCUMENT_01.top_speed.into()) as u16;
    let (mut area, _) = with_gmax(random, gmax, Bounds::DOCUMENT_01);
    let segment = random.edgy(1, area.segments.len() as u64) as u8;
    area.segments[usize::from(segment) - 1].length = length;
    (area, segment)
}

// one to a line, as a table
#[rustfmt::skip]
pub const AT_BOUNDS: &[AtBound] = &[
    AtBound { name: "gmax 1000", answers: [0, 0], make: |r| with_gmax(r, 1000, Bounds::DOCUMENT_01) },
    AtBound { name: "gmax 1001", answers: [0, 4], make: |r| with_gmax(r, 1001, Bounds::DOCUMENT_01) },
    AtBound { name: "gmax 2000", answers: [0, 4], make: |r| with_gmax(r, 2000, Bounds::DOCUMENT_02) },
    AtBound { name: "gmax 2001", answers: [4, 4], make: |r| with_gmax(r, 2001, Bounds::DOCUMENT_02) },
    AtBound { name: "gmax 2000, b 2000", answers: [0, 4], make: |r| with_speeds(r, (2000, 2000, 2000), 4_000_000) },
    AtBound { name: "gmax 2000, b 2001", answers: [4, 4], make: |r| with_speeds(r, (2000, 2001, 2000), 4_000_000) },
    // "b = 1: S(1000) = 500500"; R-3: "b = 1 and v = 2000 gives 2,001,000"
    AtBound { name: "gmax 1000, b 1, d 500,500", answers: [0, 0], make: |r| with_speeds(r, (1000, 1, 500_500), 1_000_000) },
    AtBound { name: "gmax 1000, b 1, d 500,499", answers: [5, 5], make: |r| with_speeds(r, (1000, 1, 500_499), 1_000_000) },
    AtBound { name: "gmax 2000, b 1, d 2,001,000", answers: [0, 4], make: |r| with_speeds(r, (2000, 1, 2_001_000), 4_000_000) },
    AtBound { name: "gmax 2000, b 1, d 2,000,999", answers: [5, 4], make: |r| with_speeds(r, (2000, 1, 2_000_999), 4_000_000) },
    AtBound { name: "length 1,000,000", answers: [0, 0], make: |r| with_length(r, 1_000_000) },
    AtBound { name: "length 1,000,001", answers: [0, 6], make: |r| with_length(r, 1_000_001) },
    AtBound { name: "length 4,000,000", answers: [0, 6], make: |r| with_length(r, 4_000_000) },
    AtBound { name: "length 4,000,001", answers: [6, 6], make: |r| with_length(r, 4_000_001) },
    AtBound { name: "d 1,000,000", answers: [0, 6], make: |r| with_d(r, 1_000_000) },
    AtBound { name: "d 1,000,001", answers: [0, 4], make: |r| with_d(r, 1_000_001) },
    AtBound { name: "d 4,000,000", answers: [6, 4], make: |r| any_but_for_d(r, 4_000_000) },
    AtBound { name: "d 4,000,001", answers: [4, 4], make: |r| any_but_for_d(r, 4_000_001) },
    // one length is left above d + gmax, and none with a greater `d`
    AtBound { name: "gmax 1, d 999,998, lengths 1,000,000", answers: [0, 0], make: |r| with_speeds(r, (1, 1, 999_998), 1_000_000) },
    AtBound { name: "gmax 1, d 3,999,998, lengths 4,000,000", answers: [0, 4], make: |r| with_speeds(r, (1, 1, 3_999_998), 4_000_000) },
    AtBound { name: "gmax 1, d 3,999,999, lengths 4,000,000", answers: [6, 4], make: |r| but_for_d(r, (1, 1, 3_999_998), 4_000_000, 3_999_999) },
    AtBound { name: "gmax 2000, d 3,997,999, lengths 4,000,000", answers: [0, 4], make: |r| with_speeds(r, (2000, 1, 3_997_999), 4_000_000) },
    AtBound { name: "gmax 2000, d 3,998,000, lengths 4,000,000", answers: [6, 4], make: |r| but_for_d(r, (2000, 1, 3_997_999), 4_000_000, 3_998_000) },
];

// ---- records

/// A train on segment 1 of Area A's shape by route 1, every length 4,000,000 and every limit `gmax`, and what the step due makes of it,
/// with all wishes 2000.
pub struct Greatest {
    pub name: &'static str,
    pub speeds: Speeds,
    pub due: u8,
    pub before: Stand,
    /// none where the record is unsound
    pub after: Option<Stand>,
}

/// The train's length, where its front is, whether it asks for segment 3 or has it, and whether segment 1 is allocated to it.
#[derive(Clone, Copy)]
pub struct Stand {
    pub length: u16,
    pub place: u8,
    pub position: u32,
    pub speed: u16,
    pub asks: bool,
    pub has_3: bool,
    pub has_1: bool,
}

impl Greatest {
    pub fn area(&self) -> Description {
        let (gmax, b, d) = self.speeds;
        let mut area = like_area_a(gmax, b, d);
        area.segments.iter_mut().for_each(|segment| segment.length = LONGEST);
        area
    }

    pub fn call(&self) -> Call<'static> {
        cycle(&[TOP_SPEED; WISHES])[usize::from(self.due)]
    }

    /// The record with this train, the number of the step's answer, and the record that it hands back.
    pub fn records(&self, number: u8) -> (Record, u8, Record) {
        let tables = decode_tables(&self.area().file());
        let record = |due: u8, stand: &Stand| {
            let mut record = Record { due, ..Record::loaded(tables) };
            let &Stand { length, place, position, speed, asks, has_3, has_1 } = stand;
            record.trains[usize::from(number) - 1] = RawTrain { route: 1, place, position, speed, asks: asks.into(), count: 0, length };
            for (segment, has_it) in [has_1, false, has_3].into_iter().enumerate() {
                record.allocations[segment] = if has_it { number } else { 0 };
            }
            record
        };
        let before = record(self.due, &self.before);
        match &self.after {
            None => (before, 11, before),
            Some(after) => (before, 0, record((self.due + 1) % 4, after)),
        }
    }
}

/// A train of length 1 on segment 1, on segment 1 with segment 3, asking for segment 3, and on segment 3.
const fn on_1(position: u32, speed: u16) -> Stand {
    Stand { length: 1, place: 1, position, speed, asks: false, has_3: false, has_1: true }
}

const fn with_3(position: u32, speed: u16) -> Stand {
    Stand { has_3: true, ..on_1(position, speed) }
}

const fn asking(position: u32, speed: u16) -> Stand {
    Stand { asks: true, ..on_1(position, speed) }
}

const fn on_3(position: u32, speed: u16) -> Stand {
    Stand { place: 2, has_1: false, ..with_3(position, speed) }
}

/// On segment 3 with segment 1.
const fn on_3_and_1(position: u32, speed: u16) -> Stand {
    Stand { has_1: true, ..on_3(position, speed) }
}

/// The same as the longest train.
const fn longest(stand: Stand) -> Stand {
    Stand { length: LONGEST_TRAIN, ..stand }
}

/// S(2000) = 2,001,000 and B(2000) = 1,999,000, and `d` is that S; S(2000) = 2000, and `d` is the greatest; `gmax` 1 and its greatest `d`.
const LONG: Speeds = (2000, 1, 2_001_000);
const WIDE: Speeds = (2000, 2000, 3_997_999);
const SLOW: Speeds = (1, 1, 3_999_998);

// one to a line, as a table
#[rustfmt::skip]
pub const GREATEST: &[Greatest] = &[
    // "position + speed. At or above the length it moves on: length subtracted"; R-4: the old segment is freed when "the rear is at or past
    // its end"
    Greatest { name: "position 3,997,999 + speed 2000", speeds: WIDE, due: POSITION, before: with_3(3_997_999, 2000), after: Some(with_3(3_999_999, 2000)) },
    Greatest { name: "position 3,998,000 + speed 2000", speeds: WIDE, due: POSITION, before: with_3(3_998_000, 2000), after: Some(on_3_and_1(0, 2000)) },
    Greatest { name: "position 3,999,999 + speed 2000", speeds: WIDE, due: POSITION, before: with_3(3_999_999, 2000), after: Some(on_3(1999, 2000)) },
    Greatest { name: "position 3,999,999 + speed 2000, b 1", speeds: LONG, due: POSITION, before: with_3(3_999_999, 2000), after: Some(on_3(1999, 2000)) },
    Greatest { name: "position 3,999,998 + speed 1", speeds: SLOW, due: POSITION, before: with_3(3_999_998, 1), after: Some(with_3(3_999_999, 1)) },
    Greatest { name: "position 3,999,999 + speed 1", speeds: SLOW, due: POSITION, before: with_3(3_999_999, 1), after: Some(on_3_and_1(0, 1)) },
    Greatest { name: "from position 0 by speed 1", speeds: SLOW, due: POSITION, before: on_3_and_1(0, 1), after: Some(on_3(1, 1)) },
    Greatest { name: "position 3,999,999 + speed 2000, length 20,000", speeds: WIDE, due: POSITION, before: longest(with_3(3_999_999, 2000)), after: Some(longest(on_3_and_1(1999, 2000))) },
    Greatest { name: "rear to 3,999,999, length 20,000", speeds: WIDE, due: POSITION, before: longest(on_3_and_1(17_999, 2000)), after: Some(longest(on_3_and_1(19_999, 2000))) },
    Greatest { name: "rear to 4,000,000, length 20,000", speeds: WIDE, due: POSITION, before: longest(on_3_and_1(18_000, 2000)), after: Some(longest(on_3(20_000, 2000))) },
    Greatest { name: "rear at 3,999,999, segment 1 free", speeds: WIDE, due: POSITION, before: longest(on_3(19_999, 0)), after: None },
    Greatest { name: "rear at 4,000,000, segment 1 allocated", speeds: WIDE, due: POSITION, before: longest(on_3_and_1(20_000, 0)), after: None },
    Greatest { name: "position 4,000,000", speeds: WIDE, due: POSITION, before: with_3(4_000_000, 2000), after: None },
    // "position + S(speed) < length with another step due"
    Greatest { name: "position 1,998,999 + S(2000) = 3,999,999, request due", speeds: LONG, due: REQUEST, before: on_1(1_998_999, 2000), after: Some(on_1(1_998_999, 2000)) },
    Greatest { name: "position 1,999,000 + S(2000) = 4,000,000, request due", speeds: LONG, due: REQUEST, before: on_1(1_999_000, 2000), after: None },
    Greatest { name: "position 1,998,999 + S(2000) = 3,999,999, position due", speeds: LONG, due: POSITION, before: on_1(1_998_999, 2000), after: Some(on_1(2_000_999, 2000)) },
    Greatest { name: "position 1,999,000 + S(2000) = 4,000,000, position due", speeds: LONG, due: POSITION, before: on_1(1_999_000, 2000), after: None },
    Greatest { name: "position 3,997,999 + S(2000) = 3,999,999, request due", speeds: WIDE, due: REQUEST, before: on_1(3_997_999, 2000), after: Some(asking(3_997_999, 2000)) },
    Greatest { name: "position 3,998,000 + S(2000) = 4,000,000, request due", speeds: WIDE, due: REQUEST, before: on_1(3_998_000, 2000), after: None },
    // "position + B(speed) < length with speed due"; the train is near without next: "exactly low"
    Greatest { name: "position 2,000,999 + B(2000) = 3,999,999, speed due", speeds: LONG, due: SPEED, before: on_1(2_000_999, 2000), after: Some(on_1(2_000_999, 1999)) },
    Greatest { name: "position 2,001,000 + B(2000) = 4,000,000, speed due", speeds: LONG, due: SPEED, before: on_1(2_001_000, 2000), after: None },
    Greatest { name: "position 3,999,999 + B(2000) = 3,999,999, speed due", speeds: WIDE, due: SPEED, before: on_1(3_999_999, 2000), after: Some(on_1(3_999_999, 0)) },
    // "Near means position ≥ length − `d`."
    Greatest { name: "position 1,998,999, d 2,001,000, speed due", speeds: LONG, due: SPEED, before: on_1(1_998_999, 2000), after: Some(on_1(1_998_999, 2000)) },
    Greatest { name: "position 1,999,000, d 2,001,000, speed due", speeds: LONG, due: SPEED, before: on_1(1_999_000, 2000), after: Some(on_1(1_999_000, 1999)) },
    Greatest { name: "position 1,999,000, d 2,001,000, speed due, with next", speeds: LONG, due: SPEED, before: with_3(1_999_000, 1999), after: Some(with_3(1_999_000, 2000)) },
    Greatest { name: "position 2000, d 3,997,999", speeds: WIDE, due: REQUEST, before: on_1(2000, 2000), after: Some(on_1(2000, 2000)) },
    Greatest { name: "position 2001, d 3,997,999", speeds: WIDE, due: REQUEST, before: on_1(2001, 2000), after: Some(asking(2001, 2000)) },
    Greatest { name: "position 1, d 3,999,998", speeds: SLOW, due: REQUEST, before: on_1(1, 1), after: Some(on_1(1, 1)) },
    Greatest { name: "position 2, d 3,999,998", speeds: SLOW, due: REQUEST, before: on_1(2, 1), after: Some(asking(2, 1)) },
    Greatest { name: "position 3,999,999, d 3,999,998", speeds: SLOW, due: REQUEST, before: on_1(3_999_999, 0), after: Some(asking(3_999_999, 0)) },
    // "It asks exactly when grant is due, it is near and next exists and isn't its own."
    Greatest { name: "position 2000, d 3,997,999, asking", speeds: WIDE, due: GRANT, before: asking(2000, 2000), after: None },
    Greatest { name: "position 2001, d 3,997,999, asking", speeds: WIDE, due: GRANT, before: asking(2001, 2000), after: Some(with_3(2001, 2000)) },
    Greatest { name: "position 2001, d 3,997,999, not asking", speeds: WIDE, due: GRANT, before: on_1(2001, 2000), after: None },
    Greatest { name: "position 3,999,999, d 3,999,998, asking", speeds: SLOW, due: GRANT, before: asking(3_999_999, 0), after: Some(with_3(3_999_999, 0)) },
    Greatest { name: "position 3,999,999, d 3,999,998, not asking", speeds: SLOW, due: GRANT, before: on_1(3_999_999, 0), after: None },
    // "speed ≤ limit"
    Greatest { name: "speed 2001", speeds: WIDE, due: SPEED, before: on_1(0, 2001), after: None },
];
