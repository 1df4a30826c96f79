//! Trains of chosen lengths for the comparison, R-4 of document 02: records by hand, position steps that bring front or rear to the end of
//! a segment, and entries that several refusals turn away. What comes of them is known from how they were made; neither program is asked.

use crate::area::Call;
use crate::braking::s;
use crate::edges::{allocate, go_to, lengthen, lie, put_on_anywhere, train};
use crate::file::decode_tables;
use crate::numbers::TRAINS;
use crate::random::{length, Random};
use crate::record::{RawTrain, Record, POSITION, SPEED};
use crate::tables::{Segment, Tables, ENTRY, EXIT};
use crate::write::{area_a, Description};

// ---- records by hand

/// Area A's speeds on one line. Its segments end at 5000, 11,000, 16,000, 23,000 and 31,000; route 1 is the whole line, route 2 ends at
/// 11,000, where there is an exit too.
pub fn line() -> Description {
    let segment = |(number, length): (u8, u32)| {
        let links = [[if number < 5 { number + 1 } else { 0 }, 0], [number - 1, 0]];
        let flags = [ENTRY, EXIT, 0, 0, EXIT][usize::from(number) - 1];
        Segment { length, limit: 290, next: links[0], previous: links[1], flags }
    };
    let segments = (1..).zip([5000, 6000, 5000, 7000, 8000]).map(segment).collect();
    Description { segments, routes: vec![vec![1, 2, 3, 4, 5], vec![1, 2]], ..area_a() }
}

/// A train on the line with position due, and what a call makes of it.
pub struct ByHand {
    pub name: &'static str,
    pub route: u8,
    pub length: u16,
    pub before: Stand,
    pub comes: Comes,
}

/// Where the front is, the speed, and the segments that are allocated to the train.
#[derive(Clone, Copy)]
pub struct Stand {
    pub place: u8,
    pub position: u32,
    pub speed: u16,
    pub allocated: &'static [u8],
}

#[derive(Clone, Copy)]
pub enum Comes {
    /// the position step brings it there
    To(Stand),
    /// leave takes it off
    Off,
    /// the record is unsound
    Unsound,
}

impl ByHand {
    /// The record with this train, the call, the number of its answer, and the record handed back.
    pub fn records(&self, number: u8) -> (Record, Call<'static>, u8, Record) {
        let before = self.record(number, POSITION, &self.before);
        match &self.comes {
            Comes::To(after) => (before, Call::Position, 0, self.record(number, SPEED, after)),
            Comes::Off => (before, Call::Leave { train: number.into() }, 0, Record { due: POSITION, ..Record::loaded(before.tables) }),
            Comes::Unsound => (before, Call::Position, 11, before),
        }
    }

    fn record(&self, number: u8, due: u8, stand: &Stand) -> Record {
        let mut record = Record { due, ..Record::loaded(decode_tables(&line().file())) };
        let &Stand { place, position, speed, allocated } = stand;
        *train(&mut record, number) = RawTrain { route: self.route, place, position, speed, length: self.length, ..RawTrain::OFF };
        for &segment in allocated {
            allocate(&mut record, segment, number);
        }
        record
    }
}

const fn at(place: u8, position: u32, speed: u16, allocated: &'static [u8]) -> Stand {
    Stand { place, position, speed, allocated }
}

const fn to(place: u8, position: u32, speed: u16, allocated: &'static [u8]) -> Comes {
    Comes::To(at(place, position, speed, allocated))
}

const ALL: &[u8] = &[1, 2, 3, 4, 5];

// one to a line, as a table
#[rustfmt::skip]
pub const BY_HAND: &[ByHand] = &[
    // "A segment is under the train from the front's arrival until the rear is at or past its end, and is freed only then, at position."
    ByHand { name: "length 1, front to one before an end", route: 1, length: 1, before: at(1, 4799, 200, &[1, 2]), comes: to(1, 4999, 200, &[1, 2]) },
    ByHand { name: "length 1, front to an end", route: 1, length: 1, before: at(1, 4800, 200, &[1, 2]), comes: to(2, 0, 200, &[1, 2]) },
    ByHand { name: "length 1, front to one past an end", route: 1, length: 1, before: at(1, 4801, 200, &[1, 2]), comes: to(2, 1, 200, &[2]) },
    ByHand { name: "length 1, from an end on", route: 1, length: 1, before: at(2, 0, 1, &[1, 2]), comes: to(2, 1, 1, &[2]) },
    ByHand { name: "length 1, standing at an end", route: 1, length: 1, before: at(2, 0, 0, &[1, 2]), comes: to(2, 0, 0, &[1, 2]) },
    ByHand { name: "length 2, front to one past an end", route: 1, length: 2, before: at(1, 4801, 200, &[1, 2]), comes: to(2, 1, 200, &[1, 2]) },
    ByHand { name: "length 5000, rear to one before an end", route: 1, length: 5000, before: at(2, 4899, 100, &[1, 2]), comes: to(2, 4999, 100, &[1, 2]) },
    ByHand { name: "length 5000, rear to an end", route: 1, length: 5000, before: at(2, 4900, 100, &[1, 2]), comes: to(2, 5000, 100, &[2]) },
    ByHand { name: "length 5000, rear to an end, with next", route: 1, length: 5000, before: at(2, 4900, 100, &[1, 2, 3]), comes: to(2, 5000, 100, &[2, 3]) },
    ByHand { name: "length 5000, rear to one past an end", route: 1, length: 5000, before: at(2, 4901, 100, &[1, 2]), comes: to(2, 5001, 100, &[2]) },
    // front and rear come to an end together where the length is that of the segments between
    ByHand { name: "length 5999, front to an end", route: 1, length: 5999, before: at(2, 5800, 200, &[1, 2, 3]), comes: to(3, 0, 200, &[2, 3]) },
    ByHand { name: "length 6000, front and rear to an end", route: 1, length: 6000, before: at(2, 5800, 200, &[1, 2, 3]), comes: to(3, 0, 200, &[2, 3]) },
    ByHand { name: "length 6001, front to an end", route: 1, length: 6001, before: at(2, 5800, 200, &[1, 2, 3]), comes: to(3, 0, 200, &[1, 2, 3]) },
    ByHand { name: "length 6001, from an end on", route: 1, length: 6001, before: at(3, 0, 1, &[1, 2, 3]), comes: to(3, 1, 1, &[2, 3]) },
    ByHand { name: "length 11,000, front and rear to an end", route: 1, length: 11_000, before: at(3, 4999, 1, &[1, 2, 3, 4]), comes: to(4, 0, 1, &[2, 3, 4]) },
    ByHand { name: "length 11,001, front to an end", route: 1, length: 11_001, before: at(3, 4999, 1, &[1, 2, 3, 4]), comes: to(4, 0, 1, &[1, 2, 3, 4]) },
    // "what lies before the route's first segment is outside the area"
    ByHand { name: "length 20,000, at enter", route: 1, length: 20_000, before: at(1, 0, 0, &[1]), comes: to(1, 0, 0, &[1]) },
    ByHand { name: "length 20,000, rear outside", route: 1, length: 20_000, before: at(2, 5900, 200, &[1, 2, 3]), comes: to(3, 100, 200, &[1, 2, 3]) },
    ByHand { name: "length 20,000, rear comes in", route: 1, length: 20_000, before: at(4, 3999, 1, &[1, 2, 3, 4]), comes: to(4, 4000, 1, &[1, 2, 3, 4]) },
    ByHand { name: "length 20,000, over all five", route: 1, length: 20_000, before: at(4, 6900, 200, ALL), comes: to(5, 100, 200, ALL) },
    ByHand { name: "length 20,000, rear to one before an end", route: 1, length: 20_000, before: at(5, 1899, 100, ALL), comes: to(5, 1999, 100, ALL) },
    ByHand { name: "length 20,000, rear to an end", route: 1, length: 20_000, before: at(5, 1900, 100, ALL), comes: to(5, 2000, 100, &[2, 3, 4, 5]) },
    ByHand { name: "length 20,000, rear to one past an end", route: 1, length: 20_000, before: at(5, 1901, 100, ALL), comes: to(5, 2001, 100, &[2, 3, 4, 5]) },
    ByHand { name: "length 20,000, to the end of the line", route: 1, length: 20_000, before: at(5, 7980, 10, &[2, 3, 4, 5]), comes: to(5, 7990, 10, &[2, 3, 4, 5]) },
    // route 2: its last segment is 6000 long
    ByHand { name: "length 5999, to the end of route 2", route: 2, length: 5999, before: at(2, 5989, 10, &[1, 2]), comes: to(2, 5999, 10, &[2]) },
    ByHand { name: "length 6000, to the end of route 2", route: 2, length: 6000, before: at(2, 5989, 10, &[1, 2]), comes: to(2, 5999, 10, &[1, 2]) },
    ByHand { name: "as long as route 2, to its end", route: 2, length: 11_000, before: at(2, 5989, 10, &[1, 2]), comes: to(2, 5999, 10, &[1, 2]) },
    ByHand { name: "longer than route 2, to its end", route: 2, length: 20_000, before: at(2, 5989, 10, &[1, 2]), comes: to(2, 5999, 10, &[1, 2]) },
    // "Leave .. frees all of it."
    ByHand { name: "length 1, leaves", route: 1, length: 1, before: at(5, 1, 0, &[5]), comes: Comes::Off },
    ByHand { name: "length 1 at a segment's start, leaves", route: 1, length: 1, before: at(5, 0, 0, &[4, 5]), comes: Comes::Off },
    ByHand { name: "length 20,000, leaves four segments", route: 1, length: 20_000, before: at(5, 7999, 0, &[2, 3, 4, 5]), comes: Comes::Off },
    ByHand { name: "length 20,000, leaves five segments", route: 1, length: 20_000, before: at(5, 1999, 0, ALL), comes: Comes::Off },
    ByHand { name: "longer than route 2, leaves", route: 2, length: 11_001, before: at(2, 0, 0, &[1, 2]), comes: Comes::Off },
    // "all of these segments are allocated to that train alone", and no other but its next
    ByHand { name: "length 1 at a segment's start, the segment behind free", route: 1, length: 1, before: at(2, 0, 0, &[2]), comes: Comes::Unsound },
    ByHand { name: "length 1 one past a segment's start, the segment behind allocated", route: 1, length: 1, before: at(2, 1, 0, &[1, 2]), comes: Comes::Unsound },
    ByHand { name: "length 6000, rear at an end, the segment behind it allocated", route: 1, length: 6000, before: at(3, 0, 0, &[1, 2, 3]), comes: Comes::Unsound },
    ByHand { name: "length 6001, the rear's segment free", route: 1, length: 6001, before: at(3, 0, 0, &[2, 3]), comes: Comes::Unsound },
    ByHand { name: "length 6001, the middle segment free", route: 1, length: 6001, before: at(3, 0, 0, &[1, 3]), comes: Comes::Unsound },
    ByHand { name: "length 6001, the front's segment free", route: 1, length: 6001, before: at(3, 0, 0, &[1, 2]), comes: Comes::Unsound },
    ByHand { name: "length 20,000, rear one before an end, the segment there free", route: 1, length: 20_000, before: at(5, 1999, 0, &[2, 3, 4, 5]), comes: Comes::Unsound },
    ByHand { name: "length 20,000, rear at an end, the segment behind it allocated", route: 1, length: 20_000, before: at(5, 2000, 0, ALL), comes: Comes::Unsound },
    ByHand { name: "length 20,000, the second of five free", route: 1, length: 20_000, before: at(5, 1999, 0, &[1, 3, 4, 5]), comes: Comes::Unsound },
    ByHand { name: "length 20,000, the fourth of five free", route: 1, length: 20_000, before: at(5, 1999, 0, &[1, 2, 3, 5]), comes: Comes::Unsound },
    // "a length of 1 to 20,000 decimetres .. a record with a train on whose length is outside that is unsound"
    ByHand { name: "length 0", route: 1, length: 0, before: at(1, 10, 0, &[1]), comes: Comes::Unsound },
    ByHand { name: "length 0 at a segment's start", route: 1, length: 0, before: at(2, 0, 0, &[2]), comes: Comes::Unsound },
    ByHand { name: "length 0 at a segment's start, the segment behind allocated", route: 1, length: 0, before: at(2, 0, 0, &[1, 2]), comes: Comes::Unsound },
    ByHand { name: "length 20,001", route: 1, length: 20_001, before: at(1, 10, 0, &[1]), comes: Comes::Unsound },
    ByHand { name: "length 20,001, over all five", route: 1, length: 20_001, before: at(5, 2000, 0, ALL), comes: Comes::Unsound },
    ByHand { name: "length 65,535", route: 1, length: 65_535, before: at(5, 2000, 0, ALL), comes: Comes::Unsound },
];

// ---- position steps

/// A sound record with position due, the one that the step hands back, and the train that it brings with front or rear to the end of a
/// segment or next to it. All other trains stand.
pub struct Step {
    pub before: Record,
    pub after: Record,
    pub number: u8,
}

/// Such a step, where what is drawn is to be had.
pub fn step(random: &mut Random, tables: &Tables) -> Option<Step> {
    let route = random.within(1, tables.r.into()) as u8;
    let listed = tables.route(route).listed();
    let on_it: Vec<u32> = tables.lengths(route).collect();
    let length = length(random, &on_it);
    // one before the end of one of its segments, at it, or one past it, by the front or by the rear
    let place = random.within(1, on_it.len() as u64) as usize;
    let end: u64 = on_it[..place].iter().map(|&length| u64::from(length)).sum();
    let way = end + random.within(0, 2) - 1 + if random.one_in(4) { 0 } else { length.into() };
    let (is, own) = find(&on_it, way)?;
    let speed = random.edgy(0, tables.segment(listed[is]).limit.into()).min(way) as u16;
    let (was, position) = find(&on_it, way - u64::from(speed))?;
    // it moves on by a segment at the most, and where it does not, it may have its next or brake
    let may_stop = position + s(tables.b.into(), speed.into()) < on_it[was].into();
    let holds = was < is || !may_stop || random.one_in(2);
    let next = listed.get(was + 1).copied();
    if speed > tables.segment(listed[was]).limit || (holds && next.is_none()) {
        return None;
    }
    let number = random.within(1, TRAINS.into()) as u8;
    let mut before = Record { due: POSITION, ..Record::loaded(*tables) };
    *train(&mut before, number) = RawTrain { route, place: was as u8 + 1, length, ..RawTrain::OFF };
    if let Some(next) = next.filter(|_| holds) {
        allocate(&mut before, next, number);
    }
    go_to(&mut before, number, speed, position);
    put_others(random, &mut before, number);
    let mut after = Record { due: SPEED, ..before };
    (train(&mut after, number).place, train(&mut after, number).position) = (is as u8 + 1, own as u32);
    lie(&mut after, number);
    Some(Step { before, after, number })
}

/// Which of these segments a way is on, from 0, and the position there.
fn find(segments: &[u32], way: u64) -> Option<(usize, u64)> {
    let mut position = way;
    for (index, &length) in segments.iter().enumerate() {
        if position < length.into() {
            return Some((index, position));
        }
        position -= u64::from(length);
    }
    None
}

/// Other trains where there is room for them, all of them standing.
fn put_others(random: &mut Random, record: &mut Record, number: u8) {
    for other in (1..=TRAINS).filter(|&other| other != number) {
        if random.one_in(3) && put_on_anywhere(random, record, other) {
            train(record, other).speed = 0;
            lengthen(random, record, other, |_| true);
        }
    }
}

// ---- entries

/// What turns an entry away beside its length, in the order of the refusals, and 0 for nothing.
pub const BESIDE: [u8; 7] = [13, 14, 16, 17, 18, 19, 0];

/// Train, route and speed of an entry that is answered so with any right length, where the record has room for it; by that refusal
/// alone, but that a segment that lacks the entry flag may be allocated too.
pub fn entry(random: &mut Random, record: &Record, answer: u8) -> Option<(u16, u16, u16)> {
    let tables = &record.tables;
    let first = |route: u8| tables.route(route).numbers[0];
    let fits = |&route: &u8| {
        let (is_entry, is_free) = (tables.segment(first(route)).flags & ENTRY != 0, record.allocated(first(route)) == 0);
        match answer {
            17 => !is_entry,
            18 => is_entry && !is_free,
            _ => is_entry && is_free,
        }
    };
    let trains: Vec<u8> = (1..=TRAINS).filter(|&number| record.train(number).is_on() == (answer == 14)).collect();
    let routes: Vec<u8> = (1..=tables.r).filter(fits).collect();
    if trains.is_empty() || routes.is_empty() {
        return None;
    }
    let (train, route) = (*random.of(&trains), *random.of(&routes));
    let limit = tables.segment(first(route)).limit;
    let (train, route, speed) = (train.into(), route.into(), random.edgy(0, limit.into()) as u16);
    Some(match answer {
        13 => (*random.of(&[0, u16::from(TRAINS) + 1, 256, 257, 65_535]), route, speed),
        16 => (train, *random.of(&[0, u16::from(tables.r) + 1, 256, 257, 65_535]), speed),
        19 => (train, route, random.edgy(u64::from(limit) + 1, 65_535) as u16),
        _ => (train, route, speed),
    })
}

/// What such an entry is answered with a wrong length: "23 .., after 16".
pub fn with_a_wrong_length(answer: u8) -> u8 {
    match answer {
        13 | 14 | 16 => answer,
        _ => 23,
    }
}
