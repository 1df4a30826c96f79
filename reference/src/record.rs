//! The area record, with any contents at all, and the section "A sound record".

use crate::braking::{b_rest, s};
use crate::numbers::{LONGEST_TRAIN, SEGMENTS, TRAINS};
use crate::tables::Tables;

/// The step due. "Order: speed, request, grant, position, speed."
pub const SPEED: u8 = 0;
pub const REQUEST: u8 = 1;
pub const GRANT: u8 = 2;
pub const POSITION: u8 = 3;

/// "A train on the area has a route, a place in it, a position in its segment and a speed."
/// Off means route 0. R-2 of document 02: "Each train counts the grant steps at which it asked and got nothing"; R-4: "Enter takes a
/// length .., kept with the train". Place and position are its front's.
#[derive(Clone, Copy, PartialEq, Eq, Debug)]
pub struct RawTrain {
    pub route: u8,
    pub place: u8,
    pub position: u32,
    pub speed: u16,
    /// 1 where it asks, 0 where not; another number is in no sound record
    pub asks: u8,
    pub count: u16,
    pub length: u16,
}

impl RawTrain {
    /// "A train off is all zero." R-2: "a train off has count 0".
    pub const OFF: RawTrain = RawTrain { route: 0, place: 0, position: 0, speed: 0, asks: 0, count: 0, length: 0 };

    pub fn is_on(&self) -> bool {
        self.route != 0
    }

    /// The segment at its place of its route, both of which there are.
    pub fn own(&self, tables: &Tables) -> u8 {
        tables.route(self.route).numbers[usize::from(self.place) - 1]
    }

    /// "Its next is the route's next segment, if any."
    pub fn next(&self, tables: &Tables) -> Option<u8> {
        tables.route(self.route).listed().get(usize::from(self.place)).copied()
    }

    /// Its way: the summed lengths of the segments before its place, which there is, and its position.
    pub fn way(&self, tables: &Tables) -> u64 {
        let own = tables.stretches(self.route).nth(usize::from(self.place) - 1).expect("its route has its place");
        own.start + u64::from(self.position)
    }

    /// What is under it, in the order of its route.
    pub fn under<'a>(&self, tables: &'a Tables) -> &'a [u8] {
        tables.under(self.route, self.way(tables), self.length)
    }
}

/// "The area record holds the tables, the allocations of all segments and the trains, handed
/// in and handed back."
#[derive(Clone, Copy, PartialEq, Eq, Debug)]
pub struct Record {
    pub tables: Tables,
    /// of segment k at index k − 1: the train's number, 0 for none
    pub allocations: [u8; SEGMENTS as usize],
    /// train number n at index n − 1
    pub trains: [RawTrain; TRAINS as usize],
    /// the step due
    pub due: u8,
}

impl Record {
    /// "Load's refusal gives the blank record, all zero, itself unsound".
    pub const BLANK: Record =
        Record { tables: Tables::ZERO, allocations: [0; SEGMENTS as usize], trains: [RawTrain::OFF; TRAINS as usize], due: SPEED };

    /// "A loaded area has no trains; the step due is speed."
    pub fn loaded(tables: Tables) -> Record {
        Record { tables, ..Record::BLANK }
    }

    /// Train by number, 1 to 24.
    pub fn train(&self, number: u8) -> &RawTrain {
        &self.trains[usize::from(number) - 1]
    }

    /// The number of the train that a segment is allocated to, 0 for none.
    pub fn allocated(&self, segment: u8) -> u8 {
        self.allocations[usize::from(segment) - 1]
    }
}

/// The section "A sound record", sentence by sentence.
pub fn sound(record: &Record) -> bool {
    // "Tables meet 4 to 10."
    record.tables.meet_4_to_10()
        // "The step due is one of four."
        && record.due <= POSITION
        // "A train off is all zero.", its count and its length too
        && record.trains.iter().all(|train| train.is_on() || *train == RawTrain::OFF)
        // "Every allocation is 0 or the number of a train on; above N it is 0."
        && record.allocations.iter().all(|&train| train == 0 || is_train_on(record, train))
        && record.allocations[usize::from(record.tables.n)..].iter().all(|&train| train == 0)
        // "A train on: .."
        && (1..=TRAINS).all(|number| !is_train_on(record, number) || sound_train_on(record, number))
}

fn is_train_on(record: &Record, number: u8) -> bool {
    (1..=TRAINS).contains(&number) && record.train(number).is_on()
}

/// The sentences about one train on, in a record whose tables meet 4 to 10.
// reading: no sentence speaks of the count of a train on; any is sound, whether it asks or not.
fn sound_train_on(record: &Record, number: u8) -> bool {
    let tables = &record.tables;
    let train = record.train(number);

    // "route 1 to R, place 1 to the route's count"
    if train.route > tables.r {
        return false;
    }
    if train.place < 1 || train.place > tables.route(train.route).count {
        return false;
    }
    let (own, next) = (train.own(tables), train.next(tables));

    // "position < length, speed ≤ limit"
    let segment = tables.segment(own);
    if train.position >= segment.length || train.speed > segment.limit {
        return false;
    }

    // R-4 of document 02: "a record with a train on whose length is outside that is unsound"
    if !(1..=LONGEST_TRAIN).contains(&train.length) {
        return false;
    }

    // "Its own segment is allocated to it, its next may be, no other is."; R-4: "all of these segments", those under it, "are allocated
    // to that train alone"
    // reading: what is under it takes the place of its own segment, which is the last of these.
    let allocated_to_it = |segment: u8| record.allocated(segment) == number;
    let under = train.under(tables);
    if !under.iter().all(|&segment| allocated_to_it(segment)) {
        return false;
    }
    if (1..=SEGMENTS).any(|other| allocated_to_it(other) && !under.contains(&other) && Some(other) != next) {
        return false;
    }
    let next_is_its_own = next.is_some_and(allocated_to_it);

    let (length, position, speed) = (u64::from(segment.length), u64::from(train.position), u64::from(train.speed));
    if !next_is_its_own {
        // "While next is not allocated to it, or there is none: position + B(speed) < length
        // with speed due, position + S(speed) < length with another step due."
        let way = if record.due == SPEED { b_rest(tables.b.into(), train.speed.into()) } else { s(tables.b.into(), train.speed.into()) };
        if position + way >= length {
            return false;
        }
    } else if record.due != SPEED && position + speed >= length {
        // "While next is allocated to it, another step is due and position + speed ≥ length:
        // speed ≤ next's limit."
        if next.is_some_and(|next| train.speed > tables.segment(next).limit) {
            return false;
        }
    }

    // "It asks exactly when grant is due, it is near and next exists and isn't its own."
    // reading: "isn't its own" says that next isn't allocated to it, as in the request step.
    // reading: near, "position ≥ length − `d`", is tested as position + d ≥ length, which is
    // the same since rule 6 keeps lengths above d.
    let near = position + u64::from(tables.d) >= length;
    // reading: asking is kept as a number, 1 for asks and 0 for not; another says neither.
    train.asks == u8::from(record.due == GRANT && near && next.is_some() && !next_is_its_own)
}
