//! The calls.
//!
//! In a running area a train keeps one number for where it is: its way since its enter, which is
//! its front's. Its place in the route, its position and, with its length, what is under it are
//! worked out from the way and the summed lengths.

use crate::file::{read, read_within, Refusal};
use crate::numbers::{Bounds, LAST_COUNT, LONGEST_TRAIN, SEGMENTS, TRAINS, WISHES};
use crate::record::{sound, RawTrain, Record, GRANT, POSITION, REQUEST, SPEED};
use crate::send::send;
use crate::tables::{Tables, ENTRY, EXIT};

/// A train on the area.
#[derive(Clone, Copy, PartialEq, Eq, Debug)]
struct Train {
    route: u8,
    way: u64,
    speed: u16,
    asks: bool,
    count: u16,
    length: u16,
}

/// What follows from a train's way: its place in the route (from 1), its position, its own
/// segment, and its "next", "the route's next segment, if any".
struct Whereabouts {
    place: u8,
    position: u32,
    own: u8,
    next: Option<u8>,
}

/// "Its own segment is the one of its route that starts at or before its way and ends beyond
/// it, lengths summed from the route's start. .. Its position is its way less that segment's
/// start." None if the way is beyond the route's end, which no sound area has.
fn whereabouts(tables: &Tables, train: &Train) -> Option<Whereabouts> {
    let listed = tables.route(train.route).listed();
    let (index, own) = tables.stretches(train.route).enumerate().find(|(_, segment)| train.way < segment.end)?;
    let position = (train.way - own.start) as u32;
    Some(Whereabouts { place: index as u8 + 1, position, own: listed[index], next: listed.get(index + 1).copied() })
}

/// R-2 of document 02: "the highest count wins, and equal counts go to the higher train number". Of two trains, each with its count
/// and its number: whether the one goes before the other.
fn goes_before((count, number): (u16, u8), (other_count, other_number): (u16, u8)) -> bool {
    count > other_count || (count == other_count && number > other_number)
}

/// A running area.
#[derive(Clone, Copy, PartialEq, Eq, Debug)]
pub struct Area {
    tables: Tables,
    allocations: [u8; SEGMENTS as usize],
    trains: [Option<Train>; TRAINS as usize],
    due: u8,
}

/// One of the six calls with its arguments.
#[derive(Clone, Copy, PartialEq, Eq, Debug)]
pub enum Call<'a> {
    Enter { train: u16, route: u16, speed: u16, length: u16 },
    Leave { train: u16 },
    Speed { wishes: &'a [u16] },
    Request,
    Grant,
    Position,
}

/// The steps of a cycle. "Order: speed, request, grant, position, speed."
pub const fn cycle(wishes: &[u16]) -> [Call<'_>; 4] {
    [Call::Speed { wishes }, Call::Request, Call::Grant, Call::Position]
}

/// Load: an area without trains, speed due; or the refusal, 1 to 10, with its place.
pub fn load(file: &[u8]) -> Result<Area, Refusal> {
    let tables = read(file)?;
    Ok(Area { tables, allocations: [0; SEGMENTS as usize], trains: [None; TRAINS as usize], due: SPEED })
}

/// Load's answer, "a number and a place"; 0 is done.
pub fn answer_of(file: &[u8]) -> (u8, u16) {
    answer_within(file, &Bounds::DOCUMENT_02)
}

/// Load's answer with these bounds.
pub fn answer_within(file: &[u8], bounds: &Bounds) -> (u8, u16) {
    read_within(file, bounds).map_or_else(|refusal| (refusal.number, refusal.place), |_| (0, 0))
}

/// One call on any record: the answer's number and the record handed back.
pub fn call_on(record: &Record, call: &Call) -> (u8, Record) {
    match Area::from_record(record) {
        // "other refusals give the record as handed in"
        None => (11, *record),
        Some(mut area) => (area.call(call), area.record()),
    }
}

/// Report on any record.
pub fn report_on(record: &Record) -> (u8, u32, u32) {
    match Area::from_record(record) {
        None => (11, 0, 0),
        Some(area) => area.report(),
    }
}

impl Area {
    /// The running area of a sound record, None of an unsound one.
    pub fn from_record(record: &Record) -> Option<Area> {
        if !sound(record) {
            return None;
        }
        let tables = record.tables;
        let trains = record.trains.map(|raw| {
            raw.is_on().then(|| {
                let RawTrain { route, speed, asks, count, length, .. } = raw;
                Train { route, way: raw.way(&tables), speed, asks: asks == 1, count, length }
            })
        });
        Some(Area { tables, allocations: record.allocations, trains, due: record.due })
    }

    /// The whole record, places and positions worked out from the ways.
    pub fn record(&self) -> Record {
        let trains = self.trains.map(|train| match train {
            None => RawTrain::OFF,
            Some(train) => {
                // A way beyond the route's end would show as place 0, which is unsound.
                let (place, position) = whereabouts(&self.tables, &train).map_or((0, 0), |at| (at.place, at.position));
                let Train { route, speed, asks, count, length, .. } = train;
                RawTrain { route, place, position, speed, asks: asks.into(), count, length }
            }
        });
        Record { tables: self.tables, allocations: self.allocations, trains, due: self.due }
    }

    pub fn tables(&self) -> &Tables {
        &self.tables
    }

    pub fn call(&mut self, call: &Call) -> u8 {
        match *call {
            Call::Enter { train, route, speed, length } => self.enter(train, route, speed, length),
            Call::Leave { train } => self.leave(train),
            Call::Speed { wishes } => self.speed(wishes),
            Call::Request => self.request(),
            Call::Grant => self.grant(),
            Call::Position => self.position(),
        }
    }

    /// "Enter: 11, 13, 14, 16, 17, 18, 19."; R-4 of document 02: "23 .., after 16".
    // reading: directly after 16, before 17.
    pub fn enter(&mut self, train: u16, route: u16, speed: u16, length: u16) -> u8 {
        if !self.is_sound() {
            return 11;
        }
        // 13 "number not 1 to 24"
        if !(1..=u16::from(TRAINS)).contains(&train) {
            return 13;
        }
        // 14 "that train is on the area"
        if self.trains[usize::from(train) - 1].is_some() {
            return 14;
        }
        // 16 "not 1 to R"
        if !(1..=u16::from(self.tables.r)).contains(&route) {
            return 16;
        }
        // 23 "length outside the bounds"
        if !(1..=LONGEST_TRAIN).contains(&length) {
            return 23;
        }
        let (train, route) = (train as u8, route as u8);
        let first = self.tables.route(route).numbers[0];
        // 17 "route's first segment lacks the entry flag"
        if self.tables.segment(first).flags & ENTRY == 0 {
            return 17;
        }
        // 18 "that segment is allocated"
        if self.allocated(first) != 0 {
            return 18;
        }
        // 19 "speed above its limit"
        if speed > self.tables.segment(first).limit {
            return 19;
        }
        // "position 0 of the first segment, which becomes allocated"; R-2: "the count is 0 at enter"; the rest of the train is outside
        self.trains[usize::from(train) - 1] = Some(Train { route, way: 0, speed, asks: false, count: 0, length });
        self.allocate(first, train);
        0
    }

    /// "Leave: 11, 13, 15, 20."
    pub fn leave(&mut self, train: u16) -> u8 {
        if !self.is_sound() {
            return 11;
        }
        // 13 "number not 1 to 24"
        if !(1..=u16::from(TRAINS)).contains(&train) {
            return 13;
        }
        // 15 "that train is off"
        let Some(on) = self.trains[usize::from(train) - 1] else {
            return 15;
        };
        // 20 "segment is not the route's last or lacks the exit flag"
        let at = self.whereabouts(&on);
        if at.next.is_some() || self.tables.segment(at.own).flags & EXIT == 0 {
            return 20;
        }
        // "the train goes off; all allocated to it is freed"; R-4: "frees all of it"
        self.trains[usize::from(train) - 1] = None;
        for allocation in &mut self.allocations {
            if u16::from(*allocation) == train {
                *allocation = 0;
            }
        }
        0
    }

    /// "Speed: 11, 12, 21."
    pub fn speed(&mut self, wishes: &[u16]) -> u8 {
        if let Some(number) = self.turned_away(SPEED) {
            return number;
        }
        // 21 "the list handed in hasn't 24 entries"
        if wishes.len() != WISHES {
            return 21;
        }
        // "entries of trains off are ignored"
        self.each_train_on(|area, number, train, at| {
            let limit = area.tables.segment(at.own).limit;
            // "Low = max(0, speed − `b`)."
            let low = train.speed.saturating_sub(area.tables.b);
            let high = if !area.near(at) {
                // "Not near: up to the segment's limit."
                limit
            } else {
                match at.next {
                    // "Near with next allocated to it: up to the smaller of both limits."
                    Some(next) if area.allocated(next) == number => limit.min(area.tables.segment(next).limit),
                    // "Near without it: exactly low."
                    _ => low,
                }
            };
            // "Wishes outside go to the closer end." (Low is never above high: the speed is
            // within the limit, and rule 9 keeps next's limit + b at or above it.)
            train.speed = wishes[usize::from(number) - 1].clamp(low, high);
        });
        self.due = REQUEST;
        0
    }

    /// "Request, grant, position: 11, 12."
    pub fn request(&mut self) -> u8 {
        if let Some(number) = self.turned_away(REQUEST) {
            return number;
        }
        // "a near train whose next exists and isn't allocated to it asks"
        self.each_train_on(|area, number, train, at| {
            train.asks = area.near(at) && at.next.is_some_and(|next| area.allocated(next) != number);
        });
        self.due = GRANT;
        0
    }

    pub fn grant(&mut self) -> u8 {
        if let Some(number) = self.turned_away(GRANT) {
            return number;
        }
        // the trains that ask: what for, and by what they are ordered
        let asking: Vec<(u8, (u16, u8))> = (1..)
            .zip(&self.trains)
            .filter_map(|(number, train)| {
                let train = train.filter(|train| train.asks)?;
                Some((self.whereabouts(&train).next?, (train.count, number)))
            })
            .collect();
        // "each unallocated segment goes to" one of those asking for it: R-2 says to which, in place of the least number.
        for segment in 1..=self.tables.n {
            if self.allocated(segment) != 0 {
                continue;
            }
            let for_it = asking.iter().filter(|(next, _)| *next == segment).map(|(_, train)| *train);
            if let Some((_, first)) = for_it.reduce(|first, other| if goes_before(other, first) { other } else { first }) {
                self.allocate(segment, first);
            }
        }
        // R-2: "Each train counts the grant steps at which it asked and got nothing; the count .. stops at 65,535 and returns to 0 on a
        // grant."
        // reading: got nothing, whether its segment was allocated before the step or went to another; a train that does not ask keeps its
        // count.
        self.each_train_on(|area, number, train, at| {
            if !train.asks {
                return;
            }
            if at.next.is_some_and(|next| area.allocated(next) == number) {
                train.count = 0;
            } else if train.count < LAST_COUNT {
                train.count += 1;
            }
            // "all asking ends"
            train.asks = false;
        });
        self.due = POSITION;
        0
    }

    pub fn position(&mut self) -> u8 {
        if let Some(number) = self.turned_away(POSITION) {
            return number;
        }
        // "position + speed. At or above the length it moves on: length subtracted": the way grows
        // by the speed, and the rest follows from the way. R-4: a segment "is freed only then, at
        // position", when it was under the train and no longer is.
        self.each_train_on(|area, _, train, _| {
            let before = area.under(train);
            train.way += u64::from(train.speed);
            let after = area.under(train);
            let freed: Vec<u8> = before.iter().filter(|segment| !after.contains(segment)).copied().collect();
            freed.into_iter().for_each(|segment| area.allocate(segment, 0));
        });
        self.due = SPEED;
        0
    }

    /// "Report: 11." Its number, "allocated segments counted .., and the least free segment, 0
    /// if none"; "report's [refusal] gives zeros".
    // reading: the least free segment is looked for among 1 to N; a record above N is no segment.
    pub fn report(&self) -> (u8, u32, u32) {
        if !self.is_sound() {
            return (11, 0, 0);
        }
        let (count, least_free) = self.counts();
        (0, count, least_free)
    }

    /// R-1 of document 02: the tables sent back out as a file into a buffer, "22 .. after 11".
    pub fn send(&self, buffer: &mut [u8]) -> u8 {
        // 11 is tested there on the whole record
        send(&self.record(), buffer)
    }

    /// The two numbers of a report that is not refused.
    pub fn counts(&self) -> (u32, u32) {
        let count = (1..=self.tables.n).filter(|&segment| self.allocated(segment) != 0).count();
        let least_free = (1..=self.tables.n).find(|&segment| self.allocated(segment) == 0).unwrap_or(0);
        (count as u32, least_free.into())
    }

    /// 11 "the area record breaks a condition": tested on the whole record, at each call.
    fn is_sound(&self) -> bool {
        sound(&self.record())
    }

    /// What a cycle step tests first: 11, then 12 "a cycle step not due".
    fn turned_away(&self, step: u8) -> Option<u8> {
        match self.is_sound() {
            false => Some(11),
            true => (self.due != step).then_some(12),
        }
    }

    /// A step's change of each train on, in the order of the numbers, with its number and where it is before the step.
    fn each_train_on(&mut self, change: impl Fn(&mut Area, u8, &mut Train, &Whereabouts)) {
        for number in 1..=TRAINS {
            let Some(mut train) = self.trains[usize::from(number) - 1] else { continue };
            let at = self.whereabouts(&train);
            change(self, number, &mut train, &at);
            self.trains[usize::from(number) - 1] = Some(train);
        }
    }

    fn whereabouts(&self, train: &Train) -> Whereabouts {
        whereabouts(&self.tables, train).expect("a train of a sound record has an own segment")
    }

    /// The segments under a train.
    fn under(&self, train: &Train) -> &[u8] {
        self.tables.under(train.route, train.way, train.length)
    }

    /// "Near means position ≥ length − `d`."
    fn near(&self, at: &Whereabouts) -> bool {
        at.position + self.tables.d >= self.tables.segment(at.own).length
    }

    fn allocated(&self, segment: u8) -> u8 {
        self.allocations[usize::from(segment) - 1]
    }

    fn allocate(&mut self, segment: u8, train: u8) {
        self.allocations[usize::from(segment) - 1] = train;
    }
}
