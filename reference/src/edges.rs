//! Records for the comparison that no run needs to reach: sound ones, made on purpose, and records at the edges of the sentences
//! of "A sound record". An edge says by itself whether the record is sound there; the sound test is not asked.

use crate::braking::{b_rest, s};
use crate::numbers::{LAST_COUNT, LONGEST_TRAIN, SEGMENTS, TRAINS};
use crate::random::{count, length, Random};
use crate::record::{RawTrain, Record, GRANT, POSITION, REQUEST, SPEED};
use crate::tables::{Segment, Tables, EXIT};

/// An edge: the steps that may be due at it, whether a record there is sound, and the change that brings a sound record to it by
/// this train, which is on; false where that cannot be.
pub struct Edge {
    pub name: &'static str,
    pub due: &'static [u8],
    pub sound: bool,
    pub change: fn(&mut Random, &mut Record, u8) -> bool,
}

// ---- sound records

/// A sound record: trains anywhere on their routes with any counts and lengths, one at least.
pub fn sound_record(random: &mut Random, tables: &Tables, due: u8) -> Record {
    let mut record = Record { due, ..Record::loaded(*tables) };
    let first = random.within(1, TRAINS.into()) as u8;
    put_on_anywhere(random, &mut record, first);
    let rare = *random.of(&[1, 2, 8]);
    for number in 1..=TRAINS {
        if number != first && random.one_in(rare) {
            put_on_anywhere(random, &mut record, number);
        }
    }
    let on = numbers(&record, true);
    for number in random.mixed(on) {
        lengthen(random, &mut record, number, |_| true);
    }
    record
}

/// A sound record with a train brought to an edge, if one of its trains can be.
pub fn record_at(random: &mut Random, tables: &Tables, edge: &Edge) -> Option<Record> {
    let due = *random.of(edge.due);
    let record = sound_record(random, tables, due);
    let mut on = numbers(&record, true);
    // any of them first
    let turn = random.within(0, on.len() as u64 - 1) as usize;
    on.rotate_left(turn);
    on.into_iter().find_map(|number| {
        let mut record = record;
        (edge.change)(random, &mut record, number).then_some(record)
    })
}

/// A sound record in which a train with a count may leave, and its number; none where no train happens to be at its route's exit.
pub fn leaving_record(random: &mut Random, tables: &Tables, due: u8) -> Option<(Record, u8)> {
    let mut record = sound_record(random, tables, due);
    let may_leave = |&number: &u8| next(&record, number).is_none() && own_segment(&record, number).flags & EXIT != 0;
    let number = numbers(&record, true).into_iter().find(may_leave)?;
    train(&mut record, number).count = count(random).max(1);
    Some((record, number))
}

/// Tries a few places, since other trains have some.
pub(crate) fn put_on_anywhere(random: &mut Random, record: &mut Record, number: u8) -> bool {
    (0..4).any(|_| {
        let route = random.within(1, record.tables.r.into()) as u8;
        let place = random.edgy(1, record.tables.route(route).count.into()) as u8;
        put_on(random, record, number, route, place)
    })
}

/// Puts a train of length 1 on a place of a route. What is under it is allocated to it, one time in two its next too where no other train
/// has it. False, and nothing changed, where another train has what has to be under it.
fn put_on(random: &mut Random, record: &mut Record, number: u8, route: u8, place: u8) -> bool {
    let before = *record;
    record.allocations.iter_mut().filter(|train| **train == number).for_each(|train| *train = 0);
    *train(record, number) = RawTrain { route, place, count: count(random), length: 1, ..RawTrain::OFF };
    if random.one_in(2) {
        hold_next(record, number);
    }
    let speed = random.edgy(0, own_segment(record, number).limit.into()) as u16;
    let is_on = at_speed(random, record, number, speed);
    if !is_on {
        *record = before;
    }
    is_on
}

/// Gives a train that can have length 1 any length with which its rear is not beyond the segments behind it that no other train has and
/// that are `free` for it.
pub(crate) fn lengthen(random: &mut Random, record: &mut Record, number: u8, free: impl Fn(u8) -> bool) -> bool {
    let segments: Vec<u32> = record.tables.lengths(record.train(number).route).collect();
    let length = length(random, &segments).min(greatest_length(record, number, free));
    with_length(record, number, length)
}

/// The greatest of these lengths.
fn greatest_length(record: &Record, number: u8, free: impl Fn(u8) -> bool) -> u16 {
    let can_be_under = |segment: u8| [0, number].contains(&record.allocated(segment)) && free(segment);
    let ends = ends_behind(record, number);
    let first_not = ends.into_iter().find(|&(segment, _)| !can_be_under(segment));
    first_not.map_or(LONGEST_TRAIN, |(_, distance)| distance.min(LONGEST_TRAIN.into()) as u16)
}

/// A train with this length, and what is then under it allocated to it.
fn with_length(record: &mut Record, number: u8, length: u16) -> bool {
    train(record, number).length = length;
    lie(record, number)
}

/// Gives a train a speed and a position with which it is sound, if there is one.
fn at_speed(random: &mut Random, record: &mut Record, number: u8, speed: u16) -> bool {
    let length = u64::from(own_segment(record, number).length);
    let rate = record.tables.b.into();
    let way = match (held_next(record, number), record.due) {
        (None, SPEED) => b_rest(rate, speed.into()),
        (None, _) => s(rate, speed.into()),
        (Some(next), due) if due != SPEED && speed > next.limit => speed.into(),
        (Some(_), _) => 0,
    };
    let Some(furthest) = length.checked_sub(way + 1) else { return false };
    // also where it comes near its segment's end
    let near = length - u64::from(record.tables.d);
    let position = match random.draw() % 8 {
        0 => near.min(furthest),
        1 => (near - 1).min(furthest),
        _ => random.edgy(0, furthest),
    };
    go_to(record, number, speed, position)
}

/// A train's speed and position as they are told, and its asking and what is allocated to it as they have to be with them. False where
/// another train has a segment that is then under it.
pub(crate) fn go_to(record: &mut Record, number: u8, speed: u16, position: u64) -> bool {
    let near = position >= u64::from(own_segment(record, number).length - record.tables.d);
    let could_ask = next(record, number).is_some() && held_next(record, number).is_none();
    let asks = record.due == GRANT && near && could_ask;
    let train = train(record, number);
    (train.speed, train.position, train.asks) = (speed, position as u32, asks.into());
    lie(record, number)
}

/// Allocates to a train what is under it, and frees what else it has, but for its next. False where another train has some of it.
pub(crate) fn lie(record: &mut Record, number: u8) -> bool {
    let (under, next) = (under(record, number), next(record, number));
    for segment in 1..=SEGMENTS {
        if record.allocated(segment) == number && Some(segment) != next {
            allocate(record, segment, 0);
        }
    }
    under.into_iter().all(|segment| record.allocated(segment) == 0 && allocate(record, segment, number))
}

// ---- what stands around a train

pub(crate) fn train(record: &mut Record, number: u8) -> &mut RawTrain {
    &mut record.trains[usize::from(number) - 1]
}

pub(crate) fn allocate(record: &mut Record, segment: u8, number: u8) -> bool {
    record.allocations[usize::from(segment) - 1] = number;
    true
}

/// The numbers of the trains on, or of those off.
fn numbers(record: &Record, on: bool) -> Vec<u8> {
    (1..=TRAINS).filter(|&number| record.train(number).is_on() == on).collect()
}

fn own(record: &Record, number: u8) -> u8 {
    record.train(number).own(&record.tables)
}

/// The segments behind a train's own one, from there back to the first of its route, each with how far its end lies behind the front.
fn ends_behind(record: &Record, number: u8) -> Vec<(u8, u64)> {
    let RawTrain { route, place, position, .. } = *record.train(number);
    let passed = &record.tables.route(route).listed()[..usize::from(place) - 1];
    let mut start = u64::from(position);
    let end = |&segment: &u8| {
        let end = start;
        start += u64::from(record.tables.segment(segment).length);
        (segment, end)
    };
    passed.iter().rev().map(end).collect()
}

/// What is under a train, by a walk back from its front: its own segment, and those behind it whose end lies less far behind the front than
/// the rear.
fn under(record: &Record, number: u8) -> Vec<u8> {
    let length = u64::from(record.train(number).length);
    let behind = ends_behind(record, number).into_iter().filter(|&(_, distance)| distance < length).map(|(segment, _)| segment);
    [own(record, number)].into_iter().chain(behind).collect()
}

pub(crate) fn own_segment(record: &Record, number: u8) -> Segment {
    *record.tables.segment(own(record, number))
}

fn next(record: &Record, number: u8) -> Option<u8> {
    record.train(number).next(&record.tables)
}

/// The next segment, if it is allocated to the train.
fn held_next(record: &Record, number: u8) -> Option<Segment> {
    next(record, number).filter(|&next| record.allocated(next) == number).map(|next| *record.tables.segment(next))
}

/// Allocates the next segment to the train, if there is one that no other train has.
fn hold_next(record: &mut Record, number: u8) -> Option<Segment> {
    let next = next(record, number).filter(|&next| [0, number].contains(&record.allocated(next)))?;
    allocate(record, next, number);
    held_next(record, number)
}

fn free_next(record: &mut Record, number: u8) {
    if let Some(next) = next(record, number).filter(|&next| record.allocated(next) == number) {
        allocate(record, next, 0);
    }
}

fn any(random: &mut Random, list: &[u8]) -> Option<u8> {
    (!list.is_empty()).then(|| *random.of(list))
}

// ---- changes

/// The train's position is what a way leaves of the length: position + way = length + beyond.
fn short_of_the_end(record: &mut Record, number: u8, speed: u16, way: u64, beyond: i64) -> bool {
    let length = i64::from(own_segment(record, number).length);
    let position = length + beyond - way as i64;
    go_to(record, number, speed, position as u64)
}

/// Next not allocated to it, and a speed from `least` on: position + way = length + beyond, the way being S or B of the speed.
fn braking(random: &mut Random, record: &mut Record, number: u8, way: fn(u32, u32) -> u64, least: u64, beyond: i64) -> bool {
    free_next(record, number);
    let speed = random.edgy(least, own_segment(record, number).limit.into()) as u16;
    let way = way(record.tables.b.into(), speed.into());
    short_of_the_end(record, number, speed, way, beyond)
}

/// Next allocated to it, with a lower limit, and a speed above that: position + speed = length + beyond.
fn too_fast_for_next(random: &mut Random, record: &mut Record, number: u8, beyond: i64) -> bool {
    let Some(next) = hold_next(record, number) else { return false };
    let limit = own_segment(record, number).limit;
    if limit <= next.limit {
        return false;
    }
    let speed = random.edgy(u64::from(next.limit) + 1, limit.into()) as u16;
    short_of_the_end(record, number, speed, speed.into(), beyond)
}

/// Next allocated to it, and the speed so far above next's limit: it moves on in this cycle.
fn moving_on(random: &mut Random, record: &mut Record, number: u8, above: u16) -> bool {
    let Some(next) = hold_next(record, number) else { return false };
    let Segment { length, limit, .. } = own_segment(record, number);
    let speed = next.limit + above;
    if speed > limit {
        return false;
    }
    let position = random.edgy(u64::from(length) - u64::from(speed), u64::from(length) - 1);
    go_to(record, number, speed, position)
}

/// Next allocated to it, a speed that both limits allow, and position + speed = length + beyond.
fn about_to_move_on(random: &mut Random, record: &mut Record, number: u8, beyond: i64) -> bool {
    let Some(next) = hold_next(record, number) else { return false };
    let limit = own_segment(record, number).limit.min(next.limit);
    // at speed 1 the position for one beyond would be the length
    if limit < 2 {
        return false;
    }
    let speed = random.edgy(2, limit.into()) as u16;
    short_of_the_end(record, number, speed, speed.into(), beyond)
}

/// Next allocated to it, a speed that is right there, and position = length + beyond.
fn end_with_next(random: &mut Random, record: &mut Record, number: u8, beyond: i64) -> bool {
    let Some(next) = hold_next(record, number) else { return false };
    let limit = own_segment(record, number).limit;
    let highest = if record.due == SPEED { limit } else { limit.min(next.limit) };
    let speed = random.edgy(0, highest.into()) as u16;
    short_of_the_end(record, number, speed, 0, beyond)
}

/// So far above the limit; the position fits.
fn at_limit(random: &mut Random, record: &mut Record, number: u8, above: u16) -> bool {
    let speed = own_segment(record, number).limit + above;
    at_speed(random, record, number, speed)
}

/// Grant due and next another's or free: at position length - d - below, with this for its asking.
fn nearing(random: &mut Random, record: &mut Record, number: u8, below: u32, asks: u8) -> bool {
    if next(record, number).is_none() {
        return false;
    }
    free_next(record, number);
    let segment = own_segment(record, number);
    let position = segment.length - record.tables.d - below;
    let speed = random.edgy(0, segment.limit.into()) as u16;
    if u64::from(position) + s(record.tables.b.into(), speed.into()) >= segment.length.into() {
        return false;
    }
    let is_there = go_to(record, number, speed, position.into());
    train(record, number).asks = asks;
    is_there
}

/// A train that does not ask, as it has to be, with this for its asking.
fn not_asking(record: &mut Record, number: u8, asks: u8) -> bool {
    let train = train(record, number);
    let does_not = train.asks == 0;
    train.asks = asks;
    does_not
}

/// Standing, next not allocated to it: position = length + beyond.
fn end_without_next(record: &mut Record, number: u8, beyond: i64) -> bool {
    free_next(record, number);
    short_of_the_end(record, number, 0, 0, beyond)
}

/// A train that is off, with something of it not zero.
fn off(random: &mut Random, record: &mut Record, change: fn(&mut RawTrain)) -> bool {
    let off = numbers(record, false);
    any(random, &off).is_some_and(|number| {
        change(train(record, number));
        true
    })
}

/// A segment that is free, and not the train's next, allocated to a number.
fn one_more(random: &mut Random, record: &mut Record, number: u8, to: u8) -> bool {
    let next = next(record, number);
    let free: Vec<u8> = (1..=record.tables.n).filter(|&segment| record.allocated(segment) == 0 && next != Some(segment)).collect();
    any(random, &free).is_some_and(|segment| allocate(record, segment, to))
}

fn one_more_to_one_off(random: &mut Random, record: &mut Record, number: u8) -> bool {
    let off = numbers(record, false);
    any(random, &off).is_some_and(|to| one_more(random, record, number, to))
}

/// One of the segments under a train, which is made as long as it can be.
#[derive(Clone, Copy)]
enum Under {
    Front,
    Middle,
    Rear,
}

impl Under {
    fn of(self, random: &mut Random, record: &mut Record, number: u8) -> Option<u8> {
        let longest = greatest_length(record, number, |_| true);
        with_length(record, number, longest);
        let under = under(record, number);
        match (self, &under[..]) {
            (Under::Front, [front, ..]) => Some(*front),
            (Under::Middle, [_, middle @ .., _]) => any(random, middle),
            (Under::Rear, [_, .., rear]) => Some(*rear),
            _ => None,
        }
    }
}

/// That segment allocated to none.
fn under_to_none(random: &mut Random, record: &mut Record, number: u8, which: Under) -> bool {
    which.of(random, record, number).is_some_and(|segment| allocate(record, segment, 0))
}

/// That segment allocated to another train.
fn under_to_another(random: &mut Random, record: &mut Record, number: u8, which: Under) -> bool {
    let others: Vec<u8> = numbers(record, true).into_iter().filter(|&other| other != number).collect();
    let Some(to) = any(random, &others) else { return false };
    which.of(random, record, number).is_some_and(|segment| allocate(record, segment, to))
}

/// The rear so far beyond the end of a segment behind the front's, and that segment allocated to the train or to none.
fn rear_at(random: &mut Random, record: &mut Record, number: u8, beyond: i64, allocated: bool) -> bool {
    let length = |distance: u64| distance as i64 - beyond;
    let has_room = |&(segment, distance): &(u8, u64)| {
        (1..=LONGEST_TRAIN.into()).contains(&length(distance)) && [0, number].contains(&record.allocated(segment))
    };
    let ends: Vec<(u8, u64)> = ends_behind(record, number).into_iter().filter(has_room).collect();
    if ends.is_empty() {
        return false;
    }
    let (segment, distance) = *random.of(&ends);
    with_length(record, number, length(distance) as u16) && allocate(record, segment, if allocated { number } else { 0 })
}

/// Length 1, the front at the start of a segment that is not the route's first, and the segment behind allocated to the train or to none.
fn at_a_start(record: &mut Record, number: u8, allocated: bool) -> bool {
    let Some(&(behind, _)) = ends_behind(record, number).first() else { return false };
    let speed = record.train(number).speed;
    train(record, number).length = 1;
    go_to(record, number, speed, 0) && allocate(record, behind, if allocated { number } else { 0 })
}

/// So much longer than the train's route, where that is no more than a train may be.
fn beyond_its_route(record: &mut Record, number: u8, more: u64) -> bool {
    let length = record.tables.lengths(record.train(number).route).map(u64::from).sum::<u64>() + more;
    length <= LONGEST_TRAIN.into() && with_length(record, number, length as u16)
}

fn above_n(random: &mut Random, record: &mut Record, number: u8) -> bool {
    let above: Vec<u8> = (record.tables.n + 1..=SEGMENTS).collect();
    any(random, &above).is_some_and(|segment| allocate(record, segment, number))
}

fn last_place(random: &mut Random, record: &mut Record, number: u8) -> bool {
    let route = train(record, number).route;
    let place = record.tables.route(route).count;
    put_on(random, record, number, route, place) && lengthen(random, record, number, |_| true)
}

fn last_route(random: &mut Random, record: &mut Record, number: u8) -> bool {
    let route = record.tables.r;
    let place = random.edgy(1, record.tables.route(route).count.into()) as u8;
    put_on(random, record, number, route, place) && lengthen(random, record, number, |_| true)
}

/// A change of the train and of nothing else.
fn with(record: &mut Record, number: u8, change: fn(&mut RawTrain)) -> bool {
    change(train(record, number));
    true
}

fn place_beyond(record: &mut Record, number: u8) -> bool {
    let route = train(record, number).route;
    train(record, number).place = record.tables.route(route).count + 1;
    true
}

fn route_beyond(record: &mut Record, number: u8) -> bool {
    train(record, number).route = record.tables.r + 1;
    true
}

fn due(record: &mut Record, step: u8) -> bool {
    record.due = step;
    true
}

const ANY: &[u8] = &[SPEED, REQUEST, GRANT, POSITION];
const ANOTHER: &[u8] = &[REQUEST, GRANT, POSITION];

// one to a line, as a table
#[rustfmt::skip]
pub const EDGES: &[Edge] = &[
    // "The step due is one of four."
    Edge { name: "step due 3", due: &[POSITION], sound: true, change: |_, x, _| due(x, 3) },
    Edge { name: "step due 4", due: &[POSITION], sound: false, change: |_, x, _| due(x, 4) },
    Edge { name: "step due 255", due: &[POSITION], sound: false, change: |_, x, _| due(x, 255) },
    // "A train off is all zero."
    Edge { name: "a train off with a place", due: ANY, sound: false, change: |r, x, _| off(r, x, |train| train.place = 1) },
    Edge { name: "a train off with a position", due: ANY, sound: false, change: |r, x, _| off(r, x, |train| train.position = 1) },
    Edge { name: "a train off with a speed", due: ANY, sound: false, change: |r, x, _| off(r, x, |train| train.speed = 1) },
    Edge { name: "a train off that asks", due: ANY, sound: false, change: |r, x, _| off(r, x, |train| train.asks = 1) },
    Edge { name: "a train off with asks 2", due: ANY, sound: false, change: |r, x, _| off(r, x, |train| train.asks = 2) },
    Edge { name: "a train off with asks 255", due: ANY, sound: false, change: |r, x, _| off(r, x, |train| train.asks = 255) },
    Edge { name: "a train off with a count", due: ANY, sound: false, change: |r, x, _| off(r, x, |train| train.count = 1) },
    Edge { name: "a train off with count 256", due: ANY, sound: false, change: |r, x, _| off(r, x, |train| train.count = 256) },
    Edge { name: "a train off with the greatest count", due: ANY, sound: false, change: |r, x, _| off(r, x, |train| train.count = LAST_COUNT) },
    Edge { name: "a train off with length 1", due: ANY, sound: false, change: |r, x, _| off(r, x, |train| train.length = 1) },
    Edge { name: "a train off with length 256", due: ANY, sound: false, change: |r, x, _| off(r, x, |train| train.length = 256) },
    Edge { name: "a train off with length 20,000", due: ANY, sound: false, change: |r, x, _| off(r, x, |train| train.length = 20_000) },
    Edge { name: "a train off with length 65,535", due: ANY, sound: false, change: |r, x, _| off(r, x, |train| train.length = 65_535) },
    // of a train on no sentence speaks of the count
    Edge { name: "a train on without a count", due: ANY, sound: true, change: |_, x, t| with(x, t, |train| train.count = 0) },
    Edge { name: "a train on with a count", due: ANY, sound: true, change: |_, x, t| with(x, t, |train| train.count = 1) },
    Edge { name: "a train on with the greatest count", due: ANY, sound: true, change: |_, x, t| with(x, t, |train| train.count = LAST_COUNT) },
    // "Every allocation is 0 or the number of a train on; above N it is 0."
    Edge { name: "a segment allocated to a train off", due: ANY, sound: false, change: one_more_to_one_off },
    Edge { name: "a segment allocated to train 25", due: ANY, sound: false, change: |r, x, t| one_more(r, x, t, TRAINS + 1) },
    Edge { name: "a segment allocated to train 255", due: ANY, sound: false, change: |r, x, t| one_more(r, x, t, 255) },
    Edge { name: "a segment above N allocated", due: ANY, sound: false, change: above_n },
    Edge { name: "a train gone off, its segment still allocated", due: ANY, sound: false, change: |_, x, t| with(x, t, |train| *train = RawTrain::OFF) },
    // "route 1 to R, place 1 to the route's count"
    Edge { name: "route 0", due: ANY, sound: false, change: |_, x, t| with(x, t, |train| train.route = 0) },
    Edge { name: "route R", due: ANY, sound: true, change: last_route },
    Edge { name: "route R + 1", due: ANY, sound: false, change: |_, x, t| route_beyond(x, t) },
    Edge { name: "route 255", due: ANY, sound: false, change: |_, x, t| with(x, t, |train| train.route = 255) },
    Edge { name: "place 0", due: ANY, sound: false, change: |_, x, t| with(x, t, |train| train.place = 0) },
    Edge { name: "place count", due: ANY, sound: true, change: last_place },
    Edge { name: "place count + 1", due: ANY, sound: false, change: |_, x, t| place_beyond(x, t) },
    Edge { name: "place 255", due: ANY, sound: false, change: |_, x, t| with(x, t, |train| train.place = 255) },
    // "position < length, speed ≤ limit"
    Edge { name: "position = length - 1, with next", due: ANY, sound: true, change: |r, x, t| end_with_next(r, x, t, -1) },
    Edge { name: "position = length, with next", due: ANY, sound: false, change: |r, x, t| end_with_next(r, x, t, 0) },
    Edge { name: "position = length - 1, standing without next", due: ANY, sound: true, change: |_, x, t| end_without_next(x, t, -1) },
    Edge { name: "position = length, standing without next", due: ANY, sound: false, change: |_, x, t| end_without_next(x, t, 0) },
    Edge { name: "the greatest position", due: ANY, sound: false, change: |_, x, t| with(x, t, |train| train.position = u32::MAX) },
    Edge { name: "speed at the limit", due: ANY, sound: true, change: |r, x, t| at_limit(r, x, t, 0) },
    Edge { name: "speed one above the limit", due: ANY, sound: false, change: |r, x, t| at_limit(r, x, t, 1) },
    Edge { name: "the greatest speed", due: ANY, sound: false, change: |_, x, t| with(x, t, |train| train.speed = u16::MAX) },
    // R-4 of document 02: "a record with a train on whose length is outside that is unsound"; what is under it fits the length
    Edge { name: "length 0", due: ANY, sound: false, change: |_, x, t| with_length(x, t, 0) },
    Edge { name: "length 1", due: ANY, sound: true, change: |_, x, t| with_length(x, t, 1) },
    Edge { name: "length 20,000", due: ANY, sound: true, change: |_, x, t| with_length(x, t, 20_000) },
    Edge { name: "length 20,001", due: ANY, sound: false, change: |_, x, t| with_length(x, t, 20_001) },
    Edge { name: "length 65,535", due: ANY, sound: false, change: |_, x, t| with_length(x, t, 65_535) },
    Edge { name: "as long as its route", due: ANY, sound: true, change: |_, x, t| beyond_its_route(x, t, 0) },
    Edge { name: "longer than its route", due: ANY, sound: true, change: |_, x, t| beyond_its_route(x, t, 1) },
    // "Its own segment is allocated to it, its next may be, no other is."; R-4: all that is under it
    Edge { name: "its front's segment allocated to none", due: ANY, sound: false, change: |r, x, t| under_to_none(r, x, t, Under::Front) },
    Edge { name: "a segment between front's and rear's allocated to none", due: ANY, sound: false, change: |r, x, t| under_to_none(r, x, t, Under::Middle) },
    Edge { name: "its rear's segment allocated to none", due: ANY, sound: false, change: |r, x, t| under_to_none(r, x, t, Under::Rear) },
    Edge { name: "its front's segment allocated to another", due: ANY, sound: false, change: |r, x, t| under_to_another(r, x, t, Under::Front) },
    Edge { name: "a segment between front's and rear's allocated to another", due: ANY, sound: false, change: |r, x, t| under_to_another(r, x, t, Under::Middle) },
    Edge { name: "its rear's segment allocated to another", due: ANY, sound: false, change: |r, x, t| under_to_another(r, x, t, Under::Rear) },
    Edge { name: "rear one before an end, the segment there allocated", due: ANY, sound: true, change: |r, x, t| rear_at(r, x, t, -1, true) },
    Edge { name: "rear one before an end, the segment there free", due: ANY, sound: false, change: |r, x, t| rear_at(r, x, t, -1, false) },
    Edge { name: "rear at an end, the segment behind it free", due: ANY, sound: true, change: |r, x, t| rear_at(r, x, t, 0, false) },
    Edge { name: "rear at an end, the segment behind it still allocated", due: ANY, sound: false, change: |r, x, t| rear_at(r, x, t, 0, true) },
    Edge { name: "rear one past an end, the segment behind it free", due: ANY, sound: true, change: |r, x, t| rear_at(r, x, t, 1, false) },
    Edge { name: "rear one past an end, the segment behind it still allocated", due: ANY, sound: false, change: |r, x, t| rear_at(r, x, t, 1, true) },
    Edge { name: "length 1 at a segment's start, the segment behind it allocated", due: ANY, sound: true, change: |_, x, t| at_a_start(x, t, true) },
    Edge { name: "length 1 at a segment's start, the segment behind it free", due: ANY, sound: false, change: |_, x, t| at_a_start(x, t, false) },
    Edge { name: "one more segment allocated to it", due: ANY, sound: false, change: |r, x, t| one_more(r, x, t, t) },
    // "While next is not allocated to it, or there is none: position + B(speed) < length with speed due,"
    Edge { name: "position + B(speed) = length - 1, speed due", due: &[SPEED], sound: true, change: |r, x, t| braking(r, x, t, b_rest, 0, -1) },
    Edge { name: "position + B(speed) = length, speed due", due: &[SPEED], sound: false, change: |r, x, t| braking(r, x, t, b_rest, 0, 0) },
    Edge { name: "position + B(speed) = length + 1, speed due", due: &[SPEED], sound: false, change: |r, x, t| braking(r, x, t, b_rest, 0, 1) },
    Edge { name: "position + S(speed) = length, speed due", due: &[SPEED], sound: true, change: |r, x, t| braking(r, x, t, s, 1, 0) },
    // "position + S(speed) < length with another step due."
    Edge { name: "position + S(speed) = length - 1, another step due", due: ANOTHER, sound: true, change: |r, x, t| braking(r, x, t, s, 0, -1) },
    Edge { name: "position + S(speed) = length, another step due", due: ANOTHER, sound: false, change: |r, x, t| braking(r, x, t, s, 0, 0) },
    Edge { name: "position + S(speed) = length + 1, another step due", due: ANOTHER, sound: false, change: |r, x, t| braking(r, x, t, s, 0, 1) },
    Edge { name: "position + B(speed) = length - 1, another step due", due: ANOTHER, sound: false, change: |r, x, t| braking(r, x, t, b_rest, 1, -1) },
    // "While next is allocated to it, another step is due and position + speed ≥ length: speed ≤ next's limit."
    Edge { name: "above next's limit, position + speed = length - 1", due: ANOTHER, sound: true, change: |r, x, t| too_fast_for_next(r, x, t, -1) },
    Edge { name: "above next's limit, position + speed = length", due: ANOTHER, sound: false, change: |r, x, t| too_fast_for_next(r, x, t, 0) },
    Edge { name: "above next's limit, position + speed = length + 1", due: ANOTHER, sound: false, change: |r, x, t| too_fast_for_next(r, x, t, 1) },
    Edge { name: "above next's limit, position + speed = length, speed due", due: &[SPEED], sound: true, change: |r, x, t| too_fast_for_next(r, x, t, 0) },
    Edge { name: "moving on at next's limit", due: ANOTHER, sound: true, change: |r, x, t| moving_on(r, x, t, 0) },
    Edge { name: "moving on one above next's limit", due: ANOTHER, sound: false, change: |r, x, t| moving_on(r, x, t, 1) },
    Edge { name: "moving on one above next's limit, speed due", due: &[SPEED], sound: true, change: |r, x, t| moving_on(r, x, t, 1) },
    Edge { name: "within both limits, position + speed = length - 1", due: ANOTHER, sound: true, change: |r, x, t| about_to_move_on(r, x, t, -1) },
    Edge { name: "within both limits, position + speed = length", due: ANOTHER, sound: true, change: |r, x, t| about_to_move_on(r, x, t, 0) },
    Edge { name: "within both limits, position + speed = length + 1", due: ANOTHER, sound: true, change: |r, x, t| about_to_move_on(r, x, t, 1) },
    // "It asks exactly when grant is due, it is near and next exists and isn't its own."
    Edge { name: "its asking turned round", due: ANY, sound: false, change: |_, x, t| with(x, t, |train| train.asks ^= 1) },
    Edge { name: "position = length - d, asking", due: &[GRANT], sound: true, change: |r, x, t| nearing(r, x, t, 0, 1) },
    Edge { name: "position = length - d, not asking", due: &[GRANT], sound: false, change: |r, x, t| nearing(r, x, t, 0, 0) },
    Edge { name: "position = length - d, asks 2", due: &[GRANT], sound: false, change: |r, x, t| nearing(r, x, t, 0, 2) },
    Edge { name: "position = length - d, asks 255", due: &[GRANT], sound: false, change: |r, x, t| nearing(r, x, t, 0, 255) },
    Edge { name: "position = length - d - 1, not asking", due: &[GRANT], sound: true, change: |r, x, t| nearing(r, x, t, 1, 0) },
    Edge { name: "position = length - d - 1, asking", due: &[GRANT], sound: false, change: |r, x, t| nearing(r, x, t, 1, 1) },
    Edge { name: "position = length - d - 1, asks 2", due: &[GRANT], sound: false, change: |r, x, t| nearing(r, x, t, 1, 2) },
    Edge { name: "position = length - d - 1, asks 255", due: &[GRANT], sound: false, change: |r, x, t| nearing(r, x, t, 1, 255) },
    Edge { name: "asks 2 where it is not to ask", due: ANY, sound: false, change: |_, x, t| not_asking(x, t, 2) },
    Edge { name: "asks 255 where it is not to ask", due: ANY, sound: false, change: |_, x, t| not_asking(x, t, 255) },
];
