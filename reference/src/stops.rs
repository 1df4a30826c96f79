//! Records for the comparison with trains at the end of their braking distance and about where they come near, at the greatest `gmax` and
//! with the least and the greatest `b`. Whether a record is sound is known from how it was made; neither program is asked, nor its S.

use crate::numbers::{LONGEST, TOP_SPEED, TRAINS};
use crate::random::Random;
use crate::record::{RawTrain, Record, GRANT, POSITION, REQUEST, SPEED};
use crate::tables::Tables;

/// The `b` of these areas.
pub const RATES: [u16; 2] = [1, TOP_SPEED];

/// Whether the train has a next segment, and who has that.
#[derive(Clone, Copy, PartialEq, Eq, Debug)]
pub enum Next {
    Free,
    Anothers,
    None,
    Its,
}

/// All that decides whether a train is sound, all limits being `gmax`.
#[derive(Clone, Copy, PartialEq, Eq, Debug)]
pub struct Stand {
    pub b: u16,
    pub due: u8,
    pub next: Next,
    pub speed: u16,
    /// length − position
    pub to_the_end: u32,
}

impl Stand {
    /// S with `b` 1 is v + (v − 1) + .. + 1, with a `b` that no speed exceeds v; "B(v) = S(v) − v". B with speed due, S with another step.
    pub fn way(b: u16, due: u8, speed: u16) -> u32 {
        let speed = u32::from(speed);
        let s = if b == 1 { (1..=speed).sum() } else { speed };
        if due == SPEED {
            s - speed
        } else {
            s
        }
    }

    /// "While next is not allocated to it, or there is none: position + B(speed) < length with speed due, position + S(speed) < length with
    /// another step due."
    pub fn is_sound(&self) -> bool {
        self.next == Next::Its || Stand::way(self.b, self.due, self.speed) < self.to_the_end
    }
}

// ---- one train, on Area A's shape

/// The record with a train that stands so: on segment 1 before segment 3, or on segment 3, the last of its route.
pub fn record_with(tables: &Tables, number: u8, stand: &Stand) -> Record {
    let mut record = Record { due: stand.due, ..Record::loaded(*tables) };
    let place = if stand.next == Next::None { 2 } else { 1 };
    put_on(&mut record, number, 1, place, stand);
    if stand.next == Next::Anothers {
        let another = Stand { next: Next::None, speed: 0, to_the_end: tables.segment(3).length - 1, ..*stand };
        put_on(&mut record, number % TRAINS + 1, 2, 2, &another);
    }
    record
}

fn put_on(record: &mut Record, number: u8, route: u8, place: u8, stand: &Stand) {
    let tables = record.tables;
    let segment = tables.route(route).listed()[usize::from(place) - 1];
    let position = tables.segment(segment).length - stand.to_the_end;
    let could_ask = [Next::Free, Next::Anothers].contains(&stand.next);
    let asks = stand.due == GRANT && stand.to_the_end <= tables.d && could_ask;
    let train = RawTrain { route, place, position, speed: stand.speed, asks: asks.into(), count: 0, length: 1 };
    record.allocations[usize::from(segment) - 1] = number;
    if let Some(next) = train.next(&tables).filter(|_| stand.next == Next::Its) {
        record.allocations[usize::from(next) - 1] = number;
    }
    record.trains[usize::from(number) - 1] = train;
}

/// The ends of braking distances: every speed with which position + way = length + beyond can be met by a position before the length. Each is
/// met with next not the train's, and at the length with next its own.
pub fn at_ends(b: u16) -> impl Iterator<Item = (Stand, i8)> {
    let stand = move |speed: u16, is_speed: bool, beyond: i8, with_next: bool| {
        let due = if is_speed { SPEED } else { [REQUEST, GRANT, POSITION][usize::from(speed) % 3] };
        let next = if with_next { Next::Its } else { [Next::Free, Next::Anothers, Next::None][usize::from(speed) / 3 % 3] };
        let to_the_end = i64::from(Stand::way(b, due, speed)) - i64::from(beyond);
        let is_decided_there = Stand::way(b, due, speed) > 0 && to_the_end > 0;
        is_decided_there.then_some((Stand { b, due, next, speed, to_the_end: to_the_end as u32 }, beyond))
    };
    let ends = [(-1, false), (0, false), (1, false), (0, true)];
    (1..=TOP_SPEED)
        .flat_map(|speed| [true, false].map(|is_speed| (speed, is_speed)))
        .flat_map(move |(speed, is_speed)| ends.map(|(beyond, with_next)| stand(speed, is_speed, beyond, with_next)))
        .flatten()
}

/// The `d` that trains come near by: S(gmax), which is the least, one more, a cycle more, and the greatest.
pub fn distances(b: u16) -> [u32; 4] {
    let least = Stand::way(b, REQUEST, TOP_SPEED);
    [least, least + 1, least + u32::from(TOP_SPEED), LONGEST - u32::from(TOP_SPEED) - 1]
}

/// Trains with position + d = length + beyond.
pub fn about_near(b: u16, d: u32) -> impl Iterator<Item = (Stand, i8)> {
    [-1, 0, 1].into_iter().flat_map(move |beyond: i8| {
        [SPEED, REQUEST, GRANT, POSITION].into_iter().flat_map(move |due| {
            [Next::Free, Next::Anothers, Next::None, Next::Its].into_iter().flat_map(move |next| {
                let to_the_end = d.wrapping_add_signed(-i32::from(beyond));
                [0, 1, 2, 1000, TOP_SPEED - 1, TOP_SPEED].map(|speed| (Stand { b, due, next, speed, to_the_end }, beyond))
            })
        })
    })
}

// ---- all trains, on the full area's shape

/// What a train of `all_trains` is about: position + way, or position + d, is the length and so much beyond it.
#[derive(Clone, Copy, PartialEq, Eq, Debug)]
pub enum About {
    End(i8),
    Near(i8),
}

/// A record with a train on each second segment, each about an end or about near; all of them sound, or one not. And how they stand, in the
/// order of their numbers.
pub fn all_trains(random: &mut Random, tables: &Tables, is_sound: bool) -> (Record, Vec<(Stand, About)>) {
    // with speed due and the greatest `b` every way is 0, and no train is unsound by it
    let least = if is_sound || tables.b == 1 { SPEED } else { REQUEST };
    let due = random.within(least.into(), POSITION.into()) as u8;
    let mut record = Record { due, ..Record::loaded(*tables) };
    let unsound = (!is_sound).then(|| random.within(1, TRAINS.into()) as u8);
    let fronts = random.mixed((1..=TRAINS).map(|k| 2 * k).collect());
    let mut stands = vec![];
    for (number, front) in (1..).zip(fronts) {
        let (stand, about) = loop {
            let drawn = stand_about(random, tables, due);
            if drawn.0.is_sound() != (unsound == Some(number)) {
                break drawn;
            }
        };
        let route = front.min(tables.r);
        put_on(&mut record, number, route, front - route + 1, &stand);
        stands.push((stand, about));
    }
    (record, stands)
}

fn stand_about(random: &mut Random, tables: &Tables, due: u8) -> (Stand, About) {
    let (b, beyond) = (tables.b, random.within(0, 2) as i8 - 1);
    let speed = random.edgy(0, TOP_SPEED.into()) as u16;
    let next = *random.of(&[Next::Free, Next::Its]);
    let way = Stand::way(b, due, speed);
    // a way of 1 can have no position one beyond
    let (from, about) = if way > 1 && random.one_in(2) { (way, About::End(beyond)) } else { (tables.d, About::Near(beyond)) };
    (Stand { b, due, next, speed, to_the_end: from.wrapping_add_signed(-i32::from(beyond)) }, about)
}
