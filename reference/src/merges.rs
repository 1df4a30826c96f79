//! Records with grant due for the comparison, made on purpose: trains near before merges, and others around them, with chosen counts.
//! What the grant step makes of such a record is known from how it was made; the step is not asked.

use crate::braking::s;
use crate::edges::{allocate, go_to, lengthen, own_segment, train};
use crate::numbers::{LAST_COUNT, SEGMENTS, TRAINS};
use crate::random::{count, Random};
use crate::record::{RawTrain, Record, GRANT, POSITION};
use crate::tables::Tables;

/// A sound record with grant due, and the one that the step hands back.
pub struct Merging {
    pub before: Record,
    pub after: Record,
}

/// A route and a place in it.
type Stand = (u8, u8);

/// A train that asks, and whether it gets what it asks for.
type Asking = (u8, bool);

/// Counts of two trains, the first lower than the second: next to each other, the more so where their bytes, their sign or their end
/// turn, and far from each other.
const APART: [(u16, u16); 9] =
    [(0, 1), (1, 2), (4, 5), (255, 256), (256, 511), (32_767, 32_768), (1, 32_768), (LAST_COUNT - 1, LAST_COUNT), (0, LAST_COUNT)];

fn any_apart(random: &mut Random) -> (u16, u16) {
    let less = random.within(0, u64::from(LAST_COUNT) - 1);
    (less as u16, random.within(less + 1, LAST_COUNT.into()) as u16)
}

/// A record in the making.
struct Making {
    record: Record,
    asking: Vec<Asking>,
    /// numbers of trains still off, in any order
    off: Vec<u8>,
    /// segment k at index k − 1: free and asked for, so that no train is put on it
    asked: [bool; SEGMENTS as usize],
    /// segment k at index k − 1: all places of routes before it
    before: Vec<Vec<Stand>>,
    /// segment k at index k − 1: all places of routes on it
    on: Vec<Vec<Stand>>,
}

/// Trains near before as many segments as there is room for, in any order, and some that do not ask.
pub fn merging_record(random: &mut Random, tables: &Tables) -> Merging {
    let mut making = Making::new(random, tables);
    // at times much of it stays empty, at times two trains ask wherever they can
    let mode = random.draw() % 4;
    for segment in random.mixed((1..=tables.n).collect()) {
        match mode {
            0 if random.one_in(2) => {}
            1 => making.fill(random, segment, 0),
            _ => {
                let drawn = random.draw() % 8;
                making.fill(random, segment, drawn);
            }
        }
    }
    making.lengthen(random);
    making.made()
}

impl Making {
    fn new(random: &mut Random, tables: &Tables) -> Making {
        let record = Record { due: GRANT, ..Record::loaded(*tables) };
        let nowhere = vec![vec![]; SEGMENTS.into()];
        let off = random.mixed((1..=TRAINS).collect());
        let mut making = Making { record, asking: vec![], off, asked: [false; SEGMENTS as usize], before: nowhere.clone(), on: nowhere };
        for route in 1..=tables.r {
            let listed = tables.route(route).listed();
            for (place, &own) in (1..).zip(listed) {
                making.on[usize::from(own) - 1].push((route, place));
                if let Some(&next) = listed.get(usize::from(place)) {
                    making.before[usize::from(next) - 1].push((route, place));
                }
            }
        }
        making
    }

    /// Puts trains before a segment, or on it, as drawn from 0 to 7.
    fn fill(&mut self, random: &mut Random, segment: u8, drawn: u64) {
        let stands = self.stands_before(random, segment);
        if self.record.allocated(segment) != 0 {
            // taken by the train on it
            stands.into_iter().for_each(|stand| self.goes_without(random, stand));
            return;
        }
        match (&stands[..], drawn) {
            (&[first, second], 0..=4) => self.contest(random, segment, [first, second]),
            (&[first, second], 5) => {
                // the first has it already
                self.holds(random, segment, first);
                self.goes_without(random, second);
            }
            (&[first, second], 6) => {
                self.far(random, first);
                self.alone(random, segment, second);
            }
            (&[first], 0..=3) => self.alone(random, segment, first),
            (&[first], 4) => self.holds(random, segment, first),
            (&[first], 5) => self.far(random, first),
            // a train on it, before which the others wait
            (_, 6 | 7) if !self.off.is_empty() && !self.on[usize::from(segment) - 1].is_empty() => {
                let stand = *random.of(&self.on[usize::from(segment) - 1]);
                self.stays(random, stand);
                self.fill(random, segment, drawn);
            }
            _ => {}
        }
    }

    /// Where trains can be put before a segment: one place on each segment that leads to it, where that is free and there is a train left.
    fn stands_before(&self, random: &mut Random, segment: u8) -> Vec<Stand> {
        let mut stands: Vec<Stand> = vec![];
        for stand in random.mixed(self.before[usize::from(segment) - 1].clone()) {
            let own = self.own(stand);
            let is_free = self.record.allocated(own) == 0 && !self.asked[usize::from(own) - 1];
            if is_free && stands.len() < self.off.len() && stands.iter().all(|&other| self.own(other) != own) {
                stands.push(stand);
            }
        }
        stands
    }

    fn own(&self, (route, place): Stand) -> u8 {
        self.record.tables.route(route).numbers[usize::from(place) - 1]
    }

    // ---- what trains before a segment do

    /// Two ask for it. Equal counts: the higher number gets it; others: the higher count.
    fn contest(&mut self, random: &mut Random, segment: u8, stands: [Stand; 2]) {
        let mut numbers = stands.map(|stand| self.put_near(random, stand));
        numbers.sort();
        let [lower, higher] = numbers;
        let same = count(random);
        let (less, more) = if random.one_in(2) { *random.of(&APART) } else { any_apart(random) };
        let (counts, winner) = match random.draw() % 4 {
            0 | 1 => ([same, same], higher),
            2 => ([more, less], lower),
            _ => ([less, more], higher),
        };
        for (number, count) in numbers.into_iter().zip(counts) {
            train(&mut self.record, number).count = count;
            self.asking.push((number, number == winner));
        }
        self.asked[usize::from(segment) - 1] = true;
    }

    /// One asks for it and gets it.
    fn alone(&mut self, random: &mut Random, segment: u8, stand: Stand) {
        let number = self.put_near(random, stand);
        self.asking.push((number, true));
        self.asked[usize::from(segment) - 1] = true;
    }

    /// One asks for a segment that is allocated.
    fn goes_without(&mut self, random: &mut Random, stand: Stand) {
        let number = self.put_near(random, stand);
        self.asking.push((number, false));
    }

    /// One has it already and does not ask.
    fn holds(&mut self, random: &mut Random, segment: u8, stand: Stand) {
        let number = self.put_near(random, stand);
        allocate(&mut self.record, segment, number);
        let RawTrain { speed, position, .. } = *self.record.train(number);
        // where it moves on in this cycle next's limit counts
        let speed = speed.min(self.record.tables.segment(segment).limit);
        go_to(&mut self.record, number, speed, position.into());
    }

    /// One is not near and does not ask.
    fn far(&mut self, random: &mut Random, stand @ (_, place): Stand) {
        let number = self.put_near(random, stand);
        let segment = own_segment(&self.record, number);
        let speed = random.edgy(0, segment.limit.into()) as u16;
        // it still stops within its segment: no way to run is longer than d; at 0 the segment behind is under it too
        let position = random.edgy((place > 1).into(), u64::from(segment.length - self.record.tables.d) - 1);
        go_to(&mut self.record, number, speed, position);
    }

    /// One does not ask: it is not near, or at its route's end.
    fn stays(&mut self, random: &mut Random, stand @ (route, place): Stand) {
        if place == self.record.tables.route(route).count && random.one_in(2) {
            self.put_near(random, stand);
        } else {
            self.far(random, stand);
        }
    }

    /// A train with any count, near the end of its segment, where it can stop; it is short, so that no other segment is under it.
    fn put_near(&mut self, random: &mut Random, stand @ (route, place): Stand) -> u8 {
        let (own, number) = (self.own(stand), self.off.pop().expect("there is a train left"));
        allocate(&mut self.record, own, number);
        *train(&mut self.record, number) = RawTrain { route, place, count: count(random), length: 1, ..RawTrain::OFF };
        let (segment, d) = (own_segment(&self.record, number), u64::from(self.record.tables.d));
        let wanted = random.edgy(0, segment.limit.into()) as u16;
        let way = |speed: u16| s(self.record.tables.b.into(), speed.into());
        let speed = if way(wanted) < d { wanted } else { 0 };
        let length = u64::from(segment.length);
        let position = random.edgy(length - d, length - 1 - way(speed));
        go_to(&mut self.record, number, speed, position);
        number
    }

    /// Makes trains longer, over segments that are free and that nobody asks for.
    fn lengthen(&mut self, random: &mut Random) {
        for number in 1..=TRAINS {
            if self.record.train(number).is_on() {
                lengthen(random, &mut self.record, number, |segment| !self.asked[usize::from(segment) - 1]);
            }
        }
    }

    // ---- what the step makes of it

    fn made(self) -> Merging {
        let before = self.record;
        let mut after = Record { due: POSITION, ..before };
        for (number, gets_it) in self.asking {
            let next = before.train(number).next(&before.tables).expect("a train that asks has a next");
            let train = train(&mut after, number);
            train.asks = 0;
            if gets_it {
                train.count = 0;
                allocate(&mut after, next, number);
            } else {
                train.count = train.count.saturating_add(1);
            }
        }
        Merging { before, after }
    }
}
