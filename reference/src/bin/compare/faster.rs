//! R-3 of document 02, faster line: records with the greatest numbers, records at edges on areas at the bounds, and long lists of calls on
//! areas with `gmax` 1001 to 2000 and lengths to 4,000,000, compared and checked as the other lists.
use crate::kept;
use crate::lists::List;
use crate::records::both_ways;
use crate::{counted, fail, loaded};
use reference::bounds::{AT_BOUNDS, GREATEST};
use reference::edges::{record_at, EDGES};
use reference::random::{self, Owned, Random};
use reference::*;

/// So many times each edge is tried on areas at each bound.
const EACH_EDGE: u32 = 10;
const AT_EDGES: u64 = 6_000;
const BEYOND: u64 = 100;
const LISTS: u64 = 24;
/// Of each list: at the top speed a train runs 2000 in four of them.
const CALLS: u64 = 12_000;

pub fn compare(seed: u64, kept: &mut kept::Seen) {
    let mut random = Random::new(seed);
    greatest(seed, kept);
    edges(seed, &mut random, kept);
    lists(seed, &mut random, kept);
}

// ---- records

/// Each train in each record. What the step due makes of it is known from how the record was made.
fn greatest(seed: u64, kept: &mut kept::Seen) {
    for one in GREATEST {
        let file = one.area().file();
        kept.start(&file, &loaded(seed, &file).record());
        let mut records: u64 = 0;
        for number in 1..=TRAINS {
            let (before, answer, after) = one.records(number);
            if both_ways(seed, one.name, &file, &before, &one.call(), kept) != (answer == 0, answer, after) {
                fail(format_args!("a record ({}): the second program is wrong (seed {seed}): {before:?}", one.name));
            }
            records += 1;
        }
        let side = if one.after.is_some() { "sound" } else { "unsound" };
        println!("faster: {} ({side}): {records}", one.name);
    }
}

/// Records at the edges of "A sound record" on accepted areas at the bounds, each with a call.
fn edges(seed: u64, random: &mut Random, kept: &mut kept::Seen) {
    let (mut records, mut beyond): (u64, u64) = (0, 0);
    for bound in AT_BOUNDS.iter().filter(|bound| bound.answers[0] == 0) {
        for _ in 0..EACH_EDGE {
            let (area, _) = bound.made(random);
            let file = area.file();
            let loaded = loaded(seed, &file);
            kept.start(&file, &loaded.record());
            for edge in EDGES {
                let Some(record) = record_at(random, loaded.tables(), edge) else { continue };
                let call = random::call(random, &area, record.due);
                let (is_sound, ..) = both_ways(seed, edge.name, &file, &record, &call.call(), kept);
                if is_sound != edge.sound {
                    fail(format_args!("a record's soundness ({}, {}): both programs say {is_sound} (seed {seed})", bound.name, edge.name));
                }
                records += 1;
                let is_beyond = |train: &RawTrain| train.speed > 1000 && train.position > 1_000_000;
                beyond += u64::from(is_sound && record.trains.iter().any(is_beyond));
            }
        }
    }
    counted("faster: records at edges, on areas at the bounds", records, AT_EDGES);
    counted("faster: these sound with a train faster than 1000 beyond position 1,000,000", beyond, BEYOND);
}

// ---- lists

/// What the lists came to.
#[derive(Default)]
struct Seen {
    /// lists with `gmax` 2000, and with a segment of 4,000,000
    at_2000: u64,
    at_4_000_000: u64,
    done: u64,
    /// position steps in which a train ran faster than 1000; in these, trains with `b` 1 that did
    fast: u64,
    slow_to_stop: u64,
    /// trains that ran past position 1,000,000, and that moved on from a segment longer than that; the greatest position
    past: u64,
    moved_on: u64,
    furthest: u64,
    /// the greatest way on a route beyond its first segment
    way: u64,
}

/// The least of each.
const LEAST: Seen = Seen {
    at_2000: 4,
    at_4_000_000: 2,
    done: 200_000,
    fast: 50_000,
    slow_to_stop: 50_000,
    past: 60,
    moved_on: 40,
    furthest: 3_000_000,
    way: 4_000_001,
};

fn lists(seed: u64, random: &mut Random, kept: &mut kept::Seen) {
    let mut seen = Seen::default();
    for which in 1..=LISTS {
        let area = random::faster(random);
        let mut list = List::new(seed, which, &area, kept);
        for _ in 0..CALLS {
            let call = random::running(random, &area, &list.record);
            let (before, is_position) = (list.record, matches!(call, Owned::Position));
            if list.call(call, kept) == 0 {
                seen.done += 1;
                if is_position {
                    seen.note(&before, &list.record);
                }
            }
        }
        list.whole();
        seen.at_2000 += u64::from(area.gmax == 2000);
        seen.at_4_000_000 += u64::from(area.segments.iter().any(|segment| segment.length == 4_000_000));
    }
    println!("faster: {LISTS} lists on areas with gmax above 1000 and lengths above 1,000,000, of {CALLS} calls each");
    for ((what, count), (_, least)) in seen.rows().into_iter().zip(LEAST.rows()) {
        counted(format_args!("faster: {what}"), count, least);
    }
}

impl Seen {
    /// A position step answered done.
    fn note(&mut self, before: &Record, after: &Record) {
        let tables = &before.tables;
        let mut is_fast = false;
        for (was, is) in before.trains.iter().zip(&after.trains).filter(|(was, _)| was.is_on()) {
            is_fast |= was.speed > 1000;
            self.slow_to_stop += u64::from(tables.b == 1 && was.speed > 1000);
            if was.place == is.place {
                self.past += u64::from(was.position <= 1_000_000 && is.position > 1_000_000);
            } else {
                self.moved_on += u64::from(tables.segment(was.own(tables)).length > 1_000_000);
            }
            self.furthest = self.furthest.max(is.position.into());
            if is.place > 1 {
                self.way = self.way.max(is.way(tables));
            }
        }
        self.fast += u64::from(is_fast);
    }

    fn rows(&self) -> [(&'static str, u64); 9] {
        [
            ("these with gmax 2000", self.at_2000),
            ("these with a segment of 4,000,000", self.at_4_000_000),
            ("calls of them answered done", self.done),
            ("position steps in which a train ran faster than 1000", self.fast),
            ("trains in them with b 1 and a speed above 1000", self.slow_to_stop),
            ("trains past position 1,000,000", self.past),
            ("trains moved on from a segment longer than 1,000,000", self.moved_on),
            ("the greatest position", self.furthest),
            ("the greatest way, on a route's second segment or later", self.way),
        ]
    }
}
