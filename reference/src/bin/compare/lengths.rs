//! R-4 of document 02, trains have a length: records by hand, position steps that bring front or rear to the end of a segment, entries with
//! wrong lengths beside other refusals, and lists of calls on areas with short segments. The lists and the records of all parts tell it
//! their calls, for what becomes of the segments under trains.
use crate::kept;
use crate::lists::List;
use crate::records::both_ways;
use crate::{counted, fail, loaded};
use reference::edges::sound_record;
use reference::lengths::{entry, line, step, with_a_wrong_length, Comes, Step, BESIDE, BY_HAND};
use reference::random::{self, Random};
use reference::*;

const STEPS: u64 = 40_000;
const ENTRIES: u64 = 20_000;
const EACH_PAIR: u64 = 1_000;
const CALLS: u64 = 300_000;

// ---- what calls came to

/// Whether a length is the one meant, by the lengths of the route's segments.
type Is = fn(u32, &[u32]) -> bool;

/// Lengths to enter with, and the least of each.
const LENGTHS: [(&str, Is, u64); 8] = [
    ("1", |length, _| length == 1, 25_000),
    ("a segment's less 1", |length, segments| segments.contains(&(length + 1)), 2_000),
    ("a segment's", |length, segments| segments.contains(&length), 2_000),
    ("a segment's and 1", |length, segments| segments.contains(&(length - 1)), 2_000),
    ("20,000", |length, _| length == 20_000, 7_000),
    ("its route's less 1", |length, segments| length + 1 == segments.iter().sum(), 1_400),
    ("its route's", |length, segments| length == segments.iter().sum(), 1_400),
    ("more than its route's", |length, segments| length > segments.iter().sum(), 15_000),
];

/// Where a position step brings front or rear, against the end of a segment.
const AT: [(&str, i64); 3] = [("to one before an end", -1), ("to an end", 0), ("to one past an end", 1)];

/// What calls came to, for the counts.
pub struct Seen {
    seed: u64,
    entries: [u64; LENGTHS.len()],
    counts: Counts,
}

#[derive(Default)]
struct Counts {
    refused: u64,
    /// trains that a position step brings there with the front, and with the rear
    fronts: [u64; AT.len()],
    rears: [u64; AT.len()],
    /// trains in position steps: that free a segment, and none
    free_one: u64,
    free_none: u64,
    /// that move on and free none, that move on and free one, and that free one without moving on
    move_on: u64,
    move_on_and_free: u64,
    free_behind: u64,
    /// that move on with the rear outside; that move on and are at least as long as their route
    outside: u64,
    long: u64,
    /// the most segments under a train
    most: u64,
    /// trains that leave, by how many segments they free: 1, 2, 3 and more; those at least as long as their route and longer, which free all
    /// of its segments then
    leave: [u64; 3],
    leave_whole: [u64; 2],
}

/// The least of each.
const LEAST: Counts = Counts {
    refused: 13_000,
    fronts: [20_000, 15_000, 15_000],
    rears: [14_000; AT.len()],
    free_one: 90_000,
    free_none: 2_000_000,
    move_on: 35_000,
    move_on_and_free: 70_000,
    free_behind: 15_000,
    outside: 17_000,
    long: 11_000,
    most: 20,
    leave: [30_000, 8_000, 3_000],
    leave_whole: [7_000, 6_000],
};

impl Seen {
    pub fn new(seed: u64) -> Seen {
        Seen { seed, entries: [0; LENGTHS.len()], counts: Counts::default() }
    }

    /// A call with this answer, the record that it was handed and the one that it hands back.
    pub fn note(&mut self, call: &Call, answer: u8, before: &Record, after: &Record) {
        match (*call, answer) {
            (Call::Enter { route, length, .. }, 0) => {
                let segments: Vec<u32> = before.tables.lengths(route as u8).collect();
                for ((_, is, _), count) in LENGTHS.iter().zip(&mut self.entries) {
                    *count += u64::from(is(length.into(), &segments));
                }
            }
            (Call::Enter { .. }, 23) => self.counts.refused += 1,
            (Call::Leave { train }, 0) => self.note_leave(before, train as u8),
            (Call::Position, 0) => {
                (1..=TRAINS).filter(|&number| before.train(number).is_on()).for_each(|number| self.note_step(before, after, number));
            }
            _ => {}
        }
    }

    /// A train in a position step. It never frees more than one segment, none while its rear is outside, and none at all if it is at least
    /// as long as its route.
    fn note_step(&mut self, before: &Record, after: &Record, number: u8) {
        let (tables, train) = (&before.tables, after.train(number));
        let freed = allocated(before, number) - allocated(after, number);
        let moves_on = before.train(number).place != train.place;
        let (front, is_long) = (train.way(tables) as i64, is_long(tables, train));
        let rear = front - i64::from(train.length);
        if freed > 1 || (freed > 0 && (rear < 0 || is_long)) {
            fail(format_args!(
                "train {number} frees {freed} segments in a position step, its rear at {rear} (seed {}): {train:?}",
                self.seed
            ));
        }
        let counts = &mut self.counts;
        let moves = u64::from(train.speed > 0);
        for end in tables.stretches(train.route).map(|segment| segment.end as i64) {
            for (k, (_, beyond)) in AT.iter().enumerate() {
                counts.fronts[k] += moves * u64::from(front == end + beyond);
                counts.rears[k] += moves * u64::from(rear == end + beyond);
            }
        }
        match freed {
            0 => counts.free_none += 1,
            _ => counts.free_one += 1,
        }
        match (moves_on, freed) {
            (true, 0) => counts.move_on += 1,
            (true, _) => counts.move_on_and_free += 1,
            (false, 0) => {}
            (false, _) => counts.free_behind += 1,
        }
        counts.outside += u64::from(moves_on && rear < 0);
        counts.long += u64::from(moves_on && is_long);
        counts.most = counts.most.max(train.under(tables).len() as u64);
    }

    fn note_leave(&mut self, before: &Record, number: u8) {
        let (tables, train, freed) = (&before.tables, before.train(number), allocated(before, number));
        self.counts.leave[freed.min(3) - 1] += 1;
        if is_long(tables, train) {
            if freed != usize::from(tables.route(train.route).count) {
                fail(format_args!("train {number}, as long as its route, leaves {freed} segments (seed {}): {train:?}", self.seed));
            }
            self.counts.leave_whole[0] += 1;
            self.counts.leave_whole[1] += u64::from(u64::from(train.length) > route_length(tables, train));
        }
    }

    pub fn print(&self) {
        for ((name, _, least), count) in LENGTHS.iter().zip(self.entries) {
            counted(format_args!("lengths: entries done with length {name}"), count, *least);
        }
        for ((what, count), (_, least)) in self.counts.rows().into_iter().zip(LEAST.rows()) {
            counted(format_args!("lengths: {what}"), count, least);
        }
    }
}

impl Counts {
    fn rows(&self) -> Vec<(String, u64)> {
        let mut rows = vec![("entries refused with 23".into(), self.refused)];
        for (what, counts) in [("front", self.fronts), ("rear", self.rears)] {
            rows.extend(AT.iter().zip(counts).map(|((at, _), count)| (format!("trains that come with the {what} {at}"), count)));
        }
        let steps = [
            ("trains in position steps that free one segment, and none more", self.free_one),
            ("trains in position steps that free none", self.free_none),
            ("trains that move on and free none", self.move_on),
            ("trains that move on and free one", self.move_on_and_free),
            ("trains that free one without moving on", self.free_behind),
            ("trains that move on with the rear outside, and free none", self.outside),
            ("trains at least as long as their route that move on and free none", self.long),
            ("the most segments under a train", self.most),
            ("trains that leave one segment", self.leave[0]),
            ("trains that leave two segments", self.leave[1]),
            ("trains that leave three segments or more", self.leave[2]),
            ("trains at least as long as their route that leave all its segments", self.leave_whole[0]),
            ("trains longer than their route that leave all its segments", self.leave_whole[1]),
        ];
        rows.extend(steps.map(|(what, count)| (what.into(), count)));
        rows
    }
}

/// How many segments are allocated to a train.
fn allocated(record: &Record, number: u8) -> usize {
    record.allocations.iter().filter(|&&train| train == number).count()
}

fn route_length(tables: &Tables, train: &RawTrain) -> u64 {
    tables.stretches(train.route).last().map_or(0, |last| last.end)
}

fn is_long(tables: &Tables, train: &RawTrain) -> bool {
    u64::from(train.length) >= route_length(tables, train)
}

pub fn compare(seed: u64, kept: &mut kept::Seen) {
    let mut random = Random::new(seed);
    by_hand(seed, kept);
    steps(seed, &mut random, kept);
    entries(seed, &mut random, kept);
    lists(seed, &mut random, kept);
}

// ---- records

/// Each train in each record by hand.
fn by_hand(seed: u64, kept: &mut kept::Seen) {
    let file = line().file();
    kept.start(&file, &loaded(seed, &file).record());
    for one in BY_HAND {
        for number in 1..=TRAINS {
            let (before, call, answer, after) = one.records(number);
            if both_ways(seed, one.name, &file, &before, &call, kept) != (answer == 0, answer, after) {
                fail(format_args!("a record ({}): the second program is wrong (seed {seed}): {before:?}", one.name));
            }
        }
        let side = if matches!(one.comes, Comes::Unsound) { "unsound" } else { "sound" };
        println!("lengths: {} ({side}): {TRAINS}", one.name);
    }
}

/// Position steps that bring front or rear to the end of a segment. What they hand back is known from how the record was made.
fn steps(seed: u64, random: &mut Random, kept: &mut kept::Seen) {
    let mut made = 0;
    while made < STEPS {
        let area = if random.one_in(4) { random::area(random, true) } else { random::short_segments(random) };
        let file = area.file();
        let loaded = loaded(seed, &file);
        kept.start(&file, &loaded.record());
        for _ in 0..40 {
            let Some(Step { before, after, number }) = step(random, loaded.tables()) else { continue };
            let what = "made with a train that comes to an end";
            if both_ways(seed, what, &file, &before, &Call::Position, kept) != (true, 0, after) {
                fail(format_args!("a record {what}, train {number}: the second program is wrong (seed {seed}): {before:?}"));
            }
            made += 1;
        }
    }
    println!("lengths: {made} position steps that bring front or rear to an end or next to it");
}

/// "23 .., after 16": entries that another refusal turns away, and that none does, with right and with wrong lengths.
fn entries(seed: u64, random: &mut Random, kept: &mut kept::Seen) {
    let (mut made, mut pairs): (u64, [u64; BESIDE.len()]) = (0, [0; BESIDE.len()]);
    while made < ENTRIES {
        let lively = random.one_in(3);
        let area = random::area(random, lively);
        let file = area.file();
        let loaded = loaded(seed, &file);
        kept.start(&file, &loaded.record());
        for (beside, count) in BESIDE.into_iter().zip(&mut pairs) {
            let due = random.within(SPEED.into(), POSITION.into()) as u8;
            let record = sound_record(random, loaded.tables(), due);
            let Some((train, route, speed)) = entry(random, &record, beside) else { continue };
            let mut enter = |record: &Record, length: u16, right: u8| {
                let call = Call::Enter { train, route, speed, length };
                let what = "with an entry";
                let (_, answer, _) = both_ways(seed, what, &file, record, &call, kept);
                if answer != right {
                    fail(format_args!("a record {what}: both programs say {answer}, right is {right} (seed {seed}): {call:?}"));
                }
            };
            let (right, wrong) = (random.edgy(1, LONGEST_TRAIN.into()) as u16, random::wrong_length(random));
            enter(&record, right, beside);
            enter(&record, wrong, with_a_wrong_length(beside));
            enter(&Record { due: 4, ..record }, wrong, 11);
            *count += 1;
            made += 1;
        }
    }
    for (beside, count) in BESIDE.into_iter().zip(pairs) {
        let says = with_a_wrong_length(beside);
        counted(format_args!("lengths: entries answered {beside}, and with a wrong length {says}"), count, EACH_PAIR);
    }
    counted("lengths: entries with a wrong length answered 11, the record unsound", made, ENTRIES);
}

// ---- lists

/// Lists of calls on areas with short segments, in which trains lie over many of them, compared and checked as the other lists.
fn lists(seed: u64, random: &mut Random, kept: &mut kept::Seen) {
    let (mut lists, mut calls) = (0, 0);
    while calls < CALLS {
        let area = random::short_segments(random);
        lists += 1;
        let mut list = List::new(seed, lists, &area, kept);
        for _ in 0..random.within(200, 1500) {
            let call = random::meeting(random, &area, &list.record, 1);
            list.call(call, kept);
            calls += 1;
        }
        list.whole();
    }
    println!("lengths: {lists} lists of {calls} calls; answer and state after each call compared, demand 3 checked");
}
