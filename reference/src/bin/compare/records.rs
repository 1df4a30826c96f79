//! Records that no run has reached: the sound test, the report, the file sent back out, and a call with the record that it hands back, of
//! the record as bytes and as one that is kept.
use crate::kept::{self, Kept};
use crate::{counted, fail, loaded, same, same_bytes, Answers};
use reference::breaks::{from_rule, PLACES};
use reference::edges::{record_at, sound_record, EDGES};
use reference::random::{self, Random};
use reference::script::items_of;
use reference::*;

const RECORDS: u32 = 200_000;
/// One record in so many is sent back out.
const SENT_EACH: u32 = 2;
const SOUND: u64 = 20_000;
const UNSOUND: u64 = 20_000;
const EACH_EDGE: u64 = 50;

/// The answers of calls: 1 to 10 are load's.
const ANSWERS: [usize; 13] = [0, 11, 12, 13, 14, 15, 16, 17, 18, 19, 20, 21, 23];

/// What records are made of. Edges stand apart.
const KINDS: [&str; 4] = ["made sound", "reached by a run and spoilt", "with a broken file", "of random bytes"];

/// A record, the file that spells its tables, and whether it is sound, where that is known from how it was made.
struct Made {
    file: Vec<u8>,
    record: Record,
    sound: Option<bool>,
    kind: Kind,
}

enum Kind {
    Of(usize),
    At(usize),
}

/// What the records came to, for the counts.
struct Seen {
    seed: u64,
    records: u32,
    sound: u32,
    kinds: [u32; KINDS.len()],
    edges: [u32; EDGES.len()],
    answers: Answers,
}

pub fn compare(seed: u64, kept: &mut kept::Seen) {
    let mut random = Random::new(seed);
    let mut seen = Seen { seed, records: 0, sound: 0, kinds: [0; KINDS.len()], edges: [0; EDGES.len()], answers: Answers::default() };
    while seen.records < RECORDS {
        let lively = !random.one_in(4);
        let area = random::area(&mut random, lively);
        let whole = area.file();
        let mut run = loaded(seed, &whole);
        kept.start(&whole, &run.record());
        for _ in 0..random.within(0, 200) {
            let call = random::call(&mut random, &area, run.record().due);
            run.call(&call.call());
        }
        let reached = run.record();
        kept.written_back("a record that a run has reached", &Kept::of(&reached), &whole, &reached);
        for _ in 0..20 {
            // the record just reached is no new one
            if let Some(made) = make(&mut random, &area, &reached).filter(|made| made.record != reached) {
                seen.record(&mut random, &area, &whole, &made, kept);
            }
        }
        for _ in 0..4 {
            let call = random::call(&mut random, &area, reached.due);
            kept.damaged(&mut random, &reached, &call.call());
        }
    }
    seen.print();
}

impl Seen {
    /// A record of an area. The area's whole file comes out where it is sound: none with other tables than the area's is.
    fn record(&mut self, random: &mut Random, area: &Description, whole: &[u8], made: &Made, kept: &mut kept::Seen) {
        let Made { file, record, .. } = made;
        let what = match made.kind {
            Kind::Of(k) => KINDS[k],
            Kind::At(k) => EDGES[k].name,
        };
        let call = random::call(random, area, record.due);
        let (is_sound, number, _) = both_ways(self.seed, what, file, record, &call.call(), kept);
        if made.sound.is_some_and(|known| known != is_sound) {
            fail(format_args!("a record's soundness ({what}): both programs say {is_sound} (seed {})", self.seed));
        }
        if self.records.is_multiple_of(SENT_EACH) {
            kept.written(format_args!("a record ({what})"), &Kept::of(record), file, whole, record);
        }
        self.records += 1;
        self.sound += u32::from(is_sound);
        self.answers[usize::from(number)] += 1;
        match made.kind {
            Kind::Of(k) => self.kinds[k] += 1,
            Kind::At(k) => self.edges[k] += 1,
        }
    }

    fn print(&self) {
        println!("records: {} compared, none of them one that a run had just reached", self.records);
        counted("records: sound", self.sound, SOUND);
        counted("records: unsound", self.records - self.sound, UNSOUND);
        for (name, count) in KINDS.iter().zip(self.kinds) {
            counted(format_args!("records: {name}"), count, 1);
        }
        for (edge, count) in EDGES.iter().zip(self.edges) {
            let side = if edge.sound { "sound" } else { "unsound" };
            counted(format_args!("records: edge, {} ({side})", edge.name), count, EACH_EDGE);
        }
        for number in ANSWERS {
            counted(format_args!("records: answer {number}"), self.answers[number], 1);
        }
    }
}

/// Any record, as bytes and kept: its soundness, its report, and a call. What the second program says: its soundness, the call's answer
/// and the record handed back.
pub fn both_ways(seed: u64, what: &str, file: &[u8], record: &Record, call: &Call, kept: &mut kept::Seen) -> (bool, u8, Record) {
    let mut state = state_of(record);
    let is_sound = sound(record);
    same(seed, format_args!("a record's soundness ({what})"), rbu::bytes::sound(file, &state), is_sound);
    let (number, allocated, free) = report_on(record);
    let report = rbu::bytes::report_record(file, &state);
    same(seed, format_args!("a record's report ({what})"), report, (number, allocated as u8, free as u8));
    let (number, after) = call_on(record, call);
    let mut answer = [99];
    let ran = rbu::bytes::run_record(file, &items_of(call), &mut answer, &mut state);
    same(seed, format_args!("a call on a record ({what})"), (ran, answer[0]), (1, number));
    same_bytes(seed, format_args!("the state after a call on a record ({what})"), &state, &state_of(&after));
    kept.record(format_args!("a record ({what})"), record, call);
    kept.lengths.note(call, number, record, &after);
    (is_sound, number, after)
}

/// A record with the area's tables or others; none where what was drawn is not to be had.
fn make(random: &mut Random, area: &Description, reached: &Record) -> Option<Made> {
    let (file, tables) = (area.file(), &reached.tables);
    match random.draw() % 20 {
        0..=5 => {
            let due = random.within(SPEED.into(), POSITION.into()) as u8;
            Some(Made { file, record: sound_record(random, tables, due), sound: Some(true), kind: Kind::Of(0) })
        }
        6..=13 => {
            let k = random.within(0, EDGES.len() as u64 - 1) as usize;
            let record = record_at(random, tables, &EDGES[k])?;
            Some(Made { file, record, sound: Some(EDGES[k].sound), kind: Kind::At(k) })
        }
        14..=16 => {
            let mut record = *reached;
            (0..random.within(1, 3)).for_each(|_| spoil(random, &mut record));
            Some(Made { file, record, sound: None, kind: Kind::Of(1) })
        }
        17..=18 => with_a_broken_file(random, area, reached),
        _ => Some(of_random_bytes(random, file)),
    }
}

/// The record reached or a sound one, its file with a condition of rules 4 to 10 broken. Where only bytes that the tables do not keep
/// are wrong, it is still sound.
fn with_a_broken_file(random: &mut Random, area: &Description, reached: &Record) -> Option<Made> {
    let mut file = area.file();
    let one = random.of(from_rule(4));
    let place = *random.of(&PLACES);
    if !(one.change)(random, area, &mut file, place) {
        return None;
    }
    let tables = decode_tables(&file);
    let base = if random.one_in(2) { *reached } else { sound_record(random, &reached.tables, reached.due) };
    Some(Made { file, record: Record { tables, ..base }, sound: Some(tables == reached.tables), kind: Kind::Of(2) })
}

/// A state of random bytes, with the area's tables or random ones.
fn of_random_bytes(random: &mut Random, mut file: Vec<u8>) -> Made {
    if random.one_in(2) {
        file = (0..FILE_SIZE).map(|_| random.draw() as u8).collect();
    }
    let state: [u8; STATE_SIZE] = std::array::from_fn(|_| random.draw() as u8);
    let record = record_of(&decode_tables(&file), &state);
    Made { file, record, sound: None, kind: Kind::Of(3) }
}

/// Changes something of a record: a train, an allocation, the step due.
fn spoil(random: &mut Random, record: &mut Record) {
    let t = random.within(0, u64::from(TRAINS) - 1) as usize;
    let train = &mut record.trains[t];
    match random.draw() % 15 {
        0 => train.route = random.edgy(0, u64::from(ROUTES) + 1) as u8,
        1 => train.place = random.edgy(0, u64::from(ROUTE_SEGMENTS) + 1) as u8,
        2 => train.position = random.edgy(0, LONGEST.into()) as u32,
        3 => train.position = train.position.saturating_add(random.within(1, 2 * u64::from(TOP_SPEED)) as u32),
        4 => train.speed = random.edgy(0, u64::from(TOP_SPEED) + 1) as u16,
        5 => train.asks ^= 1,
        6 => record.due = random.within(0, 4) as u8,
        7 | 8 => record.allocations[random.within(0, u64::from(SEGMENTS) - 1) as usize] = random.edgy(0, u64::from(TRAINS) + 1) as u8,
        9 => *train = RawTrain::OFF,
        10 => train.asks = random.edgy(2, 255) as u8,
        11 => train.count = random::count(random),
        12 => train.length = random.edgy(0, u64::from(LONGEST_TRAIN) + 1) as u16,
        13 => train.length = random::wrong_length(random),
        _ => train.position = u32::MAX,
    }
}
