//! Lists of calls: each answer and the state after each call, from the core's own record as bytes, on a record that it keeps, and from
//! the file with the whole list; demand 3 on what the core hands back; after some calls and at the end the file sent back out.
use crate::kept::{self, Kept};
use crate::{counted, fail, loaded, same, same_bytes, Answers};
use reference::random::{self, Owned, Random};
use reference::script::{items_of, script_of};
use reference::*;

const CALLS: u64 = 2_000_000;
/// After one call in so many of a list the file is sent back out.
const SENT_EACH: usize = 100;

/// The answers that a list can have: 1 to 10 are load's, and 11 never comes.
const ANSWERS: [usize; 12] = [0, 12, 13, 14, 15, 16, 17, 18, 19, 20, 21, 23];

/// Whether a speed is the one meant, by the limit of the train's segment.
type IsAt = fn(u16, u16) -> bool;

/// Speeds that are wished or entered with, against the limit of the train's segment.
const SPEEDS: [(&str, IsAt); 4] = [
    ("0", |speed, _| speed == 0),
    ("the segment's limit", |speed, limit| speed == limit),
    ("one above the segment's limit", |speed, limit| speed == limit + 1),
    ("65,535", |speed, _| speed == 65_535),
];

/// What the lists came to, for the counts.
#[derive(Default)]
struct Seen {
    lists: u64,
    calls: u64,
    answers: Answers,
    granted: u64,
    without: u64,
    contested: u64,
    moved_on: u64,
    moved_on_to_0: u64,
    left: u64,
    cut: u64,
    in_two: u64,
    wishes: [u64; SPEEDS.len()],
    entries: [u64; SPEEDS.len()],
}

pub fn compare(seed: u64, kept: &mut kept::Seen) {
    let mut random = Random::new(seed);
    let mut seen = Seen::default();
    while seen.calls < CALLS {
        let lively = !random.one_in(4);
        let area = random::area(&mut random, lively);
        let mut list = List::new(seed, seen.lists + 1, &area, kept);
        for _ in 0..random.within(0, 700) {
            let call = random::call(&mut random, &area, list.record.due);
            let before = list.record;
            let number = list.call(call, kept);
            seen.note(&list.calls[list.calls.len() - 1], number, &before, &list.record);
        }
        list.whole();
        kept.written_back("the record after a list", &list.kept, &list.file, &list.record);
        if random.one_in(8) && !list.calls.is_empty() {
            list.with_less_room(&mut random);
            seen.cut += 1;
            list.in_two(&mut random);
            seen.in_two += 1;
        }
        seen.lists += 1;
    }
    seen.print();
}

impl Seen {
    fn note(&mut self, call: &Owned, number: u8, before: &Record, after: &Record) {
        self.calls += 1;
        self.answers[usize::from(number)] += 1;
        match (call, number) {
            (Owned::Enter(_, route, speed, _), 0 | 19) => {
                let first = before.tables.route(*route as u8).numbers[0];
                note_speed(&mut self.entries, *speed, before.tables.segment(first).limit);
            }
            (Owned::Leave(_), 0) => self.left += 1,
            (Owned::Speed(wishes), 0) => {
                for (train, &wish) in before.trains.iter().zip(wishes).filter(|(train, _)| train.is_on()) {
                    note_speed(&mut self.wishes, wish, before.tables.segment(train.own(&before.tables)).limit);
                }
            }
            (Owned::Grant, 0) => self.note_grant(before, after),
            (Owned::Position, 0) => {
                for (_, train) in before.trains.iter().zip(&after.trains).filter(|(was, is)| was.place != is.place) {
                    self.moved_on += 1;
                    self.moved_on_to_0 += u64::from(train.position == 0);
                }
            }
            _ => {}
        }
    }

    fn note_grant(&mut self, before: &Record, after: &Record) {
        let mut asking = [0; SEGMENTS as usize];
        for (number, train) in (1..).zip(&before.trains).filter(|(_, train)| train.asks == 1) {
            let next = train.next(&before.tables).expect("a train that asks has a next");
            asking[usize::from(next) - 1] += 1;
            self.without += u64::from(after.allocated(next) != number);
        }
        self.contested += asking.iter().filter(|&&trains| trains > 1).count() as u64;
        self.granted += before.allocations.iter().zip(&after.allocations).filter(|(was, is)| was != is).count() as u64;
    }

    fn print(&self) {
        println!("lists: {} of {} calls; answer and state after each call compared, demand 3 checked", self.lists, self.calls);
        println!("lists: of these and of all lists below, the wishes after each call and the file at the end are as they were handed in");
        for number in ANSWERS {
            counted(format_args!("lists: answer {number}"), self.answers[number], 1);
        }
        counted("lists: segments granted", self.granted, 1);
        counted("lists: trains that asked and went without", self.without, 1);
        counted("lists: segments that two or more trains asked for in one step", self.contested, 1);
        counted("lists: trains moved on", self.moved_on, 1);
        counted("lists: trains moved on to position 0", self.moved_on_to_0, 1);
        counted("lists: trains that left", self.left, 1);
        counted("lists: cut by a buffer with less room", self.cut, 1);
        counted("lists: run in two parts, the second from the state after the first", self.in_two, 1);
        for ((name, _), (wishes, entries)) in SPEEDS.iter().zip(self.wishes.into_iter().zip(self.entries)) {
            counted(format_args!("lists: wishes at {name}"), wishes, 1);
            counted(format_args!("lists: entries at {name}"), entries, 1);
        }
    }
}

fn note_speed(counts: &mut [u64; SPEEDS.len()], speed: u16, limit: u16) {
    for ((_, is), count) in SPEEDS.iter().zip(counts) {
        *count += u64::from(is(speed, limit));
    }
}

/// One list from one accepted file, run by both programs call by call.
pub struct List {
    seed: u64,
    /// which of the lists, from 1
    which: u64,
    file: Vec<u8>,
    area: Area,
    /// the second program's
    pub record: Record,
    demand: Demand3,
    /// the core's, kept from call to call
    kept: Kept,
    calls: Vec<Owned>,
    numbers: Vec<u8>,
    /// the core's as bytes, after load and after each call
    states: Vec<[u8; STATE_SIZE]>,
}

impl List {
    pub fn new(seed: u64, which: u64, area: &Description, kept: &mut kept::Seen) -> List {
        let file = area.file();
        let area = loaded(seed, &file);
        let record = area.record();
        let mut state = [99; STATE_SIZE];
        let ran = rbu::bytes::run_file(&file, &[], &mut [], &mut state);
        same(seed, "a list without calls", ran, ((0, 0), 0));
        same_bytes(seed, "the state after load", &state, &state_of(&record));
        let demand = Demand3::new(area.tables());
        let kept = kept.start(&file, &record);
        List { seed, which, file, area, record, demand, kept, calls: vec![], numbers: vec![], states: vec![state] }
    }

    /// The next call: the core has it on the record that it handed back last, and on the one that it keeps. "The built calls give the
    /// same answers, and the record handed back holds the same trains on, routes, step due, speeds and allocations": here the whole
    /// state; then demand 3. "Files and wishes are only read."
    pub fn call(&mut self, owned: Owned, kept: &mut kept::Seen) -> u8 {
        let (list, call, lent) = (self.which, self.calls.len() + 1, owned.clone());
        let number = self.area.call(&owned.call());
        let before = std::mem::replace(&mut self.record, self.area.record());
        kept.lengths.note(&owned.call(), number, &before, &self.record);
        let (mut answer, mut state) = ([99], self.states[self.calls.len()]);
        let ran = rbu::bytes::run_record(&self.file, &items_of(&owned.call()), &mut answer, &mut state);
        same(self.seed, format_args!("list {list}, call {call}, its answer"), (ran, answer[0]), (1, number));
        same_bytes(self.seed, format_args!("list {list}, call {call}, the state after it"), &state, &state_of(&self.record));
        let what = format_args!("list {list}, call {call}");
        kept.call_of_list(what, &mut self.kept, &owned.call(), number, &self.area, &self.record);
        if call.is_multiple_of(SENT_EACH) {
            kept.written_back(what, &self.kept, &self.file, &self.record);
        }
        same(self.seed, format_args!("list {list}, call {call}, its numbers and wishes after it"), &owned, &lent);
        let core = record_of(self.area.tables(), &state);
        if let Err(broken) = self.demand.tell(&owned.call(), answer[0], &core) {
            fail(format_args!("list {list}, call {call}: demand 3 is broken: {broken} (seed {})", self.seed));
        }
        self.calls.push(owned);
        self.numbers.push(number);
        self.states.push(state);
        number
    }

    fn script(&self) -> Vec<u16> {
        script_of(&self.calls.iter().map(Owned::call).collect::<Vec<_>>())
    }

    /// The list in one from the file, with more room than it needs, and the report after it.
    pub fn whole(&self) {
        let script = self.script();
        let mut answers = vec![99; self.calls.len() + 3];
        let mut state = [99; STATE_SIZE + 5];
        let (answer, ran) = rbu::bytes::run_file(&self.file, &script, &mut answers, &mut state);
        same(self.seed, "load before a list", answer, (0, 0));
        same(self.seed, "the number of calls", ran, self.calls.len());
        same(self.seed, "the answers of a list", &answers[..ran], &self.numbers[..]);
        same(self.seed, "what the buffer has beyond the answers", &answers[ran..], &[99; 3][..]);
        same_bytes(self.seed, "the state after a list", &state[..STATE_SIZE], &state_of(&self.record));
        same(self.seed, "what the buffer has beyond the state", &state[STATE_SIZE..], &[99; 5][..]);
        same_bytes(self.seed, "the file after a list", &self.file, &file_of(self.area.tables()));
        self.kept.same_report(self.seed, "the record after a list", self.area.report());
    }

    /// A buffer with less room for the answers ends the list earlier; one with less room for the state gets a part of it.
    fn with_less_room(&self, random: &mut Random) {
        let room = random.within(0, self.calls.len() as u64 - 1) as usize;
        let size = random.within(0, STATE_SIZE as u64) as usize;
        let mut answers = vec![99; room];
        let mut state = vec![99; size];
        let (_, ran) = rbu::bytes::run_file(&self.file, &self.script(), &mut answers, &mut state);
        same(self.seed, "the number of calls where there is less room", ran, room);
        same(self.seed, "the answers where there is less room", &answers[..], &self.numbers[..room]);
        same_bytes(self.seed, "the state where there is less room", &state, &self.states[room][..size]);
    }

    /// The list in two parts: the state that the first wrote, read back, continues the run. The buffer may be longer than a state.
    fn in_two(&self, random: &mut Random) {
        let first = random.within(0, self.calls.len() as u64) as usize;
        let script = self.script();
        let (before, after) = script.split_at(ITEMS * first);
        let mut answers = vec![99; self.calls.len()];
        let mut state = vec![99; STATE_SIZE + random.within(0, 5) as usize];
        let (_, ran) = rbu::bytes::run_file(&self.file, before, &mut answers[..first], &mut state);
        same(self.seed, "the number of calls of a first part", ran, first);
        let ran = rbu::bytes::run_record(&self.file, after, &mut answers[first..], &mut state);
        same(self.seed, "the number of calls of a second part", ran, self.calls.len() - first);
        same(self.seed, "the answers of a list in two parts", &answers, &self.numbers);
        same_bytes(self.seed, "the state after a list in two parts", &state[..STATE_SIZE], &state_of(&self.record));
        same(self.seed, "what the buffer has beyond the state", &state[STATE_SIZE..], &vec![99; state.len() - STATE_SIZE][..]);
    }
}
