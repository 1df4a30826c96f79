//! Grants: to which of two trains a segment goes, and what becomes of the counts. In records made with trains before merges, in lists of
//! calls in which trains meet, and in one in which they wait until their counts stop; then trains off with a count and trains that leave
//! with one.
use crate::kept::{self, Kept};
use crate::lists::List;
use crate::records::both_ways;
use crate::{counted, fail, loaded, same, same_bytes};
use reference::edges::leaving_record;
use reference::merges::{merging_record, Merging};
use reference::random::{self, Owned, Random};
use reference::script::{items_of, script_of};
use reference::*;

const RECORDS: u64 = 50_000;
const OFF_WITH_A_COUNT: u64 = 15_000;
const LEFT_WITH_A_COUNT: u64 = 15_000;
const CALLS: u64 = 800_000;
/// One train in so many of the lists in which trains meet has any length.
const LONG: u64 = 6;

/// What grant steps came to.
#[derive(Default)]
struct Grants {
    /// steps with a free segment that two trains ask for, with several of them, and the most of them in one step
    contested: u64,
    several: u64,
    most: u64,
    /// segments that two trains ask for: equal counts, the higher number gets it; a higher count gets it against a higher number
    ties: u64,
    by_count: u64,
    /// trains that ask and count one more; those of them that ask for an allocated segment while another train gets one
    counting: u64,
    behind: u64,
    /// counts that a grant ends, and those of trains that do not ask
    ended: u64,
    stay: u64,
    /// handed in with 65,534 and 65,535: those that go without and have 65,535 then, those that get a segment
    without: [u64; 2],
    granted: [u64; 2],
}

/// The least of each; 0 where there is none to be had.
const LEAST_MADE: Grants = Grants {
    contested: 20_000,
    several: 15_000,
    most: 8,
    ties: 30_000,
    by_count: 15_000,
    counting: 200_000,
    behind: 120_000,
    ended: 100_000,
    stay: 45_000,
    without: [9_000, 7_000],
    granted: [3_500, 7_500],
};
/// In a list from a load a train that asked in vain asks in every cycle until it gets its segment, so that none has a count that does not
/// ask; and the lists are too short for the last counts.
const LEAST_MET: Grants = Grants {
    contested: 5_000,
    several: 300,
    most: 2,
    ties: 500,
    by_count: 2_500,
    counting: 400_000,
    behind: 250_000,
    ended: 30_000,
    stay: 0,
    without: [0, 0],
    granted: [0, 0],
};
/// Two trains that wait for one segment, to the end in two ways.
const LEAST_WAITED: Grants = Grants {
    contested: 2,
    several: 0,
    most: 1,
    ties: 1,
    by_count: 1,
    counting: 2 * LAST_COUNT as u64,
    behind: 0,
    ended: 2,
    stay: 0,
    without: [3, 10],
    granted: [0, 2],
};

impl Grants {
    /// A grant step answered done.
    fn note(&mut self, before: &Record, after: &Record) {
        let mut asking = vec![];
        for (number, train) in (1..).zip(&before.trains) {
            match train.asks {
                1 => asking.push((number, train.next(&before.tables).expect("a train that asks has a next"))),
                _ => self.stay += u64::from(train.count > 0 && after.train(number).count == train.count),
            }
        }
        self.note_contests(&asking, before, after);
        let gets_it = |(number, next): (u8, u8)| after.allocated(next) == number;
        let some_train_gets_one = asking.iter().any(|&one| gets_it(one));
        for &(number, next) in &asking {
            let (was, is) = (before.train(number).count, after.train(number).count);
            let last = [LAST_COUNT - 1, LAST_COUNT].iter().position(|&count| count == was);
            if gets_it((number, next)) {
                self.ended += u64::from(was > 0 && is == 0);
                last.into_iter().for_each(|k| self.granted[k] += u64::from(is == 0));
            } else {
                self.counting += u64::from(is > was);
                self.behind += u64::from(is > was && before.allocated(next) != 0 && some_train_gets_one);
                last.into_iter().for_each(|k| self.without[k] += u64::from(is == LAST_COUNT));
            }
        }
    }

    fn note_contests(&mut self, asking: &[(u8, u8)], before: &Record, after: &Record) {
        let count = |number: u8| before.train(number).count;
        let mut contests = 0;
        for segment in (1..=before.tables.n).filter(|&segment| before.allocated(segment) == 0) {
            // no more than two segments lead to one
            let rivals: Vec<u8> = asking.iter().filter(|(_, next)| *next == segment).map(|(number, _)| *number).collect();
            let &[lower, higher] = &rivals[..] else { continue };
            contests += 1;
            let goes_to = after.allocated(segment);
            self.ties += u64::from(count(lower) == count(higher) && goes_to == higher);
            self.by_count += u64::from(count(lower) > count(higher) && goes_to == lower);
        }
        self.contested += u64::from(contests > 0);
        self.several += u64::from(contests > 1);
        self.most = self.most.max(contests);
    }

    fn rows(&self) -> [(&'static str, u64); 13] {
        [
            ("grant steps with a free segment that two trains ask for", self.contested),
            ("grant steps with several of them", self.several),
            ("the most of them in one grant step", self.most),
            ("equal counts, the higher number gets it", self.ties),
            ("the higher count gets it against a higher number", self.by_count),
            ("trains that go without and count one more", self.counting),
            ("these before an allocated segment, while another train gets one", self.behind),
            ("counts that a grant ends", self.ended),
            ("counts of trains that do not ask, which stay", self.stay),
            ("trains with 65,534 that go without and have 65,535", self.without[0]),
            ("trains with 65,535 that go without and stay there", self.without[1]),
            ("trains with 65,534 that get a segment", self.granted[0]),
            ("trains with 65,535 that get a segment", self.granted[1]),
        ]
    }

    fn print(&self, source: &str, least: &Grants) {
        for ((what, count), (_, least)) in self.rows().into_iter().zip(least.rows()).filter(|(_, (_, least))| *least > 0) {
            counted(format_args!("{source}: {what}"), count, least);
        }
    }
}

pub fn compare(seed: u64, kept: &mut kept::Seen) {
    Made::compare(seed, kept);
    meetings(seed, kept);
    waits(seed, kept);
}

// ---- records

/// What the made records came to, for the counts.
struct Made {
    seed: u64,
    records: u64,
    grants: Grants,
    off_with_a_count: u64,
    left_with_a_count: u64,
}

impl Made {
    fn compare(seed: u64, kept: &mut kept::Seen) {
        let mut random = Random::new(seed);
        let mut made = Made { seed, records: 0, grants: Grants::default(), off_with_a_count: 0, left_with_a_count: 0 };
        while made.records < RECORDS {
            let lively = random.one_in(2);
            let area = if random.one_in(4) { random::area(&mut random, lively) } else { random::merges(&mut random) };
            let file = area.file();
            let loaded = loaded(seed, &file);
            kept.start(&file, &loaded.record());
            for _ in 0..20 {
                let merging = merging_record(&mut random, loaded.tables());
                made.grant(&mut random, &file, &merging, kept);
                made.off(&mut random, &area, &file, &merging.before, kept);
                made.leave_and_enter(&mut random, &file, loaded.tables(), kept);
            }
        }
        println!("made: {} records with trains before merges compared", made.records);
        made.grants.print("made", &LEAST_MADE);
        counted("made: trains off with a count, unsound", made.off_with_a_count, OFF_WITH_A_COUNT);
        counted("made: trains that leave with a count and enter again without", made.left_with_a_count, LEFT_WITH_A_COUNT);
    }

    /// The grant step. What it hands back is known from how the record was made.
    fn grant(&mut self, random: &mut Random, file: &[u8], Merging { before, after }: &Merging, kept: &mut kept::Seen) {
        let what = "made with trains before merges";
        let says = both_ways(self.seed, what, file, before, &Call::Grant, kept);
        if says != (true, 0, *after) {
            fail(format_args!("a record {what}: the second program is wrong (seed {}): {before:?}", self.seed));
        }
        // the bytes of a state that hold nothing are not read
        let mut state = state_of(before);
        let mut scribble = |bytes: &mut [u8]| bytes.fill_with(|| random.draw() as u8);
        scribble(&mut state[STATE_ALLOCATIONS.end..STATE_TRAINS_AT]);
        for train in state[STATE_TRAINS_AT..].chunks_mut(STATE_TRAIN_SIZE) {
            scribble(&mut train[3..4]);
            scribble(&mut train[14..]);
        }
        let mut answer = [99];
        let ran = rbu::bytes::run_record(file, &items_of(&Call::Grant), &mut answer, &mut state);
        same(self.seed, "a grant step on a state with bytes that hold nothing", (ran, answer[0]), (1, 0));
        same_bytes(self.seed, "the state after a grant step on one with bytes that hold nothing", &state, &state_of(after));
        self.grants.note(before, after);
        self.records += 1;
    }

    /// "a train off has count 0": with another one the record is unsound.
    fn off(&mut self, random: &mut Random, area: &Description, file: &[u8], before: &Record, kept: &mut kept::Seen) {
        let off: Vec<usize> = (0..before.trains.len()).filter(|&k| !before.trains[k].is_on()).collect();
        if off.is_empty() {
            return;
        }
        let mut record = *before;
        record.trains[*random.of(&off)].count = random::count(random).max(1);
        let call = random::call(random, area, record.due);
        let what = "made with a count of a train off";
        if both_ways(self.seed, what, file, &record, &call.call(), kept) != (false, 11, record) {
            fail(format_args!("a record {what}: the second program is wrong (seed {}): {record:?}", self.seed));
        }
        self.off_with_a_count += 1;
    }

    /// A train that leaves with a count has 0 when it is off, and when it enters again: in one run, and on one kept record.
    fn leave_and_enter(&mut self, random: &mut Random, file: &[u8], tables: &Tables, kept: &mut kept::Seen) {
        let due = random.within(SPEED.into(), POSITION.into()) as u8;
        let Some((record, number)) = leaving_record(random, tables, due) else { return };
        let leave = Call::Leave { train: number.into() };
        let what = "with a train that leaves with a count";
        let (_, answer, left) = both_ways(self.seed, what, file, &record, &leave, kept);
        if answer != 0 || *left.train(number) != RawTrain::OFF {
            fail(format_args!("a record {what}: the second program is wrong (seed {}): {record:?}", self.seed));
        }
        let first = |route: u8| tables.route(route).numbers[0];
        let may_enter = |&route: &u8| left.allocated(first(route)) == 0 && tables.segment(first(route)).flags & ENTRY != 0;
        let routes: Vec<u8> = (1..=tables.r).filter(may_enter).collect();
        if routes.is_empty() {
            return;
        }
        let route = *random.of(&routes);
        let speed = random.edgy(0, tables.segment(first(route)).limit.into()) as u16;
        let length = random.edgy(1, LONGEST_TRAIN.into()) as u16;
        let enter = Call::Enter { train: number.into(), route: route.into(), speed, length };
        let (_, answer, entered) = both_ways(self.seed, what, file, &left, &enter, kept);
        if answer != 0 || *entered.train(number) != (RawTrain { route, place: 1, speed, length, ..RawTrain::OFF }) {
            fail(format_args!("a record {what} and enters: the second program is wrong (seed {}): {left:?}", self.seed));
        }
        let (mut answers, mut state) = ([99; 2], state_of(&record));
        let ran = rbu::bytes::run_record(file, &script_of(&[leave, enter]), &mut answers, &mut state);
        same(self.seed, "a leave and an enter in one run", (ran, answers), (2, [0, 0]));
        same_bytes(self.seed, "the state after a leave and an enter in one run", &state, &state_of(&entered));
        let mut one = Kept::of(&record);
        kept.call("a leave before an enter", &mut one, &leave, 0, &left);
        kept.call("an enter after a leave", &mut one, &enter, 0, &entered);
        self.left_with_a_count += 1;
    }
}

// ---- lists

/// Lists of calls in which trains meet before merges, compared and checked as the other lists.
fn meetings(seed: u64, kept: &mut kept::Seen) {
    let mut random = Random::new(seed);
    let (mut lists, mut calls, mut grants) = (0, 0, Grants::default());
    while calls < CALLS {
        let area = random::merges(&mut random);
        lists += 1;
        let mut list = List::new(seed, lists, &area, kept);
        for _ in 0..random.within(200, 1500) {
            let call = random::meeting(&mut random, &area, &list.record, LONG);
            let (before, is_grant) = (list.record, matches!(call, Owned::Grant));
            if list.call(call, kept) == 0 && is_grant {
                grants.note(&before, &list.record);
            }
            calls += 1;
        }
        list.whole();
    }
    println!("met: {lists} lists of {calls} calls; answer and state after each call compared, demand 3 checked");
    grants.print("met", &LEAST_MET);
}

/// Area A from its load, by both programs call by call.
struct Wait {
    seed: u64,
    area: Area,
    record: Record,
    kept: Kept,
    calls: Vec<Call<'static>>,
}

impl Wait {
    fn call(&mut self, call: &Call<'static>, kept: &mut kept::Seen, grants: &mut Grants) {
        let (before, number) = (self.record, self.area.call(call));
        self.record = self.area.record();
        kept.call(format_args!("waiting, call {}", self.calls.len() + 1), &mut self.kept, call, number, &self.record);
        same(self.seed, "a call while trains wait", 0, number);
        if matches!(call, Call::Grant) {
            grants.note(&before, &self.record);
        }
        self.calls.push(*call);
    }

    fn cycle(&mut self, kept: &mut kept::Seen, grants: &mut Grants) {
        AREA_A_CYCLE.iter().for_each(|call| self.call(call, kept, grants));
    }

    /// Train 2 leaves, and segment 3 goes to this train.
    fn ends(&mut self, kept: &mut kept::Seen, grants: &mut Grants, winner: u8) {
        self.call(&Call::Leave { train: 2 }, kept, grants);
        self.cycle(kept, grants);
        if self.record.allocated(3) != winner || self.record.train(winner).count != 0 {
            fail(format_args!("segment 3 does not go to train {winner} after the wait: {:?}", self.record.trains));
        }
    }
}

/// Train 2 stands on segment 3, where trains 1 and 3 cannot go, until their counts stop; train 1 has waited longer. With 65,535 against
/// 65,534 it goes first; a cycle later both have 65,535, and train 3 does.
fn waits(seed: u64, kept: &mut kept::Seen) {
    let file = area_a().file();
    let area = loaded(seed, &file);
    let mut grants = Grants::default();
    let mut wait = Wait { seed, area, record: area.record(), kept: kept.start(&file, &area.record()), calls: vec![] };
    AREA_A_ENTRIES.iter().for_each(|call| wait.call(call, kept, &mut grants));
    while wait.record.allocated(2) != 0 {
        wait.cycle(kept, &mut grants);
    }
    wait.call(&Call::Enter { train: 3, route: 2, speed: 200, length: 1 }, kept, &mut grants);
    while wait.record.train(3).count < LAST_COUNT - 1 {
        wait.cycle(kept, &mut grants);
    }
    Wait { kept: Kept::of(&wait.record), calls: vec![], ..wait }.ends(kept, &mut grants, 1);
    wait.cycle(kept, &mut grants);
    wait.ends(kept, &mut grants, 3);
    let (mut answers, mut state) = (vec![99; wait.calls.len()], [99; STATE_SIZE]);
    let ran = rbu::bytes::run_file(&file, &script_of(&wait.calls), &mut answers, &mut state);
    same(seed, "the calls of a long wait", ran, ((0, 0), wait.calls.len()));
    same(seed, "the answers of a long wait", answers, vec![0; wait.calls.len()]);
    same_bytes(seed, "the state after a long wait", &state, &state_of(&wait.record));
    println!("waited: {} calls from Area A's load, until the counts stopped", wait.calls.len());
    grants.print("waited", &LEAST_WAITED);
}
