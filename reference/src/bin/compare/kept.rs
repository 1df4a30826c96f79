//! The core on a record that is kept between calls: what every start and every call leaves there, field by field, its soundness and its
//! report. The files, the lists and the records tell it theirs, and it tells them on to what is sent back out, and the files to what the
//! bounds of document 01 say. It carries what the calls tell of the trains' lengths.
use crate::bounds;
use crate::lengths;
use crate::sent::{self, Source};
use crate::{counted, differ, fail, same, Answers};
use reference::kept::{call_kept, kept_of, record_of_kept, tables_of, trains_of};
use reference::random::Random;
use reference::*;
use std::fmt::{Debug, Display};

const CALLS: u64 = 2_000_000;
const STARTS: u64 = 5_000;
const REFUSED_STARTS: u64 = 100_000;
const RECORDS: u64 = 200_000;
const DAMAGED: u64 = 20_000;
const RANDOM: u64 = 5_000;
const UNSOUND_BY_ASKS: u64 = 5_000;
const UNSOUND_BY_COUNTS: u64 = 15_000;
const UNSOUND_BY_LENGTHS: u64 = 3_500;

/// One refused start in so many has its blank record sent back out.
const BLANK_EACH: u64 = 16;

/// The answers of calls: 1 to 10 are load's.
const ANSWERS: [usize; 13] = [0, 11, 12, 13, 14, 15, 16, 17, 18, 19, 20, 21, 23];

/// What kept records came to, for the counts.
pub struct Seen {
    seed: u64,
    starts: u64,
    refused_starts: u64,
    calls: u64,
    answers: Answers,
    records: u64,
    /// of these records: some bytes of them overwritten, still sound after it, and that with other tables; all bytes random; unsound by
    /// a train's asking alone; unsound by counts of trains off alone; unsound by their lengths alone
    damaged: u64,
    damaged_sound: u64,
    damaged_tables: u64,
    random: u64,
    unsound_by_asks: u64,
    unsound_by_counts: u64,
    unsound_by_lengths: u64,
    sent: sent::Seen,
    bounds: bounds::Seen,
    pub lengths: lengths::Seen,
}

/// A kept record and what the second program has beside it. The tables change at a start and at no call, so they are laid out once.
pub struct Kept {
    area: rbu::Area,
    tables: rbu::Tables,
}

impl Kept {
    /// With any record at all.
    pub fn of(record: &Record) -> Kept {
        let kept = kept_of(record);
        Kept { area: rbu::Area::of_record(kept), tables: kept.tables }
    }

    /// With what these bytes spell, those between the fields too.
    fn of_bytes(bytes: &[u8; rbu::RECORD_SIZE]) -> Kept {
        let mut area = rbu::Area::of_record(rbu::Record::BLANK);
        area.overwrite(0, bytes);
        Kept { tables: *area.tables(), area }
    }

    /// Every field.
    fn same_record(&self, seed: u64, what: impl Display, second: &Record) {
        let core = self.area.record();
        if core.tables != self.tables {
            self.name_table(seed, &what);
        }
        same_each(seed, format_args!("{what}, allocation"), &core.allocations, &second.allocations);
        same_each(seed, format_args!("{what}, train"), &core.trains, &trains_of(second));
        same(seed, format_args!("{what}, step due"), core.due, second.due);
    }

    /// Ends the comparison with the first of the tables that is not what it was.
    fn name_table(&self, seed: u64, what: impl Display) -> ! {
        let (core, second) = (self.area.tables(), &self.tables);
        let numbers = |tables: &rbu::Tables| [tables.segments.into(), tables.routes.into(), tables.gmax, tables.braking];
        same_each(seed, format_args!("{what}, number of the header"), &numbers(core), &numbers(second));
        same(seed, format_args!("{what}, end distance"), core.margin, second.margin);
        same_each(seed, format_args!("{what}, length"), &core.lengths, &second.lengths);
        same_each(seed, format_args!("{what}, limit"), &core.limits, &second.limits);
        same_each(seed, format_args!("{what}, next link"), &core.next, &second.next);
        same_each(seed, format_args!("{what}, previous link"), &core.previous, &second.previous);
        same_each(seed, format_args!("{what}, flags"), &core.flags, &second.flags);
        same_each(seed, format_args!("{what}, byte of the routes"), &core.routebytes, &second.routebytes);
        fail(format_args!("{what}: the tables differ"))
    }

    fn same_soundness(&self, seed: u64, what: impl Display, sound: bool) {
        same(seed, format_args!("{what}, its soundness"), self.area.is_sound(), sound);
    }

    /// Number, allocated, least free.
    pub fn same_report(&self, seed: u64, what: impl Display, (number, allocated, free): (u8, u32, u32)) {
        same(seed, format_args!("{what}, its report"), self.area.report_numbers(), (number, allocated as u8, free as u8));
    }
}

impl Seen {
    pub fn new(seed: u64) -> Seen {
        Seen {
            seed,
            starts: 0,
            refused_starts: 0,
            calls: 0,
            answers: Answers::default(),
            records: 0,
            damaged: 0,
            damaged_sound: 0,
            damaged_tables: 0,
            random: 0,
            unsound_by_asks: 0,
            unsound_by_counts: 0,
            unsound_by_lengths: 0,
            sent: sent::Seen::new(seed),
            bounds: bounds::Seen::new(seed),
            lengths: lengths::Seen::new(seed),
        }
    }

    /// The start of an accepted file, which is sent back out.
    pub fn start(&mut self, file: &[u8], second: &Record) -> Kept {
        let kept = self.started(file, second);
        self.sent.start(&kept.area, file, second);
        self.starts += 1;
        kept
    }

    /// A start over bytes that must not show.
    fn started(&mut self, file: &[u8], second: &Record) -> Kept {
        let mut kept = Kept::of_bytes(&[0xa5; rbu::RECORD_SIZE]);
        same(self.seed, "a start", kept.area.restart_numbers(file), (0, 0));
        kept.tables = tables_of(&second.tables);
        kept.same_record(self.seed, "the record after a start", second);
        self.bounds.accepted(file, &kept.area);
        kept
    }

    /// A refused file leaves the blank record: every call is refused on it, and leaves it so.
    pub fn refused_start(&mut self, file: &[u8], answer: (u8, u16)) {
        const CALLS: [Call; 6] = {
            let [speed, request, grant, position] = AREA_A_CYCLE;
            [AREA_A_ENTRIES[0], Call::Leave { train: 1 }, speed, request, grant, position]
        };
        let mut kept = Kept::of_bytes(&[0xa5; rbu::RECORD_SIZE]);
        same(self.seed, "a refused start", kept.area.restart_numbers(file), answer);
        self.bounds.refused(file, answer);
        kept.tables = rbu::Tables::BLANK;
        kept.same_record(self.seed, "the record after a refused start", &Record::BLANK);
        for call in &CALLS {
            self.call("a call after a refused start", &mut kept, call, 11, &Record::BLANK);
        }
        kept.same_report(self.seed, "the record after a refused start", (11, 0, 0));
        kept.same_soundness(self.seed, "the record after a refused start", false);
        if self.refused_starts.is_multiple_of(BLANK_EACH) {
            self.sent.blank(&kept.area);
        }
        self.refused_starts += 1;
    }

    /// A call that the second program answers so and that hands back this record.
    pub fn call(&mut self, what: impl Display, kept: &mut Kept, call: &Call, number: u8, after: &Record) {
        same(self.seed, format_args!("{what}, its answer on a kept record"), call_kept(&mut kept.area, call), number);
        kept.same_record(self.seed, format_args!("{what}, the kept record"), after);
        self.calls += 1;
        self.answers[usize::from(number)] += 1;
    }

    /// The next call of a list, which the second program has run: the record is sound after it, whatever the answer, and is reported.
    pub fn call_of_list(&mut self, what: impl Display, kept: &mut Kept, call: &Call, number: u8, area: &Area, after: &Record) {
        self.call(&what, kept, call, number, after);
        kept.same_soundness(self.seed, &what, true);
        let (allocated, free) = area.counts();
        kept.same_report(self.seed, what, (0, allocated, free));
    }

    /// The record that calls on an accepted file have led to: the file comes out.
    pub fn written_back(&mut self, what: impl Display, kept: &Kept, file: &[u8], record: &Record) {
        self.sent.after_calls(what, &kept.area, file, record);
    }

    /// Any record sent back out. A file's bytes spell its tables; the right file is the one that comes out where it is sound.
    pub fn written(&mut self, what: impl Display, kept: &Kept, file: &[u8], right: &[u8], record: &Record) {
        self.sent.record(what, &Source { core: &kept.area, file, record, sound: sound(record), right });
    }

    /// Any record: its soundness, its report, and a call.
    pub fn record(&mut self, what: impl Display, record: &Record, call: &Call) {
        let mut kept = Kept::of(record);
        same(self.seed, format_args!("{what}, kept and read back"), record_of_kept(kept.area.record()), *record);
        self.any(what, &mut kept, record, call);
    }

    /// A record with some of its bytes overwritten, and at times one of random bytes.
    pub fn damaged(&mut self, random: &mut Random, record: &Record, call: &Call) {
        let mut kept = Kept::of(record);
        // anywhere, or beyond the tables, most of whose bytes no sound record has otherwise
        let from = if random.one_in(2) { 0 } else { size_of::<rbu::Tables>() };
        for _ in 0..random.within(1, 3) {
            let at = random.within(from as u64, rbu::RECORD_SIZE as u64 - 1) as usize;
            kept.area.overwrite(at, &[random.draw() as u8]);
        }
        kept.tables = *kept.area.tables();
        let damaged = record_of_kept(kept.area.record());
        self.damaged += 1;
        let file = file_of(&damaged.tables);
        self.written("a record with bytes overwritten", &kept, &file, &file, &damaged);
        let is_sound = self.any("a record with bytes overwritten", &mut kept, &damaged, call);
        self.damaged_sound += u64::from(is_sound);
        if is_sound && damaged.tables != record.tables {
            // "Loading that file gives those tables": here it is none that was loaded before
            self.started(&file, &Record::loaded(damaged.tables));
            self.damaged_tables += 1;
        }
        if random.one_in(4) {
            let mut kept = Kept::of_bytes(&std::array::from_fn(|_| random.draw() as u8));
            let wild = record_of_kept(kept.area.record());
            let file = file_of(&wild.tables);
            self.written("a record of random bytes", &kept, &file, &file, &wild);
            self.any("a record of random bytes", &mut kept, &wild, call);
            self.random += 1;
        }
    }

    fn any(&mut self, what: impl Display, kept: &mut Kept, record: &Record, call: &Call) -> bool {
        let is_sound = sound(record);
        kept.same_soundness(self.seed, &what, is_sound);
        kept.same_report(self.seed, &what, report_on(record));
        let (number, after) = call_on(record, call);
        self.call(&what, kept, call, number, &after);
        self.records += 1;
        self.unsound_by_asks += u64::from(!is_sound && sound_but_for_asks(record));
        self.unsound_by_counts += u64::from(!is_sound && sound_but_for(record, |train| train.count = 0));
        self.unsound_by_lengths += u64::from(!is_sound && sound_but_for(record, |train| train.length = 0));
        is_sound
    }

    pub fn print(&self) {
        counted("kept: starts compared", self.starts, STARTS);
        counted("kept: refused starts", self.refused_starts, REFUSED_STARTS);
        counted("kept: calls compared", self.calls, CALLS);
        for number in ANSWERS {
            counted(format_args!("kept: answer {number}"), self.answers[number], 1);
        }
        counted("kept: records", self.records, RECORDS);
        counted("kept: records with bytes overwritten", self.damaged, DAMAGED);
        counted("kept: records with bytes overwritten, still sound", self.damaged_sound, 1);
        counted("kept: records of random bytes", self.random, RANDOM);
        counted("kept: unsound by asks", self.unsound_by_asks, UNSOUND_BY_ASKS);
        counted("kept: unsound by counts of trains off", self.unsound_by_counts, UNSOUND_BY_COUNTS);
        counted("kept: unsound by lengths of trains off", self.unsound_by_lengths, UNSOUND_BY_LENGTHS);
        self.sent.print();
        counted("sent: sound records with bytes of the tables overwritten, written and loaded", self.damaged_tables, 1);
        self.bounds.print();
        self.lengths.print();
    }
}

/// Two rows; the first entry that differs is named, counted from 1.
fn same_each<T: PartialEq + Debug>(seed: u64, what: impl Display, core: &[T], second: &[T]) {
    if let Some(k) = (0..core.len()).find(|&k| core[k] != second[k]) {
        differ(seed, format_args!("{what} {}", k + 1), &core[k], &second[k]);
    }
}

/// A record that would be sound if its trains that have neither 0 nor 1 for their asking asked, or if they did not.
fn sound_but_for_asks(record: &Record) -> bool {
    let with = |asks| {
        let mut record = *record;
        record.trains.iter_mut().filter(|train| train.asks > 1).for_each(|train| train.asks = asks);
        sound(&record)
    };
    record.trains.iter().any(|train| train.asks > 1) && (with(0) || with(1))
}

/// A record that would be sound if its trains off were without something.
fn sound_but_for(record: &Record, without_it: fn(&mut RawTrain)) -> bool {
    let mut without = *record;
    without.trains.iter_mut().filter(|train| !train.is_on()).for_each(without_it);
    without != *record && sound(&without)
}
