//! The area file sent back out: what both programs write into a lent buffer, the core from a record that it keeps and from the same
//! record as bytes, and what a refusal leaves there. The starts, the lists and the records tell it theirs.
use crate::{counted, fail, same, same_bytes, Answers};
use reference::*;
use std::fmt::Display;

const STARTS: u64 = 5_000;
const WITH_TRAINS: u64 = 5_000;
const SOUND: u64 = 20_000;
const UNSOUND: u64 = 20_000;
const BLANK: u64 = 5_000;
const WRONG_LENGTH: u64 = 2_000;

/// The answers of a write.
const ANSWERS: [usize; 3] = [0, 11, 22];

/// Lengths that a buffer must not have.
const WRONG: [usize; 4] = [0, 1, FILE_SIZE - 1, FILE_SIZE + 1];
/// One record in so many is also written into a buffer with one of these.
const WRONG_EACH: u64 = 4;

/// A buffer is the first bytes of so many: what stands beyond it is not lent.
const ROOM: usize = FILE_SIZE + 8;

/// A record to be written by both programs.
pub struct Source<'a> {
    /// as the core keeps it
    pub core: &'a rbu::Area,
    /// as bytes: those of a file that spell its tables; the state follows from the record
    pub file: &'a [u8],
    pub record: &'a Record,
    pub sound: bool,
    /// the file that comes out where it is sound
    pub right: &'a [u8],
}

/// What the writes came to, for the counts.
#[derive(Default)]
pub struct Seen {
    seed: u64,
    writes: u64,
    buffers: u64,
    answers: Answers,
    starts: u64,
    /// after calls, by the step due where a train is on
    with_trains: [u64; 4],
    without_trains: u64,
    /// records that no run need reach; of the sound ones those whose file is wrong in bytes that tables do not keep
    sound: u64,
    mended: u64,
    unsound: u64,
    /// those of refused starts
    blank: u64,
    /// unsound and sound records with buffers of each wrong length
    wrong: [[u64; WRONG.len()]; 2],
}

impl Seen {
    pub fn new(seed: u64) -> Seen {
        Seen { seed, ..Seen::default() }
    }

    /// An accepted file directly after its start comes out as it is.
    pub fn start(&mut self, core: &rbu::Area, file: &[u8], record: &Record) {
        self.write("a start", &Source { core, file, record, sound: true, right: file });
        self.starts += 1;
    }

    /// "trains aren't written": after calls, the accepted file comes out as after its start.
    pub fn after_calls(&mut self, what: impl Display, core: &rbu::Area, file: &[u8], record: &Record) {
        self.write(what, &Source { core, file, record, sound: true, right: file });
        match record.trains.iter().any(RawTrain::is_on) {
            true => self.with_trains[usize::from(record.due)] += 1,
            false => self.without_trains += 1,
        }
    }

    /// Any record.
    pub fn record(&mut self, what: impl Display, source: &Source) {
        self.write(what, source);
        match source.sound {
            true => self.sound += 1,
            false => self.unsound += 1,
        }
        self.mended += u64::from(source.sound && source.file != source.right);
    }

    /// The blank record, which zeros spell.
    pub fn blank(&mut self, core: &rbu::Area) {
        let zeros = &[0; FILE_SIZE];
        self.write("a refused start", &Source { core, file: zeros, record: &Record::BLANK, sound: false, right: zeros });
        self.blank += 1;
    }

    /// A record into a buffer of the right length, and at times into one of a wrong length, each of them in its turn.
    fn write(&mut self, what: impl Display, source: &Source) {
        self.lend(&what, source, FILE_SIZE);
        if self.writes.is_multiple_of(WRONG_EACH) {
            let turn = self.wrong[usize::from(source.sound)].iter().sum::<u64>() as usize % WRONG.len();
            self.lend(&what, source, WRONG[turn]);
            self.wrong[usize::from(source.sound)][turn] += 1;
        }
        self.writes += 1;
    }

    /// A buffer of this length, lent to the second program and twice to the core. What must come of it is known: "22 .. after 11; either
    /// refusal leaves the buffer untouched". What stands beyond it is never touched.
    fn lend(&mut self, what: impl Display, source: &Source, length: usize) {
        let &Source { core, file, record, sound, right } = source;
        self.buffers += 1;
        let before = pattern(self.buffers, right);
        let (mut after, mut second, mut kept, mut bytes) = (before, before, before, before);
        let number = match sound {
            false => 11,
            true if length != FILE_SIZE => 22,
            true => 0,
        };
        if number == 0 {
            after[..length].copy_from_slice(right);
        }
        let what = format_args!("{what}, a buffer of {length} bytes");
        let says = send(record, &mut second[..length]);
        if (says, second) != (number, after) {
            fail(format_args!("{what}: the second program is wrong, its answer is {says} (seed {})", self.seed));
        }
        let says = core.write(&mut kept[..length]).map_or_else(|refusal| refusal.number, |()| 0);
        same(self.seed, format_args!("{what}, from a kept record"), says, number);
        same_bytes(self.seed, format_args!("{what} and what stands beyond, from a kept record"), &kept, &second);
        let says = rbu::bytes::write_record(file, &state_of(record), &mut bytes[..length]);
        same(self.seed, format_args!("{what}, from a record as bytes"), says, number);
        same_bytes(self.seed, format_args!("{what} and what stands beyond, from a record as bytes"), &bytes, &second);
        self.answers[usize::from(number)] += 1;
    }

    pub fn print(&self) {
        for number in ANSWERS {
            counted(format_args!("sent: answer {number}"), self.answers[number], 1);
        }
        counted("sent: accepted files written back after their start", self.starts, STARTS);
        for (step, count) in ["speed", "request", "grant", "position"].iter().zip(self.with_trains) {
            counted(format_args!("sent: accepted files written back after calls, trains on, {step} due"), count, WITH_TRAINS);
        }
        counted("sent: accepted files written back after calls, no train on", self.without_trains, 1);
        counted("sent: sound records written", self.sound, SOUND);
        counted("sent: sound records written, their file wrong in bytes that tables do not keep", self.mended, 1);
        counted(format_args!("sent: unsound, refused with 11, into {FILE_SIZE} bytes"), self.unsound, UNSOUND);
        counted(format_args!("sent: blank, refused with 11, into {FILE_SIZE} bytes"), self.blank, BLANK);
        for (is, counts) in ["unsound, refused with 11", "sound, refused with 22"].iter().zip(self.wrong) {
            for (length, count) in WRONG.iter().zip(counts) {
                counted(format_args!("sent: {is}, into {length} bytes"), count, WRONG_LENGTH);
            }
        }
    }
}

/// Bytes for a buffer and for what stands beyond it, others from buffer to buffer: none is 0, and none is what the right file has there.
fn pattern(buffer: u64, right: &[u8]) -> [u8; ROOM] {
    let first = (buffer % 255) as usize;
    std::array::from_fn(|at| {
        let byte = ((first + 7 * at) % 255) as u8 + 1;
        if right.get(at) == Some(&byte) {
            byte % 255 + 1
        } else {
            byte
        }
    })
}
