//! R-3 of document 02: "files accepted until now load as before". What the second program says of each file with the smaller bounds of
//! document 01, beside what the core makes of it. Every start tells it its file.
use crate::{counted, fail, same};
use reference::kept::record_of_kept;
use reference::*;

const AS_BEFORE: u64 = 5_000;
const ONLY_NOW: [u64; 2] = [3_000, 1_000];
const SAME_REFUSAL: u64 = 50_000;
const OTHER_REFUSAL: u64 = 5_000;

/// The rules that read the bounds.
const RULES: [u8; 2] = [4, 6];

/// What the files came to, for the counts.
#[derive(Default)]
pub struct Seen {
    seed: u64,
    /// accepted with the smaller bounds
    as_before: u64,
    /// accepted with the greater ones alone, by the rule that refuses them with the smaller ones
    only_now: [u64; RULES.len()],
    /// refused with both: with the same answer, and with another
    same_refusal: u64,
    other_refusal: u64,
}

impl Seen {
    pub fn new(seed: u64) -> Seen {
        Seen { seed, ..Seen::default() }
    }

    /// A file that the core has accepted, and the area started from it.
    pub fn accepted(&mut self, file: &[u8], core: &rbu::Area) {
        match read_within(file, &Bounds::DOCUMENT_01) {
            Ok(tables) => {
                let started = record_of_kept(core.record());
                same(self.seed, "the record of a file that document 01 accepts", started, Record::loaded(tables));
                self.as_before += 1;
            }
            Err(refusal) => match RULES.iter().position(|&rule| rule == refusal.number) {
                Some(k) => self.only_now[k] += 1,
                None => fail(format_args!("a file is accepted that document 01 refuses with {refusal:?} (seed {})", self.seed)),
            },
        }
    }

    /// A file that the core has refused with this number and place. Where document 01 refuses it with neither 4 nor 6 the answer is the
    /// same; otherwise it is that or one further on.
    pub fn refused(&mut self, file: &[u8], (number, place): (u8, u16)) {
        match read_within(file, &Bounds::DOCUMENT_01) {
            Err(refusal) if (refusal.number, refusal.place) == (number, place) => self.same_refusal += 1,
            Err(refusal) if RULES.contains(&refusal.number) && (refusal.number, refusal.place) < (number, place) => self.other_refusal += 1,
            before => {
                let before = before.map(|_| "done");
                fail(format_args!("a file is refused with {number} {place}, by document 01 it is {before:?} (seed {})", self.seed))
            }
        }
    }

    pub fn print(&self) {
        counted("bounds: accepted by document 01 too, started with its tables", self.as_before, AS_BEFORE);
        for ((rule, count), least) in RULES.iter().zip(self.only_now).zip(ONLY_NOW) {
            counted(format_args!("bounds: accepted now, by document 01 refused with {rule}"), count, least);
        }
        counted("bounds: refused as by document 01", self.same_refusal, SAME_REFUSAL);
        counted("bounds: refused by document 01 with 4 or 6, now further on", self.other_refusal, OTHER_REFUSAL);
    }
}
