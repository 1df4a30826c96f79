//! The core against the second program: braking, Area A's listing, files, lists of calls, records, the file sent back out of them,
//! grants at merges, records and lists of a faster line, stops there, and trains over many segments; each call by the functions over
//! bytes and on a record that is kept. Seeded and repeatable; it prints counts, and ends with status 1 at the first difference and at a
//! count that is too low.
//!
//!     compare             the whole comparison
//!     compare SEED        the same with another seed
mod bounds;
mod braking;
mod faster;
mod files;
mod grants;
mod kept;
mod lengths;
mod lists;
mod records;
mod sent;
mod stops;

use reference::script::script_of;
use reference::*;
use std::fmt::{Debug, Display};

fn fail(what: impl Display) -> ! {
    println!("compare: {what}");
    std::process::exit(1);
}

/// A difference ends the comparison and says how to see it again.
fn differ(seed: u64, what: impl Display, core: impl Debug, second: impl Debug) -> ! {
    fail(format_args!("{what}: the core says {core:?}, the second program {second:?} (seed {seed})"));
}

fn same<T: PartialEq + Debug>(seed: u64, what: impl Display, core: T, second: T) {
    if core != second {
        differ(seed, what, core, second);
    }
}

/// Two states, or as much of them as there is room for, or two buffers for a file. The first byte that differs is named
/// (docs/FORMATS.md).
fn same_bytes(seed: u64, what: impl Display, core: &[u8], second: &[u8]) {
    same(seed, format_args!("{what}, its size"), core.len(), second.len());
    if let Some(at) = (0..core.len()).find(|&at| core[at] != second[at]) {
        differ(seed, format_args!("{what}, byte {at}"), core[at], second[at]);
    }
}

/// How often each answer was given, by its number, 0 to 23.
type Answers = [u64; 24];

/// Prints a count; one below the least ends the comparison.
fn counted(what: impl Display, count: impl Into<u64>, least: u64) {
    let count = count.into();
    println!("{what}: {count}");
    if count < least {
        fail(format_args!("{what}: there must be {least} at the least"));
    }
}

/// An area that is made to meet the rules, loaded.
fn loaded(seed: u64, file: &[u8]) -> Area {
    load(file).unwrap_or_else(|refusal| fail(format_args!("an area made to meet the rules is refused: {refusal:?} (seed {seed})")))
}

/// Document 01's listing, from both programs.
fn listing(seed: u64, seen: &mut kept::Seen) {
    let file = area_a().file();
    let mut calls = vec![];
    let mut area = loaded(seed, &file);
    let mut kept = seen.start(&file, &area.record());
    let cycles = (1..=6).map(|cycle| (cycle, &AREA_A_CYCLE[..]));
    for (cycle, steps) in [(0, &AREA_A_ENTRIES[..])].into_iter().chain(cycles) {
        for call in steps {
            same(seed, "a call of the listing", 0, area.call(call));
            seen.call_of_list("a call of the listing", &mut kept, call, 0, &area, &area.record());
            calls.push(*call);
        }
        let (mut answers, mut state) = ([99; 26], [99; STATE_SIZE]);
        rbu::bytes::run_file(&file, &script_of(&calls), &mut answers, &mut state);
        same_bytes(seed, "the state after a cycle of Area A", &state, &state_of(&area.record()));
        seen.written_back("a cycle of Area A", &kept, &file, &area.record());
        let core = record_of(area.tables(), &state);
        // the entries are no cycle
        for (number, train) in (1..).zip(&core.trains[..2]).filter(|_| cycle > 0) {
            println!("listing: {cycle} {number} {} {} {}", train.own(&core.tables), train.position, train.speed);
        }
    }
}

fn main() {
    let seed = std::env::args().nth(1).map_or(1, |seed| seed.parse().expect("compare: the seed is a number"));
    let mut kept = kept::Seen::new(seed);
    braking::compare(seed);
    listing(seed, &mut kept);
    files::compare(seed, &mut kept);
    lists::compare(seed, &mut kept);
    records::compare(seed, &mut kept);
    grants::compare(seed, &mut kept);
    faster::compare(seed, &mut kept);
    stops::compare(seed, &mut kept);
    lengths::compare(seed, &mut kept);
    kept.print();
    println!("compare: no difference");
}
