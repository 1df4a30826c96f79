//! Records in which a braking distance decides whether they are sound, and with trains about where they come near, before which none does,
//! since `d` is S(gmax) at the least. At the greatest `gmax`, with the least and the greatest `b`; one train alone, and all 24 of the full
//! area.
use crate::kept;
use crate::records::both_ways;
use crate::{counted, fail, loaded};
use reference::random::Random;
use reference::stops::*;
use reference::*;

/// Records with all trains, for each `b` and each `d`.
const RECORDS: u64 = 250;
/// Trains of these at each place; those that are unsound there, one a record.
const EACH: u64 = 500;
const EACH_UNSOUND: u64 = 50;

pub fn compare(seed: u64, kept: &mut kept::Seen) {
    let mut random = Random::new(seed);
    for b in RATES {
        ends(seed, b, kept);
        nears(seed, b, kept);
        all(seed, b, &mut random, kept);
    }
}

/// The file of an area, and its tables, started.
fn start(seed: u64, area: &Description, kept: &mut kept::Seen) -> (Vec<u8>, Tables) {
    let file = area.file();
    let record = loaded(seed, &file).record();
    kept.start(&file, &record);
    (file, record.tables)
}

/// A record and the step due, with all wishes the top speed.
fn compare_record(seed: u64, what: &str, file: &[u8], record: &Record, is_sound: bool, kept: &mut kept::Seen) {
    let call = cycle(&[TOP_SPEED; WISHES])[usize::from(record.due)];
    if both_ways(seed, what, file, record, &call, kept).0 != is_sound {
        fail(format_args!("a record's soundness ({what}): both programs say {} (seed {seed}): {record:?}", !is_sound));
    }
}

/// Each train in its turn.
fn number(made: u64) -> u8 {
    (made % u64::from(TRAINS)) as u8 + 1
}

/// The three places that one of -1, 0 and 1 beyond names.
const PLACES: [&str; 3] = ["length - 1", "length", "length + 1"];

fn place(beyond: i8) -> usize {
    (beyond + 1) as usize
}

const NEXT: [&str; 2] = ["without next", "with next"];

// ---- one train

/// Each speed whose way decides, at the three places with next not the train's, and at the length with next its own. With the greatest `b`
/// the way with speed due is 0 and decides nothing.
fn ends(seed: u64, b: u16, kept: &mut kept::Seen) {
    // for B and for S: B(1) is 0, and from a way of 1 no position before the end is one beyond
    let least = if b == 1 { [[1999, 1999, 1998, 1999], [2000, 2000, 1999, 2000]] } else { [[0; 4], [2000, 2000, 1999, 2000]] };
    let (file, tables) = start(seed, &like_area_a(TOP_SPEED, b, distances(b)[2]), kept);
    let mut seen = [[0; 4]; 2];
    for (made, (stand, beyond)) in (0..).zip(at_ends(b)) {
        let record = record_with(&tables, number(made), &stand);
        compare_record(seed, "at the end of a braking distance", &file, &record, stand.is_sound(), kept);
        seen[usize::from(stand.due != SPEED)][if stand.next == Next::Its { 3 } else { place(beyond) }] += 1u64;
    }
    for (way, (seen, least)) in ["B(speed)", "S(speed)"].into_iter().zip(seen.into_iter().zip(least)) {
        let due = if way == "B(speed)" { "speed due" } else { "another step due" };
        let ends = [(0, 0, "sound"), (1, 0, "unsound"), (2, 0, "unsound"), (1, 1, "sound")];
        for ((place, next, side), (count, least)) in ends.into_iter().zip(seen.into_iter().zip(least)).filter(|row| row.1 .1 > 0) {
            let (place, next) = (PLACES[place], NEXT[next]);
            counted(format_args!("stops: b {b}, position + {way} = {place}, {due}, {next} ({side})"), count, least);
        }
    }
}

/// Each `d`, each step due, six speeds, and next free, another's, none and the train's own. Before it is near no train is unsound.
fn nears(seed: u64, b: u16, kept: &mut kept::Seen) {
    let least_unsound = if b == 1 { [0, 9, 18] } else { [0, 9, 27] };
    let (mut seen, mut unsound) = ([[0; 3]; 2], [0; 3]);
    for d in distances(b) {
        let (file, tables) = start(seed, &like_area_a(TOP_SPEED, b, d), kept);
        for (made, (stand, beyond)) in (0..).zip(about_near(b, d)) {
            let record = record_with(&tables, number(made), &stand);
            compare_record(seed, "about near", &file, &record, stand.is_sound(), kept);
            seen[usize::from(stand.next == Next::Its)][place(beyond)] += 1u64;
            unsound[place(beyond)] += u64::from(!stand.is_sound());
        }
    }
    for (k, place) in PLACES.into_iter().enumerate() {
        for (next, (seen, least)) in NEXT.into_iter().zip(seen.into_iter().zip([288, 96])) {
            counted(format_args!("stops: b {b}, position + d = {place}, {next}"), seen[k], least);
        }
        if least_unsound[k] > 0 {
            counted(format_args!("stops: b {b}, position + d = {place}, without next, unsound by S(speed)"), unsound[k], least_unsound[k]);
        }
    }
}

// ---- all trains

/// Trains about ends and about near beside each other: every second record is sound, and in each other one train is not.
fn all(seed: u64, b: u16, random: &mut Random, kept: &mut kept::Seen) {
    let mut unsound: u64 = 0;
    let mut seen = [[[0; 3]; 2]; 2];
    for d in distances(b) {
        let (file, tables) = start(seed, &like_full_area(TOP_SPEED, b, d), kept);
        for k in 0..RECORDS {
            let (record, stands) = all_trains(random, &tables, k % 2 == 0);
            compare_record(seed, "all trains about ends and near", &file, &record, k % 2 == 0, kept);
            unsound += u64::from(stands.iter().any(|(stand, _)| !stand.is_sound()));
            for (stand, about) in stands {
                let (what, beyond) = match about {
                    About::End(beyond) => (0, beyond),
                    About::Near(beyond) => (1, beyond),
                };
                seen[what][usize::from(stand.next == Next::Its)][place(beyond)] += 1u64;
            }
        }
    }
    counted(format_args!("stops: b {b}, records with 24 trains about ends and near, unsound by one of them"), unsound, 2 * RECORDS);
    for (what, seen) in ["the way", "d"].into_iter().zip(seen) {
        for (next, seen) in NEXT.into_iter().zip(seen) {
            for (k, place) in PLACES.into_iter().enumerate() {
                let least = if what == "the way" && next == NEXT[0] && k > 0 { EACH_UNSOUND } else { EACH };
                counted(format_args!("stops: b {b}, one of 24 trains with position + {what} = {place}, {next}"), seen[k], least);
            }
        }
    }
}
