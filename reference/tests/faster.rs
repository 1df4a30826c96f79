//! Request R-3 of document 02: faster line. The bounds by hand on Area A's shape, the smaller ones of document 01 beside them, and what the
//! comparison makes of both.

use reference::bounds::{AT_BOUNDS, GREATEST};
use reference::breaks::{BREAKS, PLACES};
use reference::edges::{record_at, EDGES};
use reference::random::{self, area, faster, merges, Owned, Random};
use reference::stops::{about_near, all_trains, at_ends, distances, record_with, RATES};
use reference::*;

/// Load's answers with the bounds in force and with those of document 01.
fn both(description: &Description) -> [(u8, u16); 2] {
    [Bounds::DOCUMENT_02, Bounds::DOCUMENT_01].map(|bounds| answer_within(&description.file(), &bounds))
}

/// Area A with one length changed.
fn with_length(segment: usize, length: u32) -> Description {
    let mut a = area_a();
    a.segments[segment - 1].length = length;
    a
}

const DONE: (u8, u16) = (0, 0);

// ---- the bounds

/// "`gmax` may be 1 to 2000".
#[test]
fn gmax() {
    assert_eq!(both(&like_area_a(1, 1, 1)), [DONE, DONE]);
    assert_eq!(both(&like_area_a(1000, 1000, 1000)), [DONE, DONE]);
    assert_eq!(both(&like_area_a(1001, 1001, 1001)), [DONE, (4, 0)]);
    assert_eq!(both(&like_area_a(2000, 2000, 2000)), [DONE, (4, 0)]);
    assert_eq!(both(&like_area_a(2001, 2001, 2001)), [(4, 0), (4, 0)]);
    assert_eq!(both(&Description { gmax: 0, ..like_area_a(1, 1, 1) }), [(4, 0), (4, 0)]);
    // `b` and the limits read it
    assert_eq!(both(&like_area_a(2000, 2001, 2001)), [(4, 0), (4, 0)]);
    let mut fast = like_area_a(2000, 2000, 2000);
    fast.segments[1].limit = 2001;
    assert_eq!(both(&fast), [(6, 2), (4, 0)]);
}

/// ".. lengths may be up to 4,000,000".
#[test]
fn lengths() {
    assert_eq!(both(&with_length(3, 1_000_000)), [DONE, DONE]);
    assert_eq!(both(&with_length(3, 1_000_001)), [DONE, (6, 3)]);
    assert_eq!(both(&with_length(2, 4_000_000)), [DONE, (6, 2)]);
    assert_eq!(both(&with_length(2, 4_000_001)), [(6, 2), (6, 2)]);
    // the least record, which is another one with other bounds
    let mut two = with_length(1, 1_000_001);
    two.segments[2].length = 4_000_001;
    assert_eq!(both(&two), [(6, 3), (6, 1)]);
}

/// "`d` .. may be up to 4,000,000": rule 4 says nothing there, and rule 6 that no length is left above d + gmax.
#[test]
fn d() {
    assert_eq!(both(&like_area_a(300, 10, 999_699)), [DONE, DONE]);
    assert_eq!(both(&like_area_a(300, 10, 999_700)), [DONE, (6, 1)]);
    assert_eq!(both(&like_area_a(300, 10, 1_000_000)), [DONE, (6, 1)]);
    assert_eq!(both(&like_area_a(300, 10, 1_000_001)), [DONE, (4, 0)]);
    assert_eq!(both(&like_area_a(300, 10, 3_999_699)), [DONE, (4, 0)]);
    assert_eq!(both(&like_area_a(300, 10, 3_999_700)), [(6, 1), (4, 0)]);
    assert_eq!(both(&like_area_a(300, 10, 4_000_000)), [(6, 1), (4, 0)]);
    assert_eq!(both(&like_area_a(300, 10, 4_000_001)), [(4, 0), (4, 0)]);
}

/// One length is left: 4,000,000 is above 3,999,998 + 1.
#[test]
fn the_greatest_d() {
    let area = like_area_a(1, 1, 3_999_998);
    assert!(area.segments.iter().all(|segment| segment.length == 4_000_000));
    assert_eq!(both(&area), [DONE, (4, 0)]);
    assert_eq!(both(&Description { d: 3_999_999, ..area }), [(6, 1), (4, 0)]);
}

/// "b = 1 and v = 2000 gives 2,001,000": rule 5 reads it.
#[test]
fn the_greatest_braking_distance() {
    assert_eq!(both(&like_area_a(2000, 1, 2_001_000)), [DONE, (4, 0)]);
    assert_eq!(both(&like_area_a(2000, 1, 2_000_999)), [(5, 0), (4, 0)]);
    // S, not B
    assert_eq!(both(&like_area_a(2000, 1, 1_999_000)), [(5, 0), (4, 0)]);
    assert_eq!(both(&like_area_a(1000, 1, 500_500)), [DONE, DONE]);
    assert_eq!(both(&like_area_a(1000, 1, 500_499)), [(5, 0), (5, 0)]);
}

/// The sound record reads the bounds that load reads.
#[test]
fn sound_tables() {
    for (description, is_sound) in [
        (like_area_a(2000, 1, 2_001_000), true),
        (like_area_a(2001, 2001, 2001), false),
        (with_length(3, 4_000_000), true),
        (with_length(3, 4_000_001), false),
        (like_area_a(1, 1, 3_999_998), true),
        (like_area_a(300, 10, 4_000_001), false),
    ] {
        let record = Record::loaded(decode_tables(&description.file()));
        assert_eq!((sound(&record), send(&record, &mut [0; FILE_SIZE])), (is_sound, if is_sound { 0 } else { 11 }));
    }
}

// ---- "files accepted until now load as before"

/// What both bounds say of a file: accepted by the smaller ones, it is accepted with the same tables; accepted by the greater ones alone,
/// the smaller ones said 4 or 6; and where the smaller ones said neither, both say the same. The number by the smaller ones where only the
/// greater accept it.
fn only_now(file: &[u8]) -> Option<u8> {
    match (read(file), read_within(file, &Bounds::DOCUMENT_01)) {
        (now, Ok(before)) => {
            assert_eq!(now, Ok(before));
            assert_eq!(load(file).unwrap().record(), Record::loaded(before));
            None
        }
        (Ok(_), Err(before)) => {
            assert!([4, 6].contains(&before.number), "{before:?}");
            Some(before.number)
        }
        (Err(now), Err(before)) => {
            assert!(
                now == before || (before.number == 4 && now.number >= 4) || (before.number == 6 && now.number >= 6),
                "{now:?} {before:?}"
            );
            None
        }
    }
}

#[test]
fn accepted_until_now() {
    let mut random = Random::new(21);
    let (mut files, mut by_4, mut by_6) = (0, 0, 0);
    let mut note = |file: &[u8]| {
        let number = only_now(file);
        files += usize::from(read_within(file, &Bounds::DOCUMENT_01).is_ok());
        by_4 += usize::from(number == Some(4));
        by_6 += usize::from(number == Some(6));
    };
    for k in 0..300 {
        let made = if k % 3 == 0 { merges(&mut random) } else { area(&mut random, k % 2 == 0) };
        note(&made.file());
        for one in BREAKS {
            for place in PLACES {
                let mut file = made.file();
                (one.change)(&mut random, &made, &mut file, place);
                if one.rule > 2 {
                    put_checks(&mut file);
                }
                note(&file);
            }
        }
        for bound in AT_BOUNDS {
            note(&bound.made(&mut random).0.file());
        }
    }
    assert!(files > 1000 && by_4 > 1000 && by_6 > 500, "{files} accepted until now, only now {by_4} and {by_6}");
}

// ---- the inputs of the comparison

/// Each area at a bound is answered as it says, with either bounds.
#[test]
fn areas_at_the_bounds() {
    let mut random = Random::new(22);
    for bound in AT_BOUNDS {
        for _ in 0..100 {
            let (description, answers) = bound.made(&mut random);
            assert_eq!(both(&description), answers, "{}: {description:?}", bound.name);
        }
    }
}

/// The bounds are met, and one past each.
#[test]
fn numbers_at_the_bounds() {
    let mut random = Random::new(23);
    let mut has = |name: &str, is: fn(&Description) -> bool| {
        let bound = AT_BOUNDS.iter().find(|bound| bound.name == name).unwrap();
        assert!((0..20).all(|_| is(&bound.made(&mut random).0)), "{name}");
    };
    has("gmax 2000", |a| a.gmax == 2000);
    has("gmax 2001", |a| a.gmax == 2001);
    has("length 4,000,000", |a| a.segments.iter().filter(|segment| segment.length == 4_000_000).count() == 1);
    has("length 4,000,001", |a| a.segments.iter().filter(|segment| segment.length == 4_000_001).count() == 1);
    has("d 4,000,000", |a| a.d == 4_000_000);
    has("d 4,000,001", |a| a.d == 4_000_001);
    has("gmax 1, d 3,999,998, lengths 4,000,000", |a| {
        (a.gmax, a.d) == (1, 3_999_998) && a.segments.iter().all(|segment| segment.length == 4_000_000)
    });
}

/// The step due does with each of them what is known from how it was made.
#[test]
fn records_with_the_greatest_numbers() {
    for one in GREATEST {
        for number in [1, TRAINS] {
            let (before, answer, after) = one.records(number);
            assert_eq!(sound(&before), answer == 0, "{}", one.name);
            assert_eq!(call_on(&before, &one.call()), (answer, after), "{}", one.name);
        }
    }
}

/// The stops of the comparison are sound where they say so.
#[test]
fn stops_at_the_bounds() {
    let mut random = Random::new(1);
    for b in RATES {
        for d in distances(b) {
            let tables = *load(&like_area_a(TOP_SPEED, b, d).file()).unwrap().tables();
            for (stand, _) in at_ends(b).chain(about_near(b, d)) {
                assert_eq!(sound(&record_with(&tables, 24, &stand)), stand.is_sound(), "d = {d}, {stand:?}");
            }
            let tables = *load(&like_full_area(TOP_SPEED, b, d).file()).unwrap().tables();
            for is_sound in [true, false].repeat(20) {
                let (record, stands) = all_trains(&mut random, &tables, is_sound);
                assert_eq!(sound(&record), is_sound, "d = {d}, {stands:?}");
                assert_eq!(stands.iter().filter(|(stand, _)| !stand.is_sound()).count(), usize::from(!is_sound));
            }
        }
    }
}

/// Each edge is on its side on areas at the bounds too.
#[test]
fn edges_at_the_bounds() {
    let mut random = Random::new(24);
    let mut beyond = 0;
    for bound in AT_BOUNDS.iter().filter(|bound| bound.answers[0] == 0) {
        for edge in EDGES {
            for _ in 0..5 {
                let tables = *load(&bound.made(&mut random).0.file()).unwrap().tables();
                let Some(record) = record_at(&mut random, &tables, edge) else { continue };
                assert_eq!(sound(&record), edge.sound, "{}, {}: {record:?}", bound.name, edge.name);
                beyond += record.trains.iter().filter(|train| train.speed > 1000 && train.position > 1_000_000).count();
            }
        }
    }
    assert!(beyond > 100, "{beyond} trains faster and further than document 01 allows");
}

/// Areas of a faster line are accepted by the bounds in force alone; demand 3 holds after each call, and trains get far.
#[test]
fn lists_on_faster_lines() {
    let mut random = Random::new(25);
    let (mut fast, mut furthest) = (0, 0);
    for _ in 0..300 {
        let description = faster(&mut random);
        let [now, before] = both(&description);
        assert_eq!((now, before), (DONE, (4, 0)), "{description:?}");
    }
    for _ in 0..4 {
        let description = faster(&mut random);
        let mut area = load(&description.file()).unwrap();
        let mut demand = Demand3::new(area.tables());
        for _ in 0..6000 {
            let before = area.record();
            let call = random::running(&mut random, &description, &before);
            let answer = area.call(&call.call());
            assert_eq!(demand.tell(&call.call(), answer, &area.record()), Ok(()));
            if answer == 0 && matches!(call, Owned::Position) {
                fast += before.trains.iter().filter(|train| train.speed > 1000).count();
                furthest = furthest.max(area.record().trains.iter().map(|train| train.position).max().unwrap_or(0));
            }
        }
    }
    assert!(fast > 4000 && furthest > 1_000_000, "{fast} fast, as far as {furthest}");
}
