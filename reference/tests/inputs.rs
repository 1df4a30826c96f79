//! The inputs of the comparison are what they claim to be.

use reference::breaks::{from_rule, Where, BREAKS, PLACES};
use reference::edges::{leaving_record, record_at, sound_record, EDGES};
use reference::merges::{merging_record, Merging};
use reference::random::{area, meeting, merges, short_segments, Random};
use reference::*;

#[test]
fn areas_made_to_meet_the_rules_are_accepted() {
    let mut random = Random::new(7);
    for k in 0..3000 {
        let made = area(&mut random, k % 2 == 0);
        assert_eq!(load(&made.file()).err(), None, "{made:?}");
        for made in [merges(&mut random), short_segments(&mut random)] {
            assert_eq!(load(&made.file()).err(), None, "{made:?}");
        }
    }
}

#[test]
fn each_break_alone_is_answered_with_its_rule() {
    let mut random = Random::new(8);
    let mut hits = vec![[0; 3]; BREAKS.len()];
    for k in 0..600 {
        let made = area(&mut random, k % 3 == 0);
        for (one, hit) in BREAKS.iter().zip(&mut hits) {
            for (at, &place) in PLACES.iter().enumerate() {
                let mut file = made.file();
                if (one.change)(&mut random, &made, &mut file, place) {
                    if one.rule > 2 {
                        put_checks(&mut file);
                    }
                    assert_eq!(answer_of(&file).0, one.rule, "{}, {place:?}: {made:?}", one.name);
                    hit[at] += 1;
                }
            }
        }
    }
    for (one, hit) in BREAKS.iter().zip(hits) {
        assert!(hit.iter().all(|&n| n > 0), "rule {}, {}: {hit:?}", one.rule, one.name);
    }
}

#[test]
fn breaks_from_a_rule_on() {
    assert!(BREAKS.is_sorted_by_key(|one| one.rule));
    assert_eq!(from_rule(1).len(), BREAKS.len());
    assert_eq!(from_rule(3)[0].name, "kind");
    assert!(from_rule(11).is_empty());
}

/// The area's file with one break, if there is such a place; the checks as the break leaves them.
fn broken(random: &mut Random, made: &Description, name: &str, place: Where) -> Option<Vec<u8>> {
    let one = BREAKS.iter().find(|one| one.name == name).unwrap();
    let mut file = made.file();
    (one.change)(random, made, &mut file, place).then_some(file)
}

fn answer(mut file: Vec<u8>) -> (u8, u16) {
    put_checks(&mut file);
    answer_of(&file)
}

#[test]
fn the_middle_is_strictly_between_first_and_last() {
    let mut random = Random::new(12);
    for k in 0..300 {
        let made = area(&mut random, k % 2 == 0);
        let n = made.segments.len() as u16;
        let places = PLACES.map(|place| broken(&mut random, &made, "length 0", place).map(|file| answer(file).1));
        assert_eq!((places[0], places[2]), (Some(1), Some(n)));
        assert!(places[1].map_or(n < 3, |middle| 1 < middle && middle < n), "{places:?} of {n}");
    }
}

/// The header is right with a `d` of 4,000,000, and wrong one above.
#[test]
fn bounds_of_d() {
    let mut random = Random::new(9);
    let made = area(&mut random, true);
    let mut at = |name: &str, place: Where| {
        let file = broken(&mut random, &made, name, place).unwrap();
        (u32::from_le_bytes(file[D_AT..D_AT + 4].try_into().unwrap()), answer(file))
    };
    assert_eq!(at("d up to 4,000,000", Where::Last), (LONGEST, (6, 1)));
    assert_eq!(at("d 0, 4,000,001, the greatest number", Where::Middle), (LONGEST + 1, (4, 0)));
}

/// Only the stored check is wrong with these: with it set right, a later rule speaks.
#[test]
fn sums_of_0_stored_as_255() {
    let mut random = Random::new(13);
    for k in 0..100 {
        let made = area(&mut random, k % 2 == 0);
        for (sum, name) in ["first sum of 0 stored as 255", "second sum of 0 stored as 255"].into_iter().enumerate() {
            for (place, blocks) in PLACES.into_iter().zip([0..1, 1..4, 4..5]) {
                let file = broken(&mut random, &made, name, place).unwrap();
                let number =
                    blocks.clone().find(|number| file[BLOCK_SIZE * number + CHECK_AT + sum] == 255).expect("a block of that place");
                assert_eq!(check(&file[BLOCK_SIZE * number..][..BLOCK_SIZE])[sum], 0);
                assert_eq!(answer_of(&file), (2, number as u16));
                assert_eq!(answer(file).0, 3);
            }
        }
    }
}

/// Of all the steps of all routes just one is no next link, and it is of the kind that the break names.
#[test]
fn one_step_is_wrong() {
    let mut random = Random::new(14);
    let mut hits = [0; 3];
    for _ in 0..300 {
        let made = area(&mut random, false);
        let names = ["step that is no next link", "step to a previous link", "step to a greater number that is no link"];
        for (k, name) in names.into_iter().enumerate() {
            for file in PLACES.map(|place| broken(&mut random, &made, name, place)).into_iter().flatten() {
                let tables = decode_tables(&file);
                let steps = tables.routes.iter().flat_map(|route| route.listed().windows(2));
                let wrong: Vec<&[u8]> = steps.filter(|step| !tables.segment(step[0]).next.contains(&step[1])).collect();
                assert_eq!(wrong.len(), 1);
                let (from, to) = (wrong[0][0], wrong[0][1]);
                assert!(k != 1 || tables.segment(from).previous.contains(&to));
                assert!(k != 2 || to > from);
                hits[k] += 1;
            }
        }
    }
    assert!(hits.iter().all(|&n| n > 100), "{hits:?}");
}

#[test]
fn records_made_to_be_sound_are_sound() {
    let mut random = Random::new(10);
    let (mut most, mut over) = (0, 0);
    for k in 0..2000u32 {
        let tables = *load(&area(&mut random, k % 4 != 0).file()).unwrap().tables();
        let record = sound_record(&mut random, &tables, (k % 4) as u8);
        assert!(sound(&record), "{record:?}");
        most = most.max(record.trains.iter().filter(|train| train.is_on()).count());
        over += record.trains.iter().filter(|train| train.is_on() && train.under(&tables).len() > 2).count();
    }
    assert_eq!(most, TRAINS.into());
    assert!(over > 200, "{over} trains over more than two segments");
}

#[test]
fn each_edge_is_on_its_side() {
    let mut random = Random::new(11);
    let mut hits = vec![0; EDGES.len()];
    for k in 0..1000 {
        let tables = *load(&area(&mut random, k % 4 != 0).file()).unwrap().tables();
        for (edge, hit) in EDGES.iter().zip(&mut hits) {
            if let Some(record) = record_at(&mut random, &tables, edge) {
                assert_eq!(sound(&record), edge.sound, "{}: {record:?}", edge.name);
                *hit += 1;
            }
        }
    }
    for (edge, hit) in EDGES.iter().zip(hits) {
        assert!(hit > 0, "{}", edge.name);
    }
}

/// The grant step does what is known from how the record was made, and the records have what they are made for.
#[test]
fn records_made_before_merges() {
    let mut random = Random::new(18);
    let (mut most_asking, mut most_contests, mut over) = (0, 0, 0);
    for k in 0..3000 {
        let description = if k % 3 == 0 { area(&mut random, k % 2 == 0) } else { merges(&mut random) };
        let tables = *load(&description.file()).unwrap().tables();
        let Merging { before, after } = merging_record(&mut random, &tables);
        assert!(sound(&before) && before.due == GRANT, "{before:?}");
        assert_eq!(call_on(&before, &Call::Grant), (0, after), "{before:?}");
        let asked: Vec<u8> = before.trains.iter().filter(|train| train.asks == 1).filter_map(|train| train.next(&tables)).collect();
        let contests = (1..=tables.n).filter(|&segment| before.allocated(segment) == 0);
        most_contests = most_contests.max(contests.filter(|segment| asked.iter().filter(|next| *next == segment).count() == 2).count());
        most_asking = most_asking.max(asked.len());
        over += before.trains.iter().filter(|train| train.is_on() && train.under(&tables).len() > 1).count();
    }
    assert!(most_asking >= 20 && most_contests >= 8, "{most_asking} asking, {most_contests} contests");
    assert!(over > 1000, "{over} trains over more than one segment");
}

/// A train that leaves with a count.
#[test]
fn records_with_a_train_that_may_leave() {
    let mut random = Random::new(19);
    let mut hits = 0;
    for k in 0..500u32 {
        let tables = *load(&area(&mut random, true).file()).unwrap().tables();
        if let Some((record, number)) = leaving_record(&mut random, &tables, (k % 4) as u8) {
            assert!(sound(&record) && record.train(number).count > 0);
            let (answer, left) = call_on(&record, &Call::Leave { train: number.into() });
            assert_eq!((answer, *left.train(number)), (0, RawTrain::OFF));
            hits += 1;
        }
    }
    assert!(hits > 200, "{hits}");
}

/// Trains meet: they wait, and more than one segment is asked for by two trains in one step.
#[test]
fn calls_by_which_trains_meet() {
    let mut random = Random::new(20);
    let (mut longest, mut several) = (0, 0);
    for _ in 0..100 {
        let description = merges(&mut random);
        let mut area = load(&description.file()).unwrap();
        for _ in 0..500 {
            let record = area.record();
            let asked: Vec<u8> =
                record.trains.iter().filter(|train| train.asks == 1).filter_map(|train| train.next(&record.tables)).collect();
            let twice = asked.iter().filter(|next| record.allocated(**next) == 0 && asked.iter().filter(|one| one == next).count() == 2);
            several += usize::from(twice.count() > 2);
            longest = longest.max(record.trains.iter().map(|train| train.count).max().unwrap_or(0));
            area.call(&meeting(&mut random, &description, &record, 6).call());
        }
    }
    assert!(longest > 10 && several > 10, "{longest} counted, {several} times several");
}
