//! Request R-2 of document 02: longest waiting goes first at a merge. By hand on Area A, where segments 1 and 2 lead to 3, and on the
//! area with a merge for every two routes.

use reference::*;

/// A train that stands where it just is near: 1350 of segment 1's 6000 by route 1, 850 of segment 2's 5500 by route 2.
fn near(route: u8, asks: u8, count: u16) -> RawTrain {
    RawTrain { route, place: 1, position: if route == 1 { 1350 } else { 850 }, speed: 0, asks, count, length: 1 }
}

/// Area A with trains at their numbers.
fn area_a_with(due: u8, trains: &[(u8, RawTrain)], allocations: [u8; 3]) -> Record {
    let mut record = Record::loaded(decode_tables(&area_a().file()));
    for &(number, train) in trains {
        record.trains[usize::from(number) - 1] = train;
    }
    record.allocations[..3].copy_from_slice(&allocations);
    Record { due, ..record }
}

/// What the grant step hands back.
fn granted(record: &Record) -> Record {
    assert!(sound(record));
    let (answer, after) = call_on(record, &Call::Grant);
    assert_eq!((answer, after.due, sound(&after)), (0, POSITION, true));
    after
}

/// Train `one` on segment 1 and train `other` on segment 2 both ask for segment 3, with these counts: who gets it, and their counts then.
fn contest(one: u8, other: u8, counts: [u16; 2]) -> (u8, [u16; 2]) {
    let trains = |asks, counts: [u16; 2]| [(one, near(1, asks, counts[0])), (other, near(2, asks, counts[1]))];
    let after = granted(&area_a_with(GRANT, &trains(1, counts), [one, other, 0]));
    let counts = [after.train(one).count, after.train(other).count];
    // nothing else changes
    assert_eq!(after, area_a_with(POSITION, &trains(0, counts), [one, other, after.allocated(3)]));
    (after.allocated(3), counts)
}

/// "equal counts go to the higher train number", on whichever segment it is.
#[test]
fn equal_counts() {
    assert_eq!(contest(1, 2, [0, 0]), (2, [1, 0]));
    assert_eq!(contest(2, 1, [0, 0]), (2, [0, 1]));
    assert_eq!(contest(1, 24, [7, 7]), (24, [8, 0]));
    assert_eq!(contest(24, 23, [255, 255]), (24, [0, 256]));
    assert_eq!(contest(3, 4, [65_535, 65_535]), (4, [65_535, 0]));
}

/// "the highest count wins", whatever the numbers; "the count .. returns to 0 on a grant".
#[test]
fn the_highest_count() {
    assert_eq!(contest(1, 2, [5, 4]), (1, [0, 5]));
    assert_eq!(contest(1, 2, [4, 5]), (2, [5, 0]));
    assert_eq!(contest(24, 1, [0, 1]), (1, [1, 0]));
    // the whole count is compared
    assert_eq!(contest(1, 2, [256, 255]), (1, [0, 256]));
    assert_eq!(contest(1, 2, [32_768, 32_767]), (1, [0, 32_768]));
    assert_eq!(contest(1, 2, [65_535, 65_534]), (1, [0, 65_535]));
    assert_eq!(contest(1, 2, [65_534, 65_535]), (2, [65_535, 0]));
    assert_eq!(contest(1, 2, [0, 65_535]), (2, [1, 0]));
}

/// One train alone gets it with any count.
#[test]
fn alone() {
    for count in [0, 1, 65_534, 65_535] {
        let after = granted(&area_a_with(GRANT, &[(1, near(1, 1, count))], [1, 0, 0]));
        assert_eq!(after, area_a_with(POSITION, &[(1, near(1, 0, 0))], [1, 0, 1]));
    }
}

/// "Each train counts the grant steps at which it asked and got nothing": also those at which the segment was allocated before, to a
/// train on it or to one that was granted it. "the count .. stops at 65,535".
#[test]
fn counts_before_an_allocated_segment() {
    for (count, then) in [(0, 1), (1, 2), (255, 256), (65_534, 65_535), (65_535, 65_535)] {
        let on_it = RawTrain { route: 1, place: 2, position: 1, speed: 0, asks: 0, count: 3, length: 1 };
        let after = granted(&area_a_with(GRANT, &[(1, near(1, 1, count)), (2, near(2, 1, 9)), (3, on_it)], [1, 2, 3]));
        assert_eq!(after, area_a_with(POSITION, &[(1, near(1, 0, then)), (2, near(2, 0, 10)), (3, on_it)], [1, 2, 3]));
        // train 2 has it, does not ask and keeps its count
        let after = granted(&area_a_with(GRANT, &[(1, near(1, 1, count)), (2, near(2, 0, 9))], [1, 2, 2]));
        assert_eq!(after, area_a_with(POSITION, &[(1, near(1, 0, then)), (2, near(2, 0, 9))], [1, 2, 2]));
    }
}

/// A train that does not ask keeps its count: not near, with next allocated to it, or at its route's end.
#[test]
fn no_asking_keeps_the_count() {
    for count in [0, 1, 700, 65_535] {
        let far = RawTrain { position: 1349, ..near(1, 0, count) };
        let at_the_end = RawTrain { place: 2, ..near(2, 0, count) };
        for (train, allocations) in [(far, [1, 0, 0]), (near(1, 0, count), [1, 0, 1]), (at_the_end, [0, 0, 1])] {
            let record = area_a_with(GRANT, &[(1, train)], allocations);
            assert_eq!(granted(&record), Record { due: POSITION, ..record });
        }
    }
}

/// The other steps keep every count, and so does a refused grant step.
#[test]
fn other_calls_keep_the_counts() {
    let (one, two) = (near(1, 0, 40), near(2, 0, 65_535));
    let counts = |record: &Record| [record.train(1).count, record.train(2).count];
    for (due, call) in [(SPEED, AREA_A_CYCLE[0]), (REQUEST, AREA_A_CYCLE[1]), (POSITION, AREA_A_CYCLE[3])] {
        let record = area_a_with(due, &[(1, one), (2, two)], [1, 2, 0]);
        let (answer, after) = call_on(&record, &call);
        assert_eq!((answer, counts(&after)), (0, [40, 65_535]));
        assert_eq!(call_on(&record, &Call::Grant), (12, record));
    }
}

/// "the count is 0 at enter", and "a train off has count 0": what it had before it left plays no part.
#[test]
fn leaves_and_enters_again() {
    for due in [SPEED, REQUEST, GRANT, POSITION] {
        let on_3 = RawTrain { route: 1, place: 2, position: 10, speed: 0, asks: 0, count: 12, length: 1 };
        let record = area_a_with(due, &[(4, on_3)], [0, 0, 4]);
        assert!(sound(&record));
        let (answer, left) = call_on(&record, &Call::Leave { train: 4 });
        assert_eq!((answer, left), (0, area_a_with(due, &[], [0; 3])));
        let (answer, entered) = call_on(&left, &Call::Enter { train: 4, route: 2, speed: 7, length: 1 });
        let at_the_start = RawTrain { route: 2, place: 1, position: 0, speed: 7, asks: 0, count: 0, length: 1 };
        assert_eq!((answer, entered), (0, area_a_with(due, &[(4, at_the_start)], [0, 4, 0])));
    }
}

/// "a train off has count 0": with another one the record is unsound, and every call is refused with 11.
#[test]
fn a_train_off_with_a_count() {
    for due in [SPEED, REQUEST, GRANT, POSITION] {
        for count in [1, 255, 256, 65_535] {
            let off = RawTrain { count, ..RawTrain::OFF };
            let record = area_a_with(due, &[(9, off)], [0; 3]);
            assert!(!sound(&record) && Area::from_record(&record).is_none());
            let calls = [Call::Enter { train: 9, route: 1, speed: 0, length: 1 }, Call::Leave { train: 9 }];
            for call in calls.iter().chain(&AREA_A_CYCLE) {
                assert_eq!(call_on(&record, call), (11, record));
            }
            assert_eq!(report_on(&record), (11, 0, 0));
        }
    }
}

/// The listing's trains go on: train 1 counts from cycle 6 on, at which train 2 has segment 3, and gets it when train 2 has left.
#[test]
fn area_a_after_its_listing() {
    let mut area = load(&area_a().file()).unwrap();
    AREA_A_ENTRIES.iter().for_each(|call| assert_eq!(area.call(call), 0));
    for cycle in 1..=200u16 {
        AREA_A_CYCLE.iter().for_each(|call| assert_eq!(area.call(call), 0));
        assert_eq!([1, 2].map(|number| area.record().train(number).count), [cycle.saturating_sub(5), 0]);
    }
    assert_eq!(area.leave(2), 0);
    AREA_A_CYCLE.iter().for_each(|call| assert_eq!(area.call(call), 0));
    assert_eq!((area.record().allocations[..3].to_vec(), area.record().train(1).count), (vec![1, 0, 1], 0));
}

/// Twelve segments with two trains each that ask for them, in one step: the counts before it decide.
#[test]
fn many_merges_in_one_step() {
    let mut area = load(&merging_area().file()).unwrap();
    (1..=24).for_each(|train| assert_eq!(area.enter(train, train, 290, 1), 0));
    // 15 cycles to position 4350 of 9000, which is near; then speed and request
    for call in AREA_A_CYCLE.iter().cycle().take(4 * 15 + 2) {
        assert_eq!(area.call(call), 0);
    }
    let asked = area.record();
    assert!(asked.trains.iter().all(|train| (train.asks, train.count) == (1, 0)));
    let winners = |after: &Record| (1..=12).map(|merge| after.allocated(3 * merge)).collect::<Vec<u8>>();
    let after = granted(&asked);
    assert_eq!(winners(&after), (1..=12).map(|merge| 2 * merge).collect::<Vec<u8>>());
    assert!((1..=24).all(|number: u8| after.train(number).count == u16::from(number % 2)));
    // from merge to merge the lower number ahead, equal counts, and the higher number ahead
    let mut counted = asked;
    (1..).zip(&mut counted.trains).for_each(|(number, train): (u8, _)| {
        train.count = [[5, 4], [9, 9], [0, 1]][usize::from(number - 1) / 2 % 3][usize::from(number - 1) % 2];
    });
    let after = granted(&counted);
    assert_eq!(winners(&after), [1, 4, 6, 7, 10, 12, 13, 16, 18, 19, 22, 24]);
    let counts: Vec<u16> = after.trains[..6].iter().map(|train| train.count).collect();
    assert_eq!(counts, [0, 5, 10, 0, 1, 0]);
}

/// Two trains ask for the segment that a third stands on, which is granted its own next in that step: it does not make way before it
/// moves, and they count.
#[test]
fn counts_behind_a_train_that_gets_its_segment() {
    let tables = decode_tables(&merging_area().file());
    let mut record = Record { due: GRANT, ..Record::loaded(tables) };
    let near = |route, place, count| RawTrain { route, place, position: 4350, speed: 0, asks: 1, count, length: 1 };
    // on segments 1, 2, 3 by routes 1-3-4, 2-3-4, 1-3-4: trains 6 and 5 ask for 3, which train 7 on it does not leave yet
    (record.trains[5], record.trains[4], record.trains[6]) = (near(1, 1, 2), near(2, 1, 65_535), near(1, 2, 1));
    record.allocations[..3].copy_from_slice(&[6, 5, 7]);
    let after = granted(&record);
    assert_eq!(after.allocations[..4], [6, 5, 7, 7]);
    assert_eq!([5, 6, 7].map(|number| after.train(number).count), [65_535, 3, 0]);
}
