//! Refusals 11 to 21, the sentences of the sound record and of the calls.

use reference::*;

/// Area A, freshly loaded.
fn a() -> Area {
    load(&area_a().file()).unwrap()
}

/// Area A with a segment 4 after 3 (limit 295), exits at 3 and 4, and the routes 1-3, 2-3,
/// 1-3-4, 3.
fn longer() -> Description {
    let mut description = area_a();
    description.segments[2].next = [4, 0];
    description.segments.push(Segment { length: 5000, limit: 295, next: [0, 0], previous: [3, 0], flags: EXIT });
    description.routes.extend([vec![1, 3, 4], vec![3]]);
    description
}

fn train(route: u8, place: u8, position: u32, speed: u16) -> RawTrain {
    RawTrain { route, place, position, speed, asks: 0, count: 0, length: 1 }
}

fn raw(description: &Description, due: u8, trains: &[(usize, RawTrain)], allocations: &[u8]) -> Record {
    let mut record = Record::loaded(decode_tables(&description.file()));
    record.due = due;
    for &(number, train) in trains {
        record.trains[number - 1] = train;
    }
    record.allocations[..allocations.len()].copy_from_slice(allocations);
    record
}

/// The last train's number as an argument, and one that no train has.
const LAST: u16 = TRAINS as u16;
const ABOVE: u16 = LAST + 1;

/// A refusal that leaves the area as it was.
fn refused(area: &mut Area, call: Call, number: u8) {
    let before = *area;
    assert_eq!(area.call(&call), number, "{call:?}");
    assert_eq!(*area, before);
    assert_eq!(call_on(&before.record(), &call), (number, before.record()));
}

#[test]
fn unsound_11() {
    let mut late = a().record();
    late.due = 4;
    for record in [Record::BLANK, late] {
        assert!(!sound(&record));
        assert!(Area::from_record(&record).is_none());
        let calls = [Call::Enter { train: 0, route: 1, speed: 1, length: 1 }, Call::Leave { train: ABOVE }, Call::Speed { wishes: &[] }];
        for call in calls.iter().chain(&AREA_A_CYCLE) {
            assert_eq!(call_on(&record, call), (11, record));
        }
        assert_eq!(report_on(&record), (11, 0, 0));
    }
}

#[test]
fn turn_12() {
    let mut area = a();
    for turn in 0..8 {
        for (step, call) in AREA_A_CYCLE.iter().enumerate() {
            if step != turn % 4 {
                refused(&mut area, *call, 12);
            }
        }
        if turn % 4 != 0 {
            // 12 comes before 21
            refused(&mut area, Call::Speed { wishes: &[] }, 12);
        }
        assert_eq!(area.call(&AREA_A_CYCLE[turn % 4]), 0);
    }
}

#[test]
fn enter_13_14_16_17_18_19() {
    let enter = |train, route, speed| Call::Enter { train, route, speed, length: 1 };
    let mut area = Area::from_record(&raw(&longer(), SPEED, &[], &[])).unwrap();
    for train in [0, ABOVE, 256, 257, u16::MAX] {
        refused(&mut area, enter(train, 0, 301), 13);
    }
    assert_eq!(area.enter(1, 1, 300, 1), 0);
    assert_eq!(area.report(), (0, 1, 2));
    refused(&mut area, enter(1, 0, 301), 14);
    for route in [0, 5, 257, u16::MAX] {
        refused(&mut area, enter(2, route, 301), 16);
    }
    refused(&mut area, enter(2, 4, 301), 17);
    refused(&mut area, enter(2, 1, 301), 18);
    refused(&mut area, enter(2, 3, 301), 18);
    refused(&mut area, enter(2, 2, 291), 19);
    refused(&mut area, enter(2, 2, u16::MAX), 19);
    assert_eq!(area.enter(LAST, 2, 290, 1), 0);
    let record = area.record();
    assert_eq!(*record.train(TRAINS), train(2, 1, 0, 290));
    assert_eq!(record.allocations[..4], [1, TRAINS, 0, 0]);
}

#[test]
fn leave_13_15_20() {
    for number in [0, ABOVE, 257] {
        refused(&mut a(), Call::Leave { train: number }, 13);
    }
    refused(&mut a(), Call::Leave { train: LAST }, 15);
    let mut first = a();
    first.enter(1, 1, 0, 1);
    refused(&mut first, Call::Leave { train: 1 }, 20);
    // on segment 3: the last of route 1, not of route 3
    for due in [SPEED, REQUEST, GRANT, POSITION] {
        let not_last = raw(&longer(), due, &[(5, train(3, 2, 7, 200))], &[0, 0, 5, 5]);
        refused(&mut Area::from_record(&not_last).unwrap(), Call::Leave { train: 5 }, 20);
        let last = raw(&longer(), due, &[(5, train(1, 2, 7, 200))], &[0, 0, 5]);
        assert_eq!(call_on(&last, &Call::Leave { train: 5 }), (0, raw(&longer(), due, &[], &[])));
        // the last, but no exit
        let mut no_exit = longer();
        no_exit.segments[2].flags = ENTRY;
        let there = raw(&no_exit, due, &[(5, train(1, 2, 7, 200))], &[0, 0, 5]);
        refused(&mut Area::from_record(&there).unwrap(), Call::Leave { train: 5 }, 20);
    }
}

#[test]
fn wishes_21() {
    for wishes in [&[][..], &[300; WISHES - 1], &[300; WISHES + 1], &[300; WISHES + 256]] {
        refused(&mut a(), Call::Speed { wishes }, 21);
    }
}

/// The speed after a speed step.
fn speed_after(record: &Record, wish: u16) -> u16 {
    let mut wishes = [17; WISHES];
    wishes[4] = wish;
    let (number, back) = call_on(record, &Call::Speed { wishes: &wishes });
    assert_eq!((number, back.due), (0, REQUEST));
    assert_eq!(back, Record { due: REQUEST, trains: back.trains, ..*record });
    assert!(sound(&back));
    back.trains[4].speed
}

#[test]
fn speed_step() {
    // "Not near: up to the segment's limit", with and without next
    for allocations in [[5, 0, 0], [5, 0, 5]] {
        let far = raw(&area_a(), SPEED, &[(5, train(1, 1, 1349, 200))], &allocations);
        for (wish, speed) in [(0, 190), (189, 190), (190, 190), (250, 250), (300, 300), (301, 300), (65535, 300)] {
            assert_eq!(speed_after(&far, wish), speed);
        }
        let slow = raw(&area_a(), SPEED, &[(5, train(1, 1, 1349, 9))], &allocations);
        assert_eq!((speed_after(&slow, 0), speed_after(&slow, 300)), (0, 300));
    }
    // "Near with next allocated to it: up to the smaller of both limits."
    let granted = raw(&area_a(), SPEED, &[(5, train(1, 1, 1350, 300))], &[5, 0, 5]);
    assert_eq!((speed_after(&granted, 0), speed_after(&granted, 300)), (290, 290));
    let to_faster = raw(&longer(), SPEED, &[(5, train(3, 2, 3350, 280))], &[0, 0, 5, 5]);
    assert_eq!((speed_after(&to_faster, 0), speed_after(&to_faster, 300)), (270, 290));
    // "Near without it: exactly low."
    let near = raw(&area_a(), SPEED, &[(5, train(1, 1, 1350, 200))], &[5, 0, 0]);
    assert_eq!((speed_after(&near, 0), speed_after(&near, 300)), (190, 190));
    let slow = raw(&area_a(), SPEED, &[(5, train(1, 2, 7999, 9))], &[0, 0, 5]);
    assert_eq!((speed_after(&slow, 0), speed_after(&slow, 300)), (0, 0));
}

#[test]
fn request_and_grant_step() {
    // 2 and 7 are near and ask for segment 3; of equal counts the higher number gets it, and the other counts
    let trains = [(7, train(1, 1, 1350, 290)), (2, train(2, 1, 850, 290))];
    let record = raw(&area_a(), REQUEST, &trains, &[7, 2, 0]);
    let (number, asked) = call_on(&record, &Call::Request);
    assert_eq!((number, asked.due), (0, GRANT));
    assert_eq!((asked.trains[6].asks, asked.trains[1].asks), (1, 1));
    let (number, granted) = call_on(&asked, &Call::Grant);
    assert_eq!(number, 0);
    assert_eq!(granted, raw(&area_a(), POSITION, &[trains[0], (2, RawTrain { count: 1, ..trains[1].1 })], &[7, 2, 7]));
    // not near, or with next allocated to it, or without a next: no asking
    for (train, allocations) in
        [(train(1, 1, 1349, 300), [7, 0, 0]), (train(1, 1, 1350, 300), [7, 0, 7]), (train(1, 2, 3350, 290), [0, 0, 7])]
    {
        let record = raw(&area_a(), REQUEST, &[(7, train)], &allocations);
        assert_eq!(call_on(&record, &Call::Request), (0, Record { due: GRANT, ..record }));
    }
    // next taken by another train: it asks, goes without, and counts
    let taken = raw(&area_a(), REQUEST, &[(7, train(1, 1, 1350, 290)), (2, train(2, 2, 1, 0))], &[7, 0, 2]);
    let (_, asked) = call_on(&taken, &Call::Request);
    assert_eq!(asked.trains[6].asks, 1);
    let mut without = Record { due: POSITION, ..taken };
    without.trains[6].count = 1;
    assert_eq!(call_on(&asked, &Call::Grant), (0, without));
    // a train that leaves while others ask, and enters beside them
    let mut area = Area::from_record(&asked).unwrap();
    assert_eq!((area.leave(2), area.enter(1, 2, 290, 1), area.grant()), (0, 0, 0));
    assert_eq!(area.record().allocations[..3], [7, 1, 7]);
}

#[test]
fn report_counts() {
    let record = raw(&area_a(), SPEED, &[(1, train(1, 1, 0, 0)), (2, train(2, 1, 0, 0))], &[1, 2, 0]);
    assert_eq!(report_on(&record), (0, 2, 3));
    let record = raw(&area_a(), SPEED, &[(1, train(1, 1, 0, 0)), (2, train(2, 1, 0, 0))], &[1, 2, 2]);
    assert_eq!(report_on(&record), (0, 3, 0));
    let record = raw(&area_a(), SPEED, &[(2, train(2, 1, 0, 0))], &[0, 2, 2]);
    assert_eq!(report_on(&record), (0, 2, 1));
}

/// Each sentence of "A sound record", broken once in a record that is sound otherwise.
#[test]
fn sound_record() {
    let description = longer();
    let base = raw(&description, SPEED, &[(1, train(3, 1, 1000, 200)), (2, train(2, 1, 0, 0))], &[1, 2, 1, 0]);
    assert!(sound(&base));
    let broken = |change: &dyn Fn(&mut Record)| {
        let mut record = base;
        change(&mut record);
        assert!(!sound(&record));
        assert_eq!(call_on(&record, &Call::Speed { wishes: &[0; WISHES] }), (11, record));
    };
    // tables
    broken(&|r| r.tables.n = SEGMENTS + 1);
    broken(&|r| r.tables.r = 0);
    broken(&|r| r.tables.b = 0);
    broken(&|r| r.tables.gmax = u16::MAX);
    broken(&|r| r.tables.d = 4649);
    broken(&|r| r.tables.d = u32::MAX);
    broken(&|r| r.tables.segments[3].length = u32::MAX);
    broken(&|r| r.tables.segments[3].next = [255, 0]);
    broken(&|r| r.tables.segments[3].previous = [0, 0]);
    broken(&|r| r.tables.segments[4].flags = 1);
    broken(&|r| r.tables.segments[61].limit = 1);
    broken(&|r| r.tables.segments[2].limit = 289);
    broken(&|r| r.tables.routes[0].count = 255);
    broken(&|r| r.tables.routes[0].numbers[30] = 1);
    broken(&|r| r.tables.routes[29].count = 1);
    // step due
    broken(&|r| r.due = 4);
    broken(&|r| r.due = 255);
    // a train off
    broken(&|r| r.trains[23].place = 1);
    broken(&|r| r.trains[23].position = 1);
    broken(&|r| r.trains[23].speed = 1);
    for asks in [1, 2, 255] {
        broken(&|r| r.trains[23].asks = asks);
    }
    for count in [1, 255, 256, LAST_COUNT] {
        broken(&|r| r.trains[23].count = count);
    }
    for length in [1, 256, LONGEST_TRAIN, LONGEST_TRAIN + 1, u16::MAX] {
        broken(&|r| r.trains[23].length = length);
    }
    // allocations
    broken(&|r| r.allocations[3] = 3);
    broken(&|r| r.allocations[3] = TRAINS + 1);
    broken(&|r| r.allocations[3] = 255);
    broken(&|r| r.allocations[4] = 1);
    broken(&|r| r.allocations[61] = 1);
    // a train on
    broken(&|r| r.trains[0].route = 5);
    broken(&|r| r.trains[0].route = 255);
    broken(&|r| r.trains[0].place = 0);
    broken(&|r| r.trains[0].place = 4);
    broken(&|r| r.trains[0].place = 255);
    broken(&|r| r.trains[0].position = 6000);
    broken(&|r| r.trains[0].position = u32::MAX);
    broken(&|r| r.trains[0].speed = 301);
    broken(&|r| r.trains[0].speed = u16::MAX);
    for length in [0, LONGEST_TRAIN + 1, u16::MAX] {
        broken(&|r| r.trains[0].length = length);
    }
    // its own segment, its next, no other
    broken(&|r| r.allocations[0] = 0);
    broken(&|r| r.allocations[0] = 2);
    broken(&|r| r.allocations[3] = 1);
    broken(&|r| r.allocations[3] = 2);
    // asks
    for asks in [1, 2, 255] {
        broken(&|r| r.trains[0].asks = asks);
    }

    // B with speed due, S with another step due; next not allocated, or none
    for (route, place, allocations, length) in [(1, 1, [4, 0, 0], 6000), (1, 2, [0, 0, 4], 8000)] {
        for (due, way) in [(SPEED, b_rest(10, 285)), (REQUEST, s(10, 285)), (POSITION, s(10, 285))] {
            let at = |position| raw(&area_a(), due, &[(4, train(route, place, position, 285))], &allocations);
            let last = length - way as u32 - 1;
            assert!(sound(&at(last)) && !sound(&at(last + 1)));
        }
    }
    // "speed ≤ next's limit" where it moves on
    for due in [REQUEST, GRANT, POSITION] {
        let at = |position, speed| raw(&area_a(), due, &[(4, train(1, 1, position, speed))], &[4, 0, 4]);
        assert!(sound(&at(5999, 290)) && !sound(&at(5999, 291)));
        assert!(sound(&at(5700, 299)) && !sound(&at(5701, 299)));
    }
    assert!(sound(&raw(&area_a(), SPEED, &[(4, train(1, 1, 5999, 300))], &[4, 0, 4])));
    // asks exactly when ..
    let asking = |due, position, asks, next| {
        let train = RawTrain { asks, ..train(1, 1, position, 0) };
        sound(&raw(&area_a(), due, &[(4, train)], &[4, 0, next]))
    };
    for asks in 0..=255 {
        assert_eq!(asking(GRANT, 1350, asks, 0), asks == 1);
        assert_eq!(asking(GRANT, 1349, asks, 0), asks == 0);
        assert_eq!(asking(GRANT, 1350, asks, 4), asks == 0);
        for due in [SPEED, REQUEST, POSITION] {
            assert_eq!(asking(due, 1350, asks, 0), asks == 0);
        }
    }
}

/// Any contents at all: no panic.
#[test]
fn sound_of_wild_records() {
    let wild = |byte: u8| {
        let wide = u32::from_le_bytes([byte; 4]);
        let mut tables = decode_tables(&[byte; FILE_SIZE]);
        let mut record = Record { tables, ..Record::BLANK };
        record.allocations = [byte; SEGMENTS as usize];
        let (speed, count, length) = (wide as u16, wide as u16, wide as u16);
        let train = RawTrain { route: byte, place: byte, position: wide, speed, asks: byte.max(1), count, length };
        record.trains = [train; TRAINS as usize];
        record.due = byte;
        assert!(!sound(&record));
        tables = decode_tables(&longer().file());
        record.tables = tables;
        assert!(!sound(&record));
        assert_eq!(call_on(&record, &Call::Position).0, 11);
    };
    (0..=255).for_each(wild);
}

/// Trains in places that no run reaches keep them: record to area and back.
#[test]
fn record_to_area_and_back() {
    let record = raw(&longer(), POSITION, &[(9, train(3, 2, 7990, 290)), (3, train(1, 1, 3, 300))], &[3, 0, 9, 9]);
    let area = Area::from_record(&record).unwrap();
    assert_eq!(area.record(), record);
    let (number, back) = call_on(&record, &Call::Position);
    assert_eq!((number, back.trains[8], back.trains[2]), (0, train(3, 3, 280, 290), train(1, 1, 303, 300)));
    assert_eq!(back.allocations[..4], [3, 0, 0, 9]);
}
