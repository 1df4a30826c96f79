//! Request R-4 of document 02: trains have a length. By hand on Area A, on the line after its merge and on a line of five segments, and what
//! the comparison makes of it.

use reference::edges::sound_record;
use reference::lengths::{entry, line, step, with_a_wrong_length, Step, BESIDE, BY_HAND};
use reference::random::{area, length, meeting, short_segments, wrong_length, Random};
use reference::*;

fn enter(train: u16, route: u16, speed: u16, length: u16) -> Call<'static> {
    Call::Enter { train, route, speed, length }
}

/// The segments that are allocated to a train.
fn held(record: &Record, number: u8) -> Vec<u8> {
    (1..=SEGMENTS).filter(|&segment| record.allocated(segment) == number).collect()
}

/// More cycles than any run here takes: a run that does not come to its end fails.
const CYCLES: usize = 300;

// ---- enter

/// "Enter takes a length of 1 to 20,000 decimetres, kept with the train"; "position 0 of the first segment, which becomes allocated".
#[test]
fn right_lengths() {
    let empty = load(&area_a().file()).unwrap();
    for length in [1, 2, 255, 256, 6000, 19_999, 20_000] {
        let mut area = empty;
        assert_eq!(area.call(&enter(5, 1, 250, length)), 0);
        let record = area.record();
        assert_eq!(*record.train(5), RawTrain { route: 1, place: 1, speed: 250, length, ..RawTrain::OFF });
        assert_eq!((held(&record, 5), area.report()), (vec![1], (0, 1, 2)));
        assert_eq!(Area::from_record(&record), Some(area));
    }
}

/// "23, length outside the bounds": a number of 16 bits, tested whole.
#[test]
fn wrong_lengths() {
    let empty = load(&area_a().file()).unwrap();
    for length in [0, 20_001, 20_002, 32_767, 32_768, 40_000, 65_535] {
        let mut area = empty;
        assert_eq!((area.call(&enter(5, 1, 250, length)), area), (23, empty), "{length}");
    }
}

/// Area A with segment 2 without the entry flag, and train 1 on segment 1.
fn with_train_1() -> Area {
    let mut description = area_a();
    description.segments[1].flags = 0;
    let mut area = load(&description.file()).unwrap();
    assert_eq!(area.call(&enter(1, 1, 300, 1)), 0);
    area
}

/// "23 .., after 16": 11, 13, 14 and 16 come before it, 17, 18 and 19 after it.
#[test]
fn the_order_of_23() {
    let on = with_train_1();
    let empty = Area::from_record(&Record::loaded(*on.tables())).unwrap();
    for (area, train, route, speed, alone, with_23) in [
        (on, 25, 1, 0, 13, 13),
        (on, 1, 1, 0, 14, 14),
        (on, 2, 3, 0, 16, 16),
        (on, 2, 2, 0, 17, 23),
        (on, 2, 1, 0, 18, 23),
        (empty, 2, 1, 301, 19, 23),
        (empty, 2, 1, 300, 0, 23),
        // several at once
        (on, 0, 0, 301, 13, 13),
        (on, 1, 0, 301, 14, 14),
        (on, 2, 0, 301, 16, 16),
        (on, 2, 2, 301, 17, 23),
        (on, 2, 1, 301, 18, 23),
    ] {
        assert_eq!(call_on(&area.record(), &enter(train, route, speed, 20_000)).0, alone);
        for wrong in [0, 20_001, 65_535] {
            let mut after = area;
            assert_eq!((after.call(&enter(train, route, speed, wrong)), after), (with_23, area), "{alone} and {wrong}");
        }
    }
    let unsound = Record { due: 4, ..on.record() };
    assert_eq!(call_on(&unsound, &enter(2, 1, 0, 0)), (11, unsound));
}

// ---- under

/// "A segment is under the train from the front's arrival until the rear is at or past its end": the line's segments end at 5000, 11,000,
/// 16,000, 23,000 and 31,000.
#[test]
fn what_is_under() {
    let tables = decode_tables(&line().file());
    for (way, length, under) in [
        (0, 1, &[1][..]),
        (0, 20_000, &[1]),
        (4999, 1, &[1]),
        // a train of length 1 at a segment's start has the one behind under it
        (5000, 1, &[1, 2]),
        (5001, 1, &[2]),
        (5001, 2, &[1, 2]),
        (5001, 20_000, &[1, 2]),
        (10_999, 5999, &[2]),
        (10_999, 6000, &[1, 2]),
        (11_000, 6000, &[2, 3]),
        (11_000, 6001, &[1, 2, 3]),
        (23_000, 18_000, &[2, 3, 4, 5]),
        (23_000, 18_001, &[1, 2, 3, 4, 5]),
        (25_000, 20_000, &[2, 3, 4, 5]),
        (24_999, 20_000, &[1, 2, 3, 4, 5]),
        (30_999, 20_000, &[2, 3, 4, 5]),
        (30_999, 7999, &[5]),
        (30_999, 8000, &[4, 5]),
    ] {
        assert_eq!(tables.under(1, way, length), under, "way {way}, length {length}");
    }
}

/// The same for every way and many lengths, by the sentence: front and rear against start and end.
#[test]
fn under_at_every_way() {
    let tables = decode_tables(&line().file());
    let segments = [(1, 0, 5000), (2, 5000, 11_000), (3, 11_000, 16_000), (4, 16_000, 23_000), (5, 23_000, 31_000)];
    for way in 0..31_000 {
        for length in [1, 2, 4999, 5000, 5001, 6000, 11_000, 13_000, 18_000, 19_999, 20_000] {
            let rear = way - i64::from(length);
            let under: Vec<u8> =
                segments.iter().filter(|&&(_, start, end)| way >= start && rear < end).map(|&(number, ..)| number).collect();
            assert_eq!(tables.under(1, way as u64, length), under);
        }
    }
}

/// Way and what is under it, by a record's place and position.
#[test]
fn way_and_under_of_a_record() {
    let tables = decode_tables(&line().file());
    let train = RawTrain { route: 1, place: 3, position: 17, length: 6018, ..RawTrain::OFF };
    assert_eq!((train.way(&tables), train.under(&tables)), (11_017, &[1, 2, 3][..]));
    assert_eq!(RawTrain { length: 6017, ..train }.under(&tables), [2, 3]);
    assert_eq!(RawTrain { place: 1, ..train }.way(&tables), 17);
}

// ---- position and leave

/// Records by hand: the call does with each what stands beside it.
#[test]
fn records_by_hand() {
    for one in BY_HAND {
        for number in [1, 7, TRAINS] {
            let (before, call, answer, after) = one.records(number);
            assert_eq!(sound(&before), answer == 0, "{}", one.name);
            assert_eq!(call_on(&before, &call), (answer, after), "{}", one.name);
        }
    }
    assert!((1..BY_HAND.len()).all(|k| BY_HAND[..k].iter().all(|one| one.name != BY_HAND[k].name)), "no name stands twice");
}

/// A train runs along the line: after each cycle it has what is under it and what was granted next, and each segment is freed in the cycle
/// in which the rear comes to its end.
#[test]
fn along_the_line() {
    const ENDS: [i64; 5] = [5000, 11_000, 16_000, 23_000, 31_000];
    for length in [1, 290, 5000, 6000, 11_000, 18_000, 19_999, 20_000] {
        let mut area = load(&line().file()).unwrap();
        assert_eq!(area.call(&enter(9, 1, 290, length)), 0);
        let (mut freed, mut cycles) = (0, 0);
        while area.record().train(9).speed > 0 {
            assert!(cycles < CYCLES);
            let before = held(&area.record(), 9);
            AREA_A_CYCLE[..3].iter().for_each(|call| assert_eq!(area.call(call), 0));
            let granted = held(&area.record(), 9);
            assert!(granted.starts_with(&before) && granted.len() <= before.len() + 1);
            assert_eq!(area.call(&AREA_A_CYCLE[3]), 0);
            let (record, held) = (area.record(), held(&area.record(), 9));
            let rear = record.train(9).way(&record.tables) as i64 - i64::from(length);
            freed = ENDS.iter().filter(|&&end| rear >= end).count();
            assert_eq!(usize::from(held[0]), freed + 1, "rear at {rear}");
            // one at the most
            assert!(granted.len() - held.len() <= 1);
            cycles += 1;
        }
        assert!(cycles > 100);
        // it stands on segment 5 and has not left it: a long one has segments behind it still
        let under = held(&area.record(), 9);
        assert_eq!((under.len(), under.last()), (5 - freed, Some(&5)));
        assert_eq!(area.call(&Call::Leave { train: 9 }), 0);
        assert_eq!(area.record(), Record::loaded(*area.tables()));
    }
}

/// A train at least as long as its route frees nothing: it has all of it until it leaves.
#[test]
fn longer_than_its_route() {
    for length in [11_000, 11_001, 20_000] {
        let mut area = load(&line().file()).unwrap();
        assert_eq!(area.call(&enter(3, 2, 290, length)), 0);
        let mut most = 1;
        for _ in 0..CYCLES {
            AREA_A_CYCLE.iter().for_each(|call| assert_eq!(area.call(call), 0));
            assert!(held(&area.record(), 3).len() >= most);
            most = held(&area.record(), 3).len();
        }
        assert_eq!((held(&area.record(), 3), area.record().train(3).speed), (vec![1, 2], 0));
        // another cannot enter before it has left
        assert_eq!(area.call(&enter(4, 1, 0, 1)), 18);
        assert_eq!((area.call(&Call::Leave { train: 3 }), area.call(&enter(4, 1, 0, 1))), (0, 0));
    }
}

/// Leave frees all that is under a train with any step due, and has no refusal for a long one.
#[test]
fn leaves_with_several_segments() {
    let tables = decode_tables(&line().file());
    for due in [SPEED, REQUEST, GRANT, POSITION] {
        let mut record = Record { due, ..Record::loaded(tables) };
        record.trains[11] = RawTrain { route: 1, place: 5, position: 100, length: 20_000, ..RawTrain::OFF };
        record.allocations[..5].fill(12);
        assert!(sound(&record));
        assert_eq!(call_on(&record, &Call::Leave { train: 12 }), (0, Record { due, ..Record::loaded(tables) }));
    }
}

/// Own segment, next, near and limit are from the front: a train over three segments asks, is granted and moves on as one of length 1.
#[test]
fn the_front_decides() {
    let mut areas = [1, 20_000].map(|length| {
        let mut area = load(&line().file()).unwrap();
        assert_eq!(area.call(&enter(1, 1, 290, length)), 0);
        area
    });
    for _ in 0..120 {
        for call in &AREA_A_CYCLE {
            assert_eq!(areas.each_mut().map(|area| area.call(call)), [0, 0]);
            let [short, long] = areas.each_ref().map(|area| *area.record().train(1));
            assert_eq!(RawTrain { length: 1, ..long }, short);
        }
    }
    assert_eq!(areas[0].record().train(1).place, 5);
}

/// An ore set of 6000 runs over Area A's merge, onto the segment after it. Train 2 on the other branch asks for segment 3 in vain until the
/// rear is past its end, and gets it at the next grant step; a train that is to enter behind the ore set waits for segment 1.
#[test]
fn an_ore_set_over_the_merge() {
    let mut area = load(&ore_line().file()).unwrap();
    assert_eq!((area.call(&enter(1, 1, 300, 6000)), area.call(&enter(2, 2, 0, 1))), (0, 0));
    // train 2 comes near when segment 3 is train 1's
    let mut wishes = [300; WISHES];
    wishes[1] = 100;
    let rear = |area: &Area| area.record().train(1).way(area.tables()) as i64 - 6000;
    let (mut in_vain, mut front_past_3, mut cycles) = (0, 0, 0);
    while area.record().allocated(3) != 2 {
        cycles += 1;
        assert!(cycles < CYCLES);
        cycle(&wishes)[..3].iter().for_each(|call| assert_eq!(area.call(call), 0));
        assert_eq!(area.record().allocated(3) == 2, rear(&area) >= 14_000);
        assert_eq!(area.call(&Call::Position), 0);
        assert_eq!(area.record().allocated(1) == 1, rear(&area) < 6000);
        assert_eq!(call_on(&area.record(), &enter(3, 1, 0, 6000)).0, if rear(&area) < 6000 { 18 } else { 0 });
        in_vain = in_vain.max(area.record().train(2).count);
        front_past_3 += usize::from(area.record().train(1).place == 3);
    }
    // the front was past segment 3 for the 6000 that the train is long, at 290 a cycle
    assert!(in_vain > 40 && front_past_3 > 20, "{in_vain} in vain, {front_past_3} cycles");
    assert_eq!(area.record().train(2).count, 0);
}

// ---- the sound record

/// Other trains' segments: what is under one is no other's, and each is sound beside the other.
#[test]
fn trains_one_behind_the_other() {
    let tables = decode_tables(&line().file());
    let record = |first_length: u16, allocations: [u8; 5]| {
        let mut record = Record::loaded(tables);
        // train 1's front is at 16,000 and train 2's on segment 2
        record.trains[0] = RawTrain { route: 1, place: 4, length: first_length, ..RawTrain::OFF };
        record.trains[1] = RawTrain { route: 1, place: 2, position: 10, length: 11, ..RawTrain::OFF };
        record.allocations[..5].copy_from_slice(&allocations);
        sound(&record)
    };
    assert!(record(5000, [2, 2, 1, 1, 0]));
    assert!(record(5000, [2, 2, 1, 1, 1]));
    // the rear at the end of segment 2, and one before it
    assert!(!record(5001, [2, 2, 1, 1, 0]));
    assert!(!record(5001, [2, 1, 1, 1, 0]));
    // not all of it, or more
    assert!(!record(5000, [0, 2, 1, 1, 0]));
    assert!(!record(5000, [1, 2, 1, 1, 0]));
    assert!(!record(5000, [2, 2, 0, 1, 0]));
    assert!(!record(5000, [2, 2, 2, 1, 0]));
    assert!(!record(5000, [2, 2, 1, 1, 2]));
}

// ---- the inputs of the comparison

#[test]
fn lengths_drawn() {
    let mut random = Random::new(26);
    let segments = [700, 900, 800];
    let drawn: Vec<u16> = (0..20_000).map(|_| length(&mut random, &segments)).collect();
    assert!(drawn.iter().all(|length| (1..=20_000).contains(length)));
    for wanted in [1, 699, 700, 701, 799, 800, 801, 899, 900, 901, 2399, 2400, 2401, 20_000] {
        assert!(drawn.iter().filter(|&&length| length == wanted).count() > 50, "{wanted}");
    }
    // segments longer than trains
    assert!((0..1000).all(|_| (1..=20_000).contains(&length(&mut random, &[4_000_000; 31]))));
    let wrong: Vec<u16> = (0..2000).map(|_| wrong_length(&mut random)).collect();
    assert!(wrong.iter().all(|length| !(1..=20_000).contains(length)));
    assert!([0, 20_001, 65_535].iter().all(|wanted| wrong.contains(wanted)));
}

/// The position step does what is known from how the record was made, and front and rear come to ends, before them and past them.
#[test]
fn steps_to_an_end() {
    let mut random = Random::new(27);
    let (mut fronts, mut rears, mut freed) = ([0; 3], [0; 3], [0; 2]);
    for k in 0..400 {
        let description = if k % 4 == 0 { area(&mut random, true) } else { short_segments(&mut random) };
        let tables = *load(&description.file()).unwrap().tables();
        for _ in 0..20 {
            let Some(Step { before, after, number }) = step(&mut random, &tables) else { continue };
            assert!(sound(&before), "{before:?}");
            assert_eq!(call_on(&before, &Call::Position), (0, after), "{before:?}");
            let train = after.train(number);
            let front = train.way(&tables) as i64;
            for end in tables.stretches(train.route).map(|segment| segment.end as i64) {
                for (k, beyond) in [-1, 0, 1].into_iter().enumerate() {
                    fronts[k] += usize::from(front == end + beyond);
                    rears[k] += usize::from(front - i64::from(train.length) == end + beyond);
                }
            }
            freed[held(&before, number).len() - held(&after, number).len()] += 1;
        }
    }
    assert!(fronts.iter().chain(&rears).chain(&freed).all(|&count| count > 200), "{fronts:?} {rears:?} {freed:?}");
}

/// Each entry is turned away by its refusal alone, and with a wrong length by 23 or by one before it.
#[test]
fn entries_beside_23() {
    let mut random = Random::new(28);
    let mut hits = [0; BESIDE.len()];
    for k in 0..1000u32 {
        let tables = *load(&area(&mut random, k % 3 == 0).file()).unwrap().tables();
        let record = sound_record(&mut random, &tables, (k % 4) as u8);
        for (beside, hit) in BESIDE.into_iter().zip(&mut hits) {
            let Some((train, route, speed)) = entry(&mut random, &record, beside) else { continue };
            assert_eq!(call_on(&record, &enter(train, route, speed, 20_000)).0, beside);
            assert_eq!(call_on(&record, &enter(train, route, speed, wrong_length(&mut random))).0, with_a_wrong_length(beside));
            *hit += 1;
        }
    }
    assert!(hits.iter().all(|&count| count > 100), "{hits:?}");
}

/// Lists on areas with short segments: demand 3 holds after each call; no train frees more than one segment in a step, and those at least as
/// long as their route free none before they leave all of it.
#[test]
fn lists_with_long_trains() {
    let mut random = Random::new(29);
    let (mut most, mut freed, mut whole) = (0, 0, 0);
    for _ in 0..60 {
        let description = short_segments(&mut random);
        let mut area = load(&description.file()).unwrap();
        let mut demand = Demand3::new(area.tables());
        let is_long = |train: &RawTrain, tables: &Tables| u64::from(train.length) >= tables.stretches(train.route).last().unwrap().end;
        for _ in 0..600 {
            let before = area.record();
            let call = meeting(&mut random, &description, &before, 1);
            let answer = area.call(&call.call());
            let after = area.record();
            assert_eq!(demand.tell(&call.call(), answer, &after), Ok(()));
            assert!(sound(&after));
            for (number, train) in (1..).zip(&before.trains).filter(|(_, train)| train.is_on()) {
                let was = held(&before, number);
                match call.call() {
                    Call::Position if answer == 0 => {
                        let lost = was.len() - held(&after, number).len();
                        assert!(lost <= 1 && (lost == 0 || !is_long(train, area.tables())));
                        freed += lost;
                    }
                    Call::Leave { train: left } if answer == 0 && left == number.into() => {
                        assert!(held(&after, number).is_empty());
                        if is_long(train, area.tables()) {
                            assert_eq!(was.len(), usize::from(area.tables().route(train.route).count));
                            whole += 1;
                        }
                    }
                    _ => {}
                }
                most = most.max(was.len());
            }
        }
    }
    assert!(most >= 8 && freed > 500 && whole > 200, "{most} at the most, {freed} freed, {whole} left as a whole");
}
