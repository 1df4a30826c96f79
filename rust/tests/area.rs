//! The wrapper on Area A's file: what it hands to the core and what it makes of the answers.

use rbu::*;

const AREA_A: &[u8; FILE_SIZE] = include_bytes!("../../crates/area_a/stdin");
const LISTING: &str = include_str!("../../crates/area_a/stdout");

fn refusal<T>(number: u8, place: u16) -> Result<T, Refusal> {
    Err(Refusal { number, place })
}

/// A call that is refused leaves the area as it was.
fn refused(area: &mut Area, number: u8, call: impl Fn(&mut Area) -> Result<(), Refusal>) {
    let before = area.clone();
    assert_eq!(call(area), refusal(number, 0));
    assert_eq!(*area, before);
}

type Step = fn(&mut Area) -> Result<(), Refusal>;

/// The four steps of a cycle, with all wishes 300.
fn cycle(area: &mut Area) {
    let steps: [Step; 4] = [|area| area.speed(&[300; TRAINS]), Area::request, Area::grant, Area::position];
    for (due, step) in (0..).zip(steps) {
        assert_eq!(area.due(), due);
        assert_eq!(step(area), Ok(()));
    }
}

/// Area A with the two trains of the listing after some cycles.
fn area_a(cycles: usize) -> Area {
    let mut area = Area::start(AREA_A).unwrap();
    assert_eq!((area.enter(1, 1, 250, 1), area.enter(2, 2, 200, 1)), (Ok(()), Ok(())));
    (0..cycles).for_each(|_| cycle(&mut area));
    area
}

#[test]
fn document_01s_listing() {
    let mut area = area_a(0);
    let mut lines = vec!["cycle train segment position speed".to_string()];
    for number in 1..=6 {
        cycle(&mut area);
        let line = |(t, train): (u8, &Train)| format!("{number} {t} {} {} {}", area.segment_of(t), train.position, train.speed);
        lines.extend(area.trains_on().map(line));
    }
    assert_eq!(lines, LISTING.lines().collect::<Vec<_>>());
}

/// Area A's track at the greatest speed and lengths: its file, made by a write, and a train on it; one past a bound is unsound.
#[test]
fn a_fast_line() {
    let mut record = *Area::start(AREA_A).unwrap().record();
    record.tables = Tables { gmax: FASTEST, braking: 1, margin: braking_distance(1, FASTEST), ..record.tables };
    record.tables.lengths[..3].fill(LONGEST);
    record.tables.limits[..3].fill(FASTEST);
    let mut file = [0; FILE_SIZE];
    assert_eq!(Area::of_record(record).write(&mut file), Ok(()));
    let mut area = Area::start(&file).unwrap();
    assert_eq!(*area.record(), record);
    assert_eq!((area.enter(1, 1, FASTEST + 1, 1), area.enter(1, 1, FASTEST, 1)), (refusal(19, 0), Ok(())));
    for cycle in 1..=3 {
        assert_eq!(area.speed(&[u16::MAX; TRAINS]).and(area.request()).and(area.grant()).and(area.position()), Ok(()));
        assert_eq!(area.record().trains[0].position, cycle * u32::from(FASTEST));
    }
    let past: [fn(&mut Tables); 3] = [|tables| tables.gmax += 1, |tables| tables.margin = LONGEST + 1, |tables| tables.lengths[2] += 1];
    for change in past {
        let mut record = record;
        change(&mut record.tables);
        assert_eq!((Area::of_record(record).is_sound(), Area::of_record(record).write(&mut file)), (false, refusal(11, 0)));
    }
}

#[test]
fn the_file_again() {
    for cycles in 0..=6 {
        let area = area_a(cycles);
        let mut buffer = [0xa5; FILE_SIZE];
        assert_eq!((area.write(&mut buffer), &buffer), (Ok(()), AREA_A));
        for size in [0, 1, FILE_SIZE - 1, FILE_SIZE + 1] {
            let mut buffer = vec![0xa5; size];
            assert_eq!((area.write(&mut buffer), &buffer), (refusal(22, 0), &vec![0xa5; size]));
        }
    }
    let mut buffer = [0xa5; FILE_SIZE];
    assert_eq!((Area::of_record(Record::BLANK).write(&mut buffer), buffer), (refusal(11, 0), [0xa5; FILE_SIZE]));
}

#[test]
fn what_a_record_holds() {
    let area = area_a(6);
    let tables = area.tables();
    assert_eq!((tables.segments, tables.routes, tables.gmax, tables.braking, tables.margin), (3, 2, 300, 10, 4650));
    assert_eq!((tables.lengths[..4].to_vec(), tables.limits[..4].to_vec()), (vec![6000, 5500, 8000, 0], vec![300, 290, 290, 0]));
    assert_eq!((tables.next[..6].to_vec(), tables.previous[..6].to_vec()), (vec![3, 0, 3, 0, 0, 0], vec![0, 0, 0, 0, 1, 2]));
    assert_eq!(tables.flags[..4], [1, 1, 2, 0]);
    assert_eq!([0, 1, 2, 3, 31, 255].map(|route| tables.route(route).to_vec()), [vec![], vec![1, 3], vec![2, 3], vec![], vec![], vec![]]);
    assert_eq!([1, 2, 3, 62].map(|segment| area.allocated_to(segment)), [1, 2, 2, 0]);
    assert_eq!(*area.train(1), Train { route: 1, place: 1, count: 1, position: 1790, speed: 290, length: 1, asks: 0 });
    assert_eq!((*area.train(3), area.segment_of(3)), (Train::OFF, 0));
    assert_eq!(area.report(), Ok(Report { allocated: 3, free: 0 }));
    assert!(area.is_sound());
    // between request and grant the trains that ask are marked
    let mut area = area_a(5);
    assert_eq!((area.speed(&[300; TRAINS]), area.request()), (Ok(()), Ok(())));
    assert_eq!([area.train(1).asks, area.train(2).asks, area.due()], [1, 0, 2]);
}

/// Two trains ask for segment 3 in the same cycle: the higher number gets it, and the other counts until it has its turn.
#[test]
fn turns_at_a_merge() {
    let mut area = Area::start(AREA_A).unwrap();
    let counts = |area: &Area| [1, 2].map(|train| area.train(train).count);
    assert_eq!(area.enter(1, 1, 300, 1), Ok(()));
    (0..2).for_each(|_| cycle(&mut area));
    assert_eq!(area.enter(2, 2, 290, 1), Ok(()));
    (0..3).for_each(|_| cycle(&mut area));
    assert_eq!((area.allocated_to(3), counts(&area)), (0, [0, 0]));
    cycle(&mut area);
    assert_eq!((area.allocated_to(3), counts(&area)), (2, [1, 0]));
    (0..15).for_each(|_| cycle(&mut area));
    assert_eq!((area.segment_of(2), counts(&area), area.leave(2)), (3, [16, 0], Ok(())));
    cycle(&mut area);
    assert_eq!((area.allocated_to(3), counts(&area)), (1, [0, 0]));
}

/// A train of 600 m: the segment that its front has left is free once its rear is at its end, and not before.
#[test]
fn a_long_train() {
    let mut area = Area::start(AREA_A).unwrap();
    assert_eq!(area.enter(1, 1, 300, 6000), Ok(()));
    let mut freed = None;
    for number in 1..=50 {
        cycle(&mut area);
        let front = area.train(1);
        let under_1 = area.segment_of(1) == 1 || front.position < 6000;
        assert_eq!((area.allocated_to(1), front.length), (u8::from(under_1), 6000));
        assert!(area.is_sound());
        if !under_1 && freed.is_none() {
            freed = Some((number, front.position));
        }
    }
    assert_eq!(freed, Some((44, 6150)));
    assert_eq!((area.leave(1), area.report()), (Ok(()), Ok(Report { allocated: 0, free: 1 })));
    // lengths that a train on may have and may not have; a segment under it that is free
    let mut record = *area_a(6).record();
    for (length, sound) in [(0, false), (1, true), (LONGEST_TRAIN, true), (LONGEST_TRAIN + 1, false)] {
        record.trains[0].length = length;
        assert_eq!(Area::of_record(record).is_sound(), sound);
    }
    record.trains[0].length = 1;
    record.allocations[0] = 0;
    assert!(!Area::of_record(record).is_sound());
}

#[test]
fn refused_calls() {
    let mut area = area_a(1);
    for train in [0, 25, 257, 65_535] {
        refused(&mut area, 13, |area| area.enter(train, 1, 0, 1));
        refused(&mut area, 13, |area| area.leave(train));
    }
    refused(&mut area, 14, |area| area.enter(1, 1, 0, 0));
    refused(&mut area, 16, |area| area.enter(3, 258, 0, 0));
    for length in [0, LONGEST_TRAIN + 1, u16::MAX] {
        refused(&mut area, 23, |area| area.enter(3, 1, 0, length));
    }
    refused(&mut area, 18, |area| area.enter(3, 1, 0, LONGEST_TRAIN));
    refused(&mut area, 15, |area| area.leave(24));
    refused(&mut area, 20, |area| area.leave(2));
    refused(&mut area, 12, Area::request);
    refused(&mut area, 12, Area::grant);
    refused(&mut area, 12, Area::position);
    for count in [0, 23, 25, 256 + 24] {
        refused(&mut area, 21, |area| area.speed(&vec![300; count]));
    }
    let mut empty = Area::start(AREA_A).unwrap();
    refused(&mut empty, 19, |area| area.enter(1, 1, 301, 1));
    assert_eq!(empty.report(), Ok(Report { allocated: 0, free: 1 }));
}

#[test]
fn refused_files() {
    let mut damaged = *AREA_A;
    damaged[600] ^= 1;
    for (file, number, place, says) in [(&damaged[..], 2, 1, "2 1 damaged"), (&[], 1, 0, "1 0 size"), (&AREA_A[1..], 1, 0, "1 0 size")] {
        assert_eq!((Area::start(file), load(file)), (refusal(number, place), refusal(number, place)));
        assert_eq!(load(file).unwrap_err().to_string(), says);
        // an area that was running is blank after it, whatever it held
        let mut area = area_a(3);
        area.overwrite(0, &[0xa5; RECORD_SIZE]);
        assert_eq!(area.restart(file), refusal(number, place));
        assert_eq!(*area.record(), Record::BLANK);
        refused(&mut area, 11, |area| area.enter(1, 1, 0, 0));
        assert_eq!((area.is_sound(), area.report(), area.report_numbers()), (false, refusal(11, 0), (11, 0, 0)));
        assert_eq!((area.restart(AREA_A), &area), (Ok(()), &Area::start(AREA_A).unwrap()));
    }
    assert_eq!(load(AREA_A), Ok(()));
}

#[test]
fn words() {
    let word = |number| Refusal { number, place: 0 }.word();
    assert_eq!(
        (word(0), word(11), word(16), word(21), word(22), word(23), word(24)),
        ("done", "unsound", "route number", "wishes", "buffer", "length", "no such answer")
    );
    let wrong: Box<dyn std::error::Error> = Box::new(Refusal { number: 6, place: 62 });
    assert_eq!(wrong.to_string(), "6 62 segment");
}

/// The same calls as a script from the file.
#[test]
fn runs_over_bytes() {
    let call = |start: &[u16]| std::array::from_fn::<u16, CALL_ITEMS, _>(|item| start.get(item).copied().unwrap_or(300));
    let mut script = [call(&[1, 1, 1, 250, 1]), call(&[1, 2, 2, 200, 1])].concat();
    for _ in 0..6 {
        script.extend([call(&[3, 0, 0, 0, 0, 0, 24]), call(&[4]), call(&[5]), call(&[6])].concat());
    }
    let (mut answers, mut state) = ([99; 30], [99; STATE_SIZE]);
    assert_eq!(run_file(AREA_A, &script, &mut answers, &mut state), Ok(26));
    assert_eq!((&answers[..26], &answers[26..]), (&[0; 26][..], &[99; 4][..]));
    let area = area_a(6);
    assert_eq!((state[0], &state[1..63]), (area.due(), &area.record().allocations[..]));
    for (train, told) in area.record().trains.iter().zip(state[64..].chunks(32)) {
        assert_eq!(told[..3], [train.route, train.place, train.asks]);
        assert_eq!((&told[4..8], &told[8..10]), (&train.position.to_le_bytes()[..], &train.speed.to_le_bytes()[..]));
        assert_eq!((&told[10..12], &told[12..14]), (&train.count.to_le_bytes()[..], &train.length.to_le_bytes()[..]));
    }
    assert!(bytes::sound(AREA_A, &state));
    assert_eq!(bytes::report_record(AREA_A, &state), (0, 3, 0));
    // a second speed step is not due; a refused file writes nothing
    let two = [call(&[3, 0, 0, 0, 0, 0, 24]), call(&[3, 0, 0, 0, 0, 0, 24])].concat();
    assert_eq!((bytes::run_record(AREA_A, &two, &mut answers, &mut state), &answers[..3], state[0]), (2, &[0, 12, 0][..], 1));
    let before = (answers, state);
    assert_eq!(run_file(&[], &script, &mut answers, &mut state), refusal(1, 0));
    assert_eq!((answers, state), before);
}

#[test]
fn views_and_braking() {
    assert_eq!([0, 1, 2, 3, 257].map(|route| view(AREA_A, route).to_vec()), [vec![], vec![1, 3], vec![2, 3], vec![], vec![]]);
    assert_eq!((view(AREA_A, 2).as_ptr(), bytes::view(AREA_A, 2)), (AREA_A[1569..].as_ptr(), (1569, 2)));
    assert_eq!((view(&[], 1), bytes::view(&[], 1)), (&[][..], (0, 0)));
    assert_eq!(
        [(10, 300), (10, 0), (1000, 1000), (1, FASTEST), (0, 7)].map(|(rate, speed)| braking_distance(rate, speed)),
        [4650, 0, 1000, 2_001_000, 0]
    );
}

/// A record that was damaged: unsound, or another one that is sound.
#[test]
fn any_record() {
    let area = area_a(6);
    let mut damaged = *area.record();
    damaged.trains[1].position = 5500;
    let mut damaged = Area::of_record(damaged);
    assert!(!damaged.is_sound());
    refused(&mut damaged, 11, |area| area.speed(&[300; TRAINS]));
    assert_eq!(damaged.report_numbers(), (11, 0, 0));
    assert_eq!(Area::of_record(*area.record()), area);
    // byte 2,104 is the step due, the bytes behind it hold nothing
    let mut other = area_a(3);
    other.overwrite(RECORD_SIZE - 4, &[3, 7, 8, 9]);
    assert_eq!((other.due(), other.is_sound(), other.position()), (3, true, Ok(())));
    assert_eq!((other.train(1).position, area_a(3).train(1).position), (1200, 900));
}

#[test]
#[should_panic(expected = "a record has 2108 bytes")]
fn overwriting_goes_no_further_than_the_record() {
    area_a(0).overwrite(RECORD_SIZE - 1, &[0, 0]);
}
