//! What is said of an area file is what the core finds: the first fault is its answer, there is none exactly if it accepts, every planted
//! fault is told and nothing else, and each message has its words.
mod made;
mod planters;

use made::Random;
use planters::{Bed, Told, PLANTERS};
use rbu::{braking_distance, FASTEST, FILE_SIZE, LONGEST, ROUTES, SEGMENTS};
use rbu_command::faults::{faults, warnings, Fault, Lines, Source};
use rbu_command::layout::*;
use rbu_command::tables::Tables;

const AREA_A: &[u8; FILE_SIZE] = include_bytes!("../../crates/area_a/stdin");

/// A text of Area A, with a heading of two lines, a blank line before the segments and one before the routes, and two routes more.
fn text() -> Source {
    Source::Text(Lines { area: 3, segments: vec![5, 6, 7], routes: vec![9, 10, 11, 12] })
}

/// The core's answer, which the first fault must have. Faults come by rule, then by place, one line each.
fn answer(file: &[u8], source: &Source) -> u8 {
    let answer = rbu::load(file).err().map(|refusal| (refusal.number, refusal.place));
    let told = faults(file, source);
    let place = |fault: &Fault| (fault.number, fault.place);
    assert_eq!(told.first().map(place), answer, "of {:?}\n{told:?}", Tables::of_file(&padded(file)));
    assert!(told.is_sorted_by_key(place), "{told:?}");
    assert!(told.iter().all(|fault| !fault.what.bytes().any(|byte| byte < b' ')), "{told:?}");
    answer.map_or(0, |(number, _)| number)
}

/// A file of any size, to be shown.
fn padded(file: &[u8]) -> [u8; FILE_SIZE] {
    std::array::from_fn(|byte| file.get(byte).copied().unwrap_or(0))
}

/// Puts the right check on the blocks that are not as they were.
fn check_changed(file: &mut [u8; FILE_SIZE], base: &[u8; FILE_SIZE]) {
    for (block, before) in file.chunks_exact_mut(BLOCK_SIZE).zip(base.chunks_exact(BLOCK_SIZE)) {
        if block != before {
            put_checks(block);
        }
    }
}

// ---- the areas that the tests start from

/// The generator makes every shape and reaches every edge that it promises, each some dozen times in a thousand areas.
#[test]
fn areas_are_made_at_every_edge() {
    let mut met = std::collections::BTreeMap::new();
    for tables in made::areas(1000) {
        let Tables { gmax, b, d, segments, routes } = &tables;
        let (way, top) = (braking_distance(*b, *gmax), u32::from(*gmax));
        let limit = |to: u8| segments[usize::from(to) - 1].limit;
        let edge = |s: &rbu_command::tables::Segment| s.next.into_iter().any(|to| to != 0 && s.limit == limit(to) + b);
        let reached = [
            ("one segment", segments.len() == 1),
            ("all segments", segments.len() == SEGMENTS),
            ("a second block of segments", segments.len() > 31),
            ("one route", routes.len() == 1),
            ("all routes", routes.len() == ROUTES),
            ("a second block of routes", routes.len() > 15),
            ("a route of 31", routes.iter().any(|route| route.len() == ROUTE_SEGMENTS)),
            ("a route of 1", routes.iter().any(|route| route.len() == 1)),
            ("gmax 1", *gmax == 1),
            ("gmax 2000", *gmax == FASTEST),
            ("b 1 at gmax 2000", *b == 1 && *gmax == FASTEST),
            ("b is gmax", b == gmax),
            ("d is S(gmax)", *d == way),
            ("d is the greatest", *d == LONGEST - 1 - top),
            ("d is neither", *d > way && *d < LONGEST - 1 - top),
            ("the shortest length", segments.iter().any(|s| s.length == d + top + 1 && s.length < LONGEST)),
            ("the greatest length", segments.iter().any(|s| s.length == LONGEST && s.length > d + top + 1)),
            ("a limit of 1", segments.iter().any(|s| s.limit == 1 && *gmax > 1)),
            ("a limit of gmax", segments.iter().any(|s| s.limit == *gmax && *gmax > 1)),
            ("a limit at the drop's edge", segments.iter().any(edge)),
            ("a branch, rising", segments.iter().any(|s| s.next[1] > s.next[0])),
            ("a branch, falling", segments.iter().any(|s| s.next[1] != 0 && s.next[1] < s.next[0])),
            ("a merge, rising", segments.iter().any(|s| s.previous[1] > s.previous[0])),
            ("a merge, falling", segments.iter().any(|s| s.previous[1] != 0 && s.previous[1] < s.previous[0])),
            ("no links", segments.iter().any(|s| s.next == [0, 0] && s.previous == [0, 0])),
            ("flags of all four", (0..4).all(|flags| segments.iter().any(|s| s.flags == flags))),
        ];
        for (name, holds) in reached {
            *met.entry(name).or_insert(0) += u32::from(holds);
        }
    }
    let rare: Vec<_> = met.iter().filter(|(_, times)| **times < 36).collect();
    assert!(rare.is_empty(), "{rare:?} of {met:?}");
}

// ---- the core's answer

/// Changes a byte, mostly where something stands.
fn change_byte(file: &mut [u8; FILE_SIZE], random: &mut Random) {
    let (n, r) = (usize::from(file[N_AT]).clamp(1, SEGMENTS), usize::from(file[R_AT]).clamp(1, ROUTES));
    let at = match random.below(12) {
        0 => random.below(FILE_SIZE),
        1 => random.below(HEADER_ZEROS.start),
        2 => segment_at(1 + random.below(SEGMENTS)) + random.below(SEGMENT_SIZE),
        3 => route_at(1 + random.below(ROUTES)) + random.below(ROUTE_SIZE),
        4 => {
            BLOCK_SIZE * random.below(5) + random.of(&[KIND_AT, NUMBER_AT, TAIL_ZEROS.start, TAIL_ZEROS.end - 1, ROUTE_BLOCK_ZEROS.end - 1])
        }
        5..=8 => segment_at(1 + random.below(n)) + random.below(SEGMENT_ZEROS.start),
        _ => route_at(1 + random.below(r)) + random.below(8),
    };
    file[at] = match random.below(4) {
        0 => random.below(256) as u8,
        1 => file[at].wrapping_add(1),
        2 => file[at].wrapping_sub(1),
        _ => random.below(70) as u8,
    };
}

/// Moves a number that takes several bytes by one: a bound or a drop is passed by that.
fn change_number(file: &mut [u8; FILE_SIZE], random: &mut Random) {
    let s = segment_at(1 + random.below(usize::from(file[N_AT]).clamp(1, SEGMENTS)));
    let (at, size) = random.of(&[(GMAX_AT, 2), (B_AT, 2), (D_AT, 4), (s + LENGTH_AT, 4), (s + LIMIT_AT, 2), (s + LIMIT_AT, 2)]);
    let mut number = [0; 4];
    number[..size].copy_from_slice(&file[at..][..size]);
    let by = random.of(&[1, u32::MAX]);
    file[at..][..size].copy_from_slice(&u32::from_le_bytes(number).wrapping_add(by).to_le_bytes()[..size]);
}

/// A link with its match, which alone breaks rule 8.
fn change_link(file: &mut [u8; FILE_SIZE], random: &mut Random) {
    let n = usize::from(file[N_AT]).clamp(1, SEGMENTS);
    let (s, t) = (1 + random.below(n), 1 + random.below(n));
    let place = |at: usize| usize::from(file[at] != 0);
    let (from, to) = (segment_at(s) + NEXT_AT, segment_at(t) + PREVIOUS_AT);
    let (from, to) = (from + place(from), to + place(to));
    (file[from], file[to]) = (t as u8, s as u8);
}

/// Exchanges two neighbouring bytes, often those of a pair of links or places of a route.
fn change_order(file: &mut [u8; FILE_SIZE], random: &mut Random) {
    let at = match random.below(3) {
        0 => random.below(FILE_SIZE - 1),
        1 => segment_at(1 + random.below(SEGMENTS)) + random.of(&[LIMIT_AT, NEXT_AT, PREVIOUS_AT]),
        _ => route_at(1 + random.below(ROUTES)) + random.below(4),
    };
    file.swap(at, at + 1);
}

/// One of the files or Area A's, changed a little or not at all. Checks are mostly right again, and so is the size.
fn changed(random: &mut Random, bases: &[[u8; FILE_SIZE]]) -> Vec<u8> {
    let base = if random.one_in(10) { AREA_A } else { &bases[random.below(bases.len())] };
    let mut file = *base;
    for _ in 0..random.below(4) {
        match random.below(8) {
            0..=3 => change_byte(&mut file, random),
            4 | 5 => change_number(&mut file, random),
            6 => change_link(&mut file, random),
            _ => change_order(&mut file, random),
        }
    }
    if !random.one_in(20) {
        check_changed(&mut file, base);
    }
    if random.one_in(40) {
        let at = BLOCK_SIZE * random.below(5) + CHECK_AT + random.below(2);
        file[at] = random.of(&[255, 0, file[at].wrapping_add(1)]);
    }
    let mut file = file.to_vec();
    if random.one_in(100) {
        // blocks in another order, with their checks
        file.rotate_left(BLOCK_SIZE * random.below(5));
    }
    if random.one_in(150) {
        let any = random.below(2 * FILE_SIZE);
        file.resize(random.of(&[0, FILE_SIZE - 1, FILE_SIZE + 1, any]), 0);
    }
    file
}

#[test]
fn the_first_fault_of_a_changed_file_is_the_cores_answer() {
    let bases: Vec<_> = made::areas(1000).iter().map(Tables::file).collect();
    let mut random = Random::new(1);
    let mut met = [0; 11];
    for _ in 0..500_000 {
        met[usize::from(answer(&changed(&mut random, &bases), &Source::File))] += 1;
    }
    println!("answers 0 to 10: {met:?}");
    assert!(met.iter().all(|&times| times >= 1000), "{met:?}");
}

/// Bytes at random; from one level to the next more of them are right, so that later rules come first.
fn any_bytes(random: &mut Random, size: usize, level: usize) -> Vec<u8> {
    let mut file: Vec<u8> = (0..size.div_ceil(8)).flat_map(|_| random.draw().to_le_bytes()).collect();
    file.truncate(size);
    if level >= 2 {
        for (number, block) in file.chunks_exact_mut(BLOCK_SIZE).enumerate().take(5) {
            (block[KIND_AT], block[NUMBER_AT]) = (KINDS[number], number as u8);
            block[TAIL_ZEROS].fill(0);
            block[if number < 3 { 0..0 } else { ROUTE_BLOCK_ZEROS }].fill(0);
        }
    }
    if level >= 3 && size > HEADER_ZEROS.end {
        (file[VERSION_AT], file[N_AT], file[R_AT]) = (VERSION, random.edgy(1, SEGMENTS as u32) as u8, random.edgy(1, ROUTES as u32) as u8);
        file[HEADER_ZEROS].fill(0);
    }
    if level >= 1 {
        put_checks(&mut file);
    }
    file
}

#[test]
fn any_bytes_are_explained() {
    let mut random = Random::new(2);
    let short = Lines { area: 1, segments: vec![2, 3], routes: vec![] };
    let sources = [Source::File, text(), Source::Text(short), Source::Text(Lines::default())];
    for size in 0..=FILE_SIZE + 1 {
        for level in [0, 3] {
            let met = answer(&any_bytes(&mut random, size, level), &sources[size % 4]);
            assert_eq!(met == 1, size != FILE_SIZE);
        }
    }
    let mut met = [0; 11];
    for round in 0..100_000 {
        let level = random.below(4);
        met[usize::from(answer(&any_bytes(&mut random, FILE_SIZE, level), &sources[round % 4]))] += 1;
    }
    println!("answers 0 to 10: {met:?}");
    assert!([2, 3, 4].iter().all(|&number: &usize| met[number] >= 10_000), "{met:?}");
}

// ---- planted faults

#[test]
fn planted_faults_are_told_and_nothing_else() {
    let (areas, mut random) = (made::areas(500), Random::new(3));
    let files: Vec<_> = areas.iter().map(Tables::file).collect();
    let (mut met, mut together) = (PLANTERS.map(|_| 0), [0; 6]);
    for _ in 0..80_000 {
        let base = random.below(areas.len());
        let mut kinds: Vec<usize> = (0..2 + random.below(4)).map(|_| random.below(PLANTERS.len())).collect();
        kinds.sort();
        let mut bed = Bed::new(&mut random, &areas[base], &files[base]);
        kinds.retain(|&kind| bed.plant(PLANTERS[kind].1));
        let (file, planted) = bed.done();
        let found = faults(&file, &Source::File);
        let places = |found: &[Fault]| found.iter().map(|fault| (fault.number, fault.place)).collect::<Told>();
        let names = || kinds.iter().map(|&kind| PLANTERS[kind].0).collect::<Vec<_>>();
        assert_eq!(places(&found), planted, "{:?} in area {base}: {found:#?}", names());
        assert_eq!(places(&faults(&file, &text())), planted);
        let apart = found.iter().enumerate().all(|(k, fault)| !found[..k].contains(fault));
        assert!(apart, "{:?}, a fault is told twice: {found:#?}", names());
        together[kinds.len()] += 1;
        if kinds.len() > 1 {
            kinds.iter().for_each(|&kind| met[kind] += 1);
        }
    }
    let met: Vec<_> = PLANTERS.iter().zip(met).map(|((name, _), times)| (times, *name)).collect();
    println!("planted together: {together:?}; with others: {met:?}");
    assert!(met.iter().all(|&(times, _)| times >= 500), "{met:?}");
    assert!(together[2..].iter().all(|&times| times >= 5000), "{together:?}");
}

/// After a wrong size nothing else is told, whatever else is wrong.
#[test]
fn a_wrong_size_is_told_alone() {
    for size in [0, 1, BLOCK_SIZE, FILE_SIZE - 1, FILE_SIZE + 1, 3 * FILE_SIZE] {
        assert_eq!(faults(&vec![0xff; size], &text()).len(), 1);
    }
}

// ---- the words

/// What is told, a line for each fault: `NUMBER PLACE: WHAT`.
fn told(file: &[u8], source: &Source) -> Vec<String> {
    faults(file, source).iter().map(|fault| format!("{} {}: {}", fault.number, fault.place, fault.what)).collect()
}

#[test]
fn places_are_told_by_bytes_or_lines() {
    assert_eq!([Source::File.at(516..518), Source::File.at(9..10)], ["bytes 516-517", "byte 9"]);
    let told = |source: &Source, bytes: &[usize]| bytes.iter().map(|&byte| source.at(byte..byte + 1)).collect::<Vec<_>>().join(", ");
    assert_eq!(told(&text(), &[0, 11, 12, 511]), "line 3, line 3, byte 12, byte 511");
    assert_eq!(told(&text(), &[512, 527, 528, 559, 560, 1535]), "line 5, line 5, line 6, line 7, byte 560, byte 1535");
    assert_eq!(told(&text(), &[1536, 1567, 1568, 1663, 1664, 2559]), "line 9, line 9, line 10, line 12, byte 1664, byte 2559");
    let whole = Source::Text(Lines { area: 1, segments: (101..163).collect(), routes: (201..231).collect() });
    assert_eq!(told(&whole, &[1007, 1008, 1024, 1519, 1520]), "line 131, byte 1008, line 132, line 162, byte 1520");
    assert_eq!(told(&whole, &[2015, 2016, 2048, 2527, 2528]), "line 215, byte 2016, line 216, line 230, byte 2528");
}

type Change = fn(&mut Vec<u8>);

/// Each kind of fault that only a file can have: what is changed in Area A's, and all that is told.
#[test]
fn words_for_a_file() {
    let cases: [(Change, &[&str]); 26] = [
        (|file| file.clear(), &["1 0: the file is empty; an area file has 2560 bytes"]),
        (|file| file.truncate(1), &["1 0: the file has 1 byte; an area file has 2560 bytes"]),
        (|file| file.truncate(2559), &["1 0: the file has 2559 bytes; an area file has 2560 bytes"]),
        (|file| file.push(0), &["1 0: the file has more than 2560 bytes; an area file has 2560 bytes"]),
        (|file| file.resize(5000, 7), &["1 0: the file has more than 2560 bytes; an area file has 2560 bytes"]),
        (|file| file[1008] = 3, &["3 1: block 1 (segments 1 to 31): its kind is 3 (byte 1008); it must be 2"]),
        (|file| file[2545] = 3, &["3 4: block 4 (routes 16 to 30): its number is 3 (byte 2545); it must be 4"]),
        (|file| file[498] = 9, &["3 0: block 0 (the header): byte 498 must be zero and is 9"]),
        (|file| file[1531..1534].fill(8), &["3 2: block 2 (segments 32 to 62): bytes 1531-1533 must be zero and are 8 8 8"]),
        (|file| file[2016..2018].fill(6), &["3 3: block 3 (routes 1 to 15): bytes 2016-2017 must be zero and are 6 6"]),
        (
            |file| file[2528..2558].fill(7),
            &[
                "3 4: block 4 (routes 16 to 30): bytes 2528-2543 must be zero and are 7 7 7 7 7 7 7 7 .. (16 bytes)",
                "3 4: block 4 (routes 16 to 30): its kind is 7 (byte 2544); it must be 3",
                "3 4: block 4 (routes 16 to 30): its number is 7 (byte 2545); it must be 4",
                "3 4: block 4 (routes 16 to 30): bytes 2546-2557 must be zero and are 7 7 7 7 7 7 7 7 .. (12 bytes)",
            ],
        ),
        (|file| file[0] = 2, &["4 0: the version is 2 (byte 0); it must be 1"]),
        (|file| file[1] = 63, &["4 0: the number of segments is 63 (byte 1); it must be 1 to 62"]),
        (|file| file[2] = 31, &["4 0: the number of routes is 31 (byte 2); it must be 1 to 30"]),
        (|file| file[3] = 7, &["4 0: byte 3 must be zero and is 7"]),
        (|file| file[12..15].copy_from_slice(&[1, 2, 3]), &["4 0: bytes 12-14 must be zero and are 1 2 3"]),
        (|file| file[488..496].fill(255), &["4 0: bytes 488-495 must be zero and are 255 255 255 255 255 255 255 255"]),
        (
            |file| (12..496).filter(|byte| byte % 100 > 0).for_each(|byte| file[byte] = byte as u8),
            &[
                "4 0: bytes 12-99 must be zero and are 12 13 14 15 16 17 18 19 .. (88 bytes)",
                "4 0: bytes 101-199 must be zero and are 101 102 103 104 105 106 107 108 .. (99 bytes)",
                "4 0: bytes 201-255 must be zero and are 201 202 203 204 205 206 207 208 .. (55 bytes)",
                "4 0: bytes 257-299 must be zero and are 1 2 3 4 5 6 7 8 .. (43 bytes)",
                "4 0: bytes 301-399 must be zero and are 45 46 47 48 49 50 51 52 .. (99 bytes)",
                "4 0: bytes 401-495 must be zero and are 145 146 147 148 149 150 151 152 .. (95 bytes)",
            ],
        ),
        (|file| file[523] = 1, &["6 1: segment 1: byte 523 must be zero and is 1"]),
        (
            |file| file[555..560].copy_from_slice(&[1, 2, 0, 3, 4]),
            &["6 3: segment 3: bytes 555-556 must be zero and are 1 2", "6 3: segment 3: bytes 558-559 must be zero and are 3 4"],
        ),
        (
            |file| file[560..562].copy_from_slice(&[5, 6]),
            &["6 4: segment 4: bytes 560-561 must be zero and are 5 6, since the number of segments is 3 (byte 1)"],
        ),
        (
            |file| (file[1504], file[1519]) = (1, 2),
            &[
                "6 62: segment 62: byte 1504 must be zero and is 1, since the number of segments is 3 (byte 1)",
                "6 62: segment 62: byte 1519 must be zero and is 2, since the number of segments is 3 (byte 1)",
            ],
        ),
        (|file| file[1536] = 32, &["10 1: route 1: the number of its segments is 32 (byte 1536); it must be 1 to 31"]),
        (
            |file| file[1539..1541].copy_from_slice(&[1, 2]),
            &["10 1: route 1: bytes 1539-1540 must be zero and are 1 2, since the number of its segments is 2 (byte 1536)"],
        ),
        (|file| file[1568] = 1, &["10 2: route 2: byte 1570 must be zero and is 3, since the number of its segments is 1 (byte 1568)"]),
        (
            |file| (file[2496], file[2500]) = (1, 1),
            &[
                "10 30: route 30: byte 2496 must be zero and is 1, since the number of routes is 2 (byte 2)",
                "10 30: route 30: byte 2500 must be zero and is 1, since the number of routes is 2 (byte 2)",
            ],
        ),
    ];
    for (change, expected) in cases {
        let mut file = AREA_A.to_vec();
        change(&mut file);
        put_checks(&mut file);
        assert_eq!(told(&file, &Source::File), expected);
    }
}

/// Rule 2, whose checks are not put right again. A sum of 0 stored as 255 is no sum.
#[test]
fn words_for_a_check() {
    let mut file = *AREA_A;
    file[1022] += 1;
    file[2558..].copy_from_slice(&[200, 100]);
    // a sum of all bytes that is 255 and so 0
    let sum: usize = file[..CHECK_AT].iter().map(|&byte| usize::from(byte)).sum();
    file[300] = (255 - sum % 255) as u8;
    put_checks(&mut file[..BLOCK_SIZE]);
    assert_eq!(file[CHECK_AT], 0);
    file[CHECK_AT] = 255;
    let expected = [
        "2 0: block 0 (the header): its check is 255 168 (bytes 510-511), and its bytes 0-509 sum to 0 168",
        "2 1: block 1 (segments 1 to 31): its check is 252 42 (bytes 1022-1023), and its bytes 512-1021 sum to 251 42",
        "2 4: block 4 (routes 16 to 30): its check is 200 100 (bytes 2558-2559), and its bytes 2048-2557 sum to 7 94",
        "4 0: byte 300 must be zero and is 133",
    ];
    assert_eq!(told(&file, &Source::File), expected);
}

/// A change of Area A and what is told of it, of a file and of a text, where they differ only in places.
struct Case {
    change: fn(&mut Tables),
    of_file: &'static [&'static str],
    of_text: &'static [&'static str],
}

fn hold(cases: &[Case]) {
    for Case { change, of_file, of_text } in cases {
        let mut tables = Tables::of_file(AREA_A);
        change(&mut tables);
        assert_eq!(told(&tables.file(), &Source::File), *of_file);
        assert_eq!(told(&tables.file(), &text()), *of_text);
    }
}

#[test]
fn words_for_the_header() {
    hold(&[
        Case {
            change: |tables| tables.segments.clear(),
            of_file: &["4 0: the number of segments is 0 (byte 1); it must be 1 to 62"],
            of_text: &["4 0: there is no segment line; there must be 1 to 62"],
        },
        Case {
            change: |tables| tables.routes.clear(),
            of_file: &["4 0: the number of routes is 0 (byte 2); it must be 1 to 30"],
            of_text: &["4 0: there is no route line; there must be 1 to 30"],
        },
        Case {
            change: |tables| tables.gmax = 0,
            of_file: &[
                "4 0: gmax, the top speed, is 0 (bytes 4-5); it must be 1 to 2000",
                "4 0: b, the speed lost by one cycle of braking, is 10 (bytes 6-7); it must be 1 to gmax, which is 0",
                "6 1: segment 1: its limit is 300 (bytes 516-517); it must be 1 to gmax, which is 0",
                "6 2: segment 2: its limit is 290 (bytes 532-533); it must be 1 to gmax, which is 0",
                "6 3: segment 3: its limit is 290 (bytes 548-549); it must be 1 to gmax, which is 0",
            ],
            of_text: &[
                "4 0: gmax, the top speed, is 0 (line 3); it must be 1 to 2000",
                "4 0: b, the speed lost by one cycle of braking, is 10 (line 3); it must be 1 to gmax, which is 0",
                "6 1: segment 1: its limit is 300 (line 5); it must be 1 to gmax, which is 0",
                "6 2: segment 2: its limit is 290 (line 6); it must be 1 to gmax, which is 0",
                "6 3: segment 3: its limit is 290 (line 7); it must be 1 to gmax, which is 0",
            ],
        },
        Case {
            change: |tables| {
                (tables.gmax, tables.b) = (2001, 2001);
                tables.segments.iter_mut().for_each(|segment| segment.length = 8000);
            },
            of_file: &["4 0: gmax, the top speed, is 2001 (bytes 4-5); it must be 1 to 2000"],
            of_text: &["4 0: gmax, the top speed, is 2001 (line 3); it must be 1 to 2000"],
        },
        // S cannot be told with no braking; a drop of limits can
        Case {
            change: |tables| (tables.b, tables.d) = (0, 1),
            of_file: &[
                "4 0: b, the speed lost by one cycle of braking, is 0 (bytes 6-7); it must be 1 to gmax, which is 300",
                "9 1: segment 1: its limit is 300 (bytes 516-517), and its next, segment 3, has 290 (bytes 548-549): \
                 10 less, and one cycle of braking takes b = 0",
            ],
            of_text: &[
                "4 0: b, the speed lost by one cycle of braking, is 0 (line 3); it must be 1 to gmax, which is 300",
                "9 1: segment 1: its limit is 300 (line 5), and its next, segment 3, has 290 (line 7): \
                 10 less, and one cycle of braking takes b = 0",
            ],
        },
        Case {
            change: |tables| tables.b = 301,
            of_file: &["4 0: b, the speed lost by one cycle of braking, is 301 (bytes 6-7); it must be 1 to gmax, which is 300"],
            of_text: &["4 0: b, the speed lost by one cycle of braking, is 301 (line 3); it must be 1 to gmax, which is 300"],
        },
        Case {
            change: |tables| tables.d = 0,
            of_file: &[
                "4 0: d, the end distance, is 0 (bytes 8-11); it must be 1 to 4000000",
                "5 0: d, the end distance, is 0 (bytes 8-11); it must be at least 4650: \
                 a train at gmax = 300, braking by b = 10 a cycle, runs S(300) = 4650 until it stands",
            ],
            of_text: &[
                "4 0: d, the end distance, is 0 (line 3); it must be 1 to 4000000",
                "5 0: d, the end distance, is 0 (line 3); it must be at least 4650: \
                 a train at gmax = 300, braking by b = 10 a cycle, runs S(300) = 4650 until it stands",
            ],
        },
        Case {
            change: |tables| tables.d = 4649,
            of_file: &["5 0: d, the end distance, is 4649 (bytes 8-11); it must be at least 4650: \
                        a train at gmax = 300, braking by b = 10 a cycle, runs S(300) = 4650 until it stands"],
            of_text: &["5 0: d, the end distance, is 4649 (line 3); it must be at least 4650: \
                        a train at gmax = 300, braking by b = 10 a cycle, runs S(300) = 4650 until it stands"],
        },
        // the greatest d is within its bounds, and leaves no length
        Case {
            change: |tables| {
                tables.d = 4000000;
                tables.segments.truncate(1);
                tables.segments[0].next = [0, 0];
                tables.routes = vec![vec![1]];
            },
            of_file: &["6 1: segment 1: its length is 6000 (bytes 512-515); \
                        it must be above d + gmax = 4000000 + 300 = 4000300, which none can be, since the most is 4000000"],
            of_text: &["6 1: segment 1: its length is 6000 (line 5); \
                        it must be above d + gmax = 4000000 + 300 = 4000300, which none can be, since the most is 4000000"],
        },
        Case {
            change: |tables| (tables.d, tables.segments[1].length, tables.segments[2].length) = (u32::MAX, 4000001, u32::MAX),
            of_file: &[
                "4 0: d, the end distance, is 4294967295 (bytes 8-11); it must be 1 to 4000000",
                "6 1: segment 1: its length is 6000 (bytes 512-515); \
                 it must be above d + gmax = 4294967295 + 300 = 4294967595, which none can be, since the most is 4000000",
                "6 2: segment 2: its length is 4000001 (bytes 528-531); \
                 it must be above d + gmax = 4294967295 + 300 = 4294967595, which none can be, since the most is 4000000",
                "6 2: segment 2: its length is 4000001 (bytes 528-531); it must be at most 4000000",
                "6 3: segment 3: its length is 4294967295 (bytes 544-547); \
                 it must be above d + gmax = 4294967295 + 300 = 4294967595, which none can be, since the most is 4000000",
                "6 3: segment 3: its length is 4294967295 (bytes 544-547); it must be at most 4000000",
            ],
            of_text: &[
                "4 0: d, the end distance, is 4294967295 (line 3); it must be 1 to 4000000",
                "6 1: segment 1: its length is 6000 (line 5); \
                 it must be above d + gmax = 4294967295 + 300 = 4294967595, which none can be, since the most is 4000000",
                "6 2: segment 2: its length is 4000001 (line 6); \
                 it must be above d + gmax = 4294967295 + 300 = 4294967595, which none can be, since the most is 4000000",
                "6 2: segment 2: its length is 4000001 (line 6); it must be at most 4000000",
                "6 3: segment 3: its length is 4294967295 (line 7); \
                 it must be above d + gmax = 4294967295 + 300 = 4294967595, which none can be, since the most is 4000000",
                "6 3: segment 3: its length is 4294967295 (line 7); it must be at most 4000000",
            ],
        },
    ]);
}

#[test]
fn words_for_a_segment() {
    hold(&[
        Case {
            change: |tables| tables.segments[0].length = 4950,
            of_file: &["6 1: segment 1: its length is 4950 (bytes 512-515); it must be above d + gmax = 4650 + 300 = 4950"],
            of_text: &["6 1: segment 1: its length is 4950 (line 5); it must be above d + gmax = 4650 + 300 = 4950"],
        },
        Case { change: |tables| tables.segments[0].length = 4951, of_file: &[], of_text: &[] },
        Case {
            change: |tables| tables.segments[1].length = 4000001,
            of_file: &["6 2: segment 2: its length is 4000001 (bytes 528-531); it must be at most 4000000"],
            of_text: &["6 2: segment 2: its length is 4000001 (line 6); it must be at most 4000000"],
        },
        // the greatest length and the least d that it is too short for
        Case {
            change: |tables| {
                tables.d = 3999700;
                tables.segments.iter_mut().for_each(|segment| segment.length = 4000000);
                tables.segments.truncate(1);
                tables.segments[0].next = [0, 0];
                tables.routes = vec![vec![1]];
            },
            of_file: &["6 1: segment 1: its length is 4000000 (bytes 512-515); \
                        it must be above d + gmax = 3999700 + 300 = 4000000, which none can be, since the most is 4000000"],
            of_text: &["6 1: segment 1: its length is 4000000 (line 5); \
                        it must be above d + gmax = 3999700 + 300 = 4000000, which none can be, since the most is 4000000"],
        },
        Case {
            change: |tables| tables.segments[0].limit = 0,
            of_file: &["6 1: segment 1: its limit is 0 (bytes 516-517); it must be 1 to gmax, which is 300"],
            of_text: &["6 1: segment 1: its limit is 0 (line 5); it must be 1 to gmax, which is 300"],
        },
        Case {
            change: |tables| tables.segments[2].limit = 301,
            of_file: &["6 3: segment 3: its limit is 301 (bytes 548-549); it must be 1 to gmax, which is 300"],
            of_text: &["6 3: segment 3: its limit is 301 (line 7); it must be 1 to gmax, which is 300"],
        },
        // a limit out of its bounds is still one that others drop to, or from
        Case {
            change: |tables| (tables.segments[0].limit, tables.segments[2].limit) = (65535, 0),
            of_file: &[
                "6 1: segment 1: its limit is 65535 (bytes 516-517); it must be 1 to gmax, which is 300",
                "6 3: segment 3: its limit is 0 (bytes 548-549); it must be 1 to gmax, which is 300",
                "9 1: segment 1: its limit is 65535 (bytes 516-517), and its next, segment 3, has 0 (bytes 548-549): \
                 65535 less, and one cycle of braking takes b = 10",
                "9 2: segment 2: its limit is 290 (bytes 532-533), and its next, segment 3, has 0 (bytes 548-549): \
                 290 less, and one cycle of braking takes b = 10",
            ],
            of_text: &[
                "6 1: segment 1: its limit is 65535 (line 5); it must be 1 to gmax, which is 300",
                "6 3: segment 3: its limit is 0 (line 7); it must be 1 to gmax, which is 300",
                "9 1: segment 1: its limit is 65535 (line 5), and its next, segment 3, has 0 (line 7): \
                 65535 less, and one cycle of braking takes b = 10",
                "9 2: segment 2: its limit is 290 (line 6), and its next, segment 3, has 0 (line 7): \
                 290 less, and one cycle of braking takes b = 10",
            ],
        },
        // limits and b of which no sum with 16 bits is right
        Case {
            change: |tables| {
                tables.b = 65535;
                tables.segments.iter_mut().for_each(|segment| segment.limit = 65535);
            },
            of_file: &[
                "4 0: b, the speed lost by one cycle of braking, is 65535 (bytes 6-7); it must be 1 to gmax, which is 300",
                "6 1: segment 1: its limit is 65535 (bytes 516-517); it must be 1 to gmax, which is 300",
                "6 2: segment 2: its limit is 65535 (bytes 532-533); it must be 1 to gmax, which is 300",
                "6 3: segment 3: its limit is 65535 (bytes 548-549); it must be 1 to gmax, which is 300",
            ],
            of_text: &[
                "4 0: b, the speed lost by one cycle of braking, is 65535 (line 3); it must be 1 to gmax, which is 300",
                "6 1: segment 1: its limit is 65535 (line 5); it must be 1 to gmax, which is 300",
                "6 2: segment 2: its limit is 65535 (line 6); it must be 1 to gmax, which is 300",
                "6 3: segment 3: its limit is 65535 (line 7); it must be 1 to gmax, which is 300",
            ],
        },
        // a link to no segment, and nothing of the link that matched it and of route 1
        Case {
            change: |tables| tables.segments[0].next = [200, 0],
            of_file: &["6 1: segment 1: its first next link is 200 (byte 518); it must be at most 3, the number of segments"],
            of_text: &["6 1: segment 1: its first next link is 200 (line 5); it must be at most 3, the number of segments"],
        },
        Case {
            change: |tables| tables.segments[2].previous = [1, 4],
            of_file: &["6 3: segment 3: its second previous link is 4 (byte 553); it must be at most 3, the number of segments"],
            of_text: &["6 3: segment 3: its second previous link is 4 (line 7); it must be at most 3, the number of segments"],
        },
        // two segments lead to this one, and one link of it leads to no segment: it cannot be meant for both
        Case {
            change: |tables| tables.segments[2].previous = [4, 0],
            of_file: &[
                "6 3: segment 3: its first previous link is 4 (byte 552); it must be at most 3, the number of segments",
                "7 1: segment 1: it has a next link to segment 3 (byte 518), \
                 and segment 3 has the previous link 4 (bytes 552-553), none to 1",
                "7 2: segment 2: it has a next link to segment 3 (byte 534), \
                 and segment 3 has the previous link 4 (bytes 552-553), none to 2",
            ],
            of_text: &[
                "6 3: segment 3: its first previous link is 4 (line 7); it must be at most 3, the number of segments",
                "7 1: segment 1: it has a next link to segment 3 (line 5), and segment 3 has the previous link 4 (line 7), none to 1",
                "7 2: segment 2: it has a next link to segment 3 (line 6), and segment 3 has the previous link 4 (line 7), none to 2",
            ],
        },
        // routes go on from segment 1 to two others, and its link leads to no segment
        Case {
            change: |tables| (tables.segments[0].next, tables.routes[1]) = ([200, 0], vec![1, 2]),
            of_file: &[
                "6 1: segment 1: its first next link is 200 (byte 518); it must be at most 3, the number of segments",
                "7 3: segment 3: it has a previous link to segment 1 (byte 552), \
                 and segment 1 has the next link 200 (bytes 518-519), none to 3",
                "10 1: route 1: at place 2 it goes on from segment 1 to segment 3 (byte 1538), \
                 and segment 1 has the next link 200 (bytes 518-519), none to 3",
                "10 2: route 2: at place 2 it goes on from segment 1 to segment 2 (byte 1570), \
                 and segment 1 has the next link 200 (bytes 518-519), none to 2",
            ],
            of_text: &[
                "6 1: segment 1: its first next link is 200 (line 5); it must be at most 3, the number of segments",
                "7 3: segment 3: it has a previous link to segment 1 (line 7), and segment 1 has the next link 200 (line 5), none to 3",
                "10 1: route 1: at place 2 it goes on from segment 1 to segment 3 (line 9), \
                 and segment 1 has the next link 200 (line 5), none to 3",
                "10 2: route 2: at place 2 it goes on from segment 1 to segment 2 (line 10), \
                 and segment 1 has the next link 200 (line 5), none to 2",
            ],
        },
        Case {
            change: |tables| (tables.segments[0].previous, tables.segments[2].next) = ([0, 4], [5, 5]),
            of_file: &[
                "6 1: segment 1: its second previous link is 4 (byte 521); it must be at most 3, the number of segments",
                "6 1: segment 1: its previous links are 0 and 4 (bytes 520-521); a single link must be the first",
                "6 3: segment 3: its first next link is 5 (byte 550); it must be at most 3, the number of segments",
                "6 3: segment 3: its next links are 5 and 5 (bytes 550-551); the second must be another one, or 0",
            ],
            of_text: &[
                "6 1: segment 1: its second previous link is 4 (line 5); it must be at most 3, the number of segments",
                "6 1: segment 1: its previous links are 0 and 4 (line 5); a single link must be the first",
                "6 3: segment 3: its first next link is 5 (line 7); it must be at most 3, the number of segments",
                "6 3: segment 3: its next links are 5 and 5 (line 7); the second must be another one, or 0",
            ],
        },
        Case {
            change: |tables| tables.segments[0].next = [0, 3],
            of_file: &["6 1: segment 1: its next links are 0 and 3 (bytes 518-519); a single link must be the first"],
            of_text: &["6 1: segment 1: its next links are 0 and 3 (line 5); a single link must be the first"],
        },
        Case {
            change: |tables| tables.segments[0].next = [3, 3],
            of_file: &["6 1: segment 1: its next links are 3 and 3 (bytes 518-519); the second must be another one, or 0"],
            of_text: &["6 1: segment 1: its next links are 3 and 3 (line 5); the second must be another one, or 0"],
        },
        Case {
            change: |tables| tables.segments[2].flags = 4,
            of_file: &["6 3: segment 3: its flags are 4 (byte 554); they must be 0 to 3 (1 entry, 2 exit, 3 both)"],
            of_text: &["6 3: segment 3: its flags are 4 (line 7); they must be 0 to 3 (1 entry, 2 exit, 3 both)"],
        },
    ]);
}

#[test]
fn words_for_links() {
    hold(&[
        Case {
            change: |tables| tables.segments[2].previous = [2, 0],
            of_file: &["7 1: segment 1: it has a next link to segment 3 (byte 518), \
                        and segment 3 has the previous link 2 (bytes 552-553), none to 1"],
            of_text: &[
                "7 1: segment 1: it has a next link to segment 3 (line 5), and segment 3 has the previous link 2 (line 7), none to 1",
            ],
        },
        Case {
            change: |tables| tables.segments[2].previous = [2, 2],
            of_file: &[
                "6 3: segment 3: its previous links are 2 and 2 (bytes 552-553); the second must be another one, or 0",
                "7 1: segment 1: it has a next link to segment 3 (byte 518), \
                 and segment 3 has the previous links 2 and 2 (bytes 552-553), none to 1",
            ],
            of_text: &[
                "6 3: segment 3: its previous links are 2 and 2 (line 7); the second must be another one, or 0",
                "7 1: segment 1: it has a next link to segment 3 (line 5), \
                 and segment 3 has the previous links 2 and 2 (line 7), none to 1",
            ],
        },
        Case {
            change: |tables| tables.segments[2].previous = [0, 0],
            of_file: &[
                "7 1: segment 1: it has a next link to segment 3 (byte 518), and segment 3 has no previous link (bytes 552-553)",
                "7 2: segment 2: it has a next link to segment 3 (byte 534), and segment 3 has no previous link (bytes 552-553)",
            ],
            of_text: &[
                "7 1: segment 1: it has a next link to segment 3 (line 5), and segment 3 has no previous link (line 7)",
                "7 2: segment 2: it has a next link to segment 3 (line 6), and segment 3 has no previous link (line 7)",
            ],
        },
        Case {
            change: |tables| tables.segments[1].next = [0, 0],
            of_file: &[
                "7 3: segment 3: it has a previous link to segment 2 (byte 553), and segment 2 has no next link (bytes 534-535)",
                "10 2: route 2: at place 2 it goes on from segment 2 to segment 3 (byte 1570), \
                 and segment 2 has no next link (bytes 534-535)",
            ],
            of_text: &[
                "7 3: segment 3: it has a previous link to segment 2 (line 7), and segment 2 has no next link (line 6)",
                "10 2: route 2: at place 2 it goes on from segment 2 to segment 3 (line 10), and segment 2 has no next link (line 6)",
            ],
        },
        Case {
            change: |tables| (tables.segments[2].next, tables.segments[0].previous) = ([1, 0], [3, 0]),
            of_file: &["8 3: segment 3: it has a next link to segment 1 (byte 550); a next link must lead to a higher number"],
            of_text: &["8 3: segment 3: it has a next link to segment 1 (line 7); a next link must lead to a higher number"],
        },
        // a segment that leads to itself, with its match and without
        Case {
            change: |tables| (tables.segments[2].next, tables.segments[0].previous) = ([3, 0], [1, 0]),
            of_file: &[
                "7 1: segment 1: it has a previous link to segment 1 (byte 520), \
                 and segment 1 has the next link 3 (bytes 518-519), none to 1",
                "7 3: segment 3: it has a next link to segment 3 (byte 550), \
                 and segment 3 has the previous links 1 and 2 (bytes 552-553), none to 3",
                "8 3: segment 3: it has a next link to segment 3 (byte 550); a next link must lead to a higher number",
            ],
            of_text: &[
                "7 1: segment 1: it has a previous link to segment 1 (line 5), and segment 1 has the next link 3 (line 5), none to 1",
                "7 3: segment 3: it has a next link to segment 3 (line 7), \
                 and segment 3 has the previous links 1 and 2 (line 7), none to 3",
                "8 3: segment 3: it has a next link to segment 3 (line 7); a next link must lead to a higher number",
            ],
        },
        // limit_289
        Case {
            change: |tables| tables.segments[2].limit = 289,
            of_file: &["9 1: segment 1: its limit is 300 (bytes 516-517), and its next, segment 3, has 289 (bytes 548-549): \
                        11 less, and one cycle of braking takes b = 10"],
            of_text: &["9 1: segment 1: its limit is 300 (line 5), and its next, segment 3, has 289 (line 7): \
                        11 less, and one cycle of braking takes b = 10"],
        },
        Case {
            change: |tables| tables.segments[2].limit = 1,
            of_file: &[
                "9 1: segment 1: its limit is 300 (bytes 516-517), and its next, segment 3, has 1 (bytes 548-549): \
                 299 less, and one cycle of braking takes b = 10",
                "9 2: segment 2: its limit is 290 (bytes 532-533), and its next, segment 3, has 1 (bytes 548-549): \
                 289 less, and one cycle of braking takes b = 10",
            ],
            of_text: &[
                "9 1: segment 1: its limit is 300 (line 5), and its next, segment 3, has 1 (line 7): \
                 299 less, and one cycle of braking takes b = 10",
                "9 2: segment 2: its limit is 290 (line 6), and its next, segment 3, has 1 (line 7): \
                 289 less, and one cycle of braking takes b = 10",
            ],
        },
    ]);
}

#[test]
fn words_for_a_route() {
    hold(&[
        Case {
            change: |tables| tables.routes[1].clear(),
            of_file: &["10 2: route 2: the number of its segments is 0 (byte 1568); it must be 1 to 31"],
            of_text: &["10 2: route 2: the number of its segments is 0 (line 10); it must be 1 to 31"],
        },
        // of a place that lists no segment, nothing is said of the steps
        Case {
            change: |tables| tables.routes = vec![vec![0, 3], vec![2, 4, 1]],
            of_file: &[
                "10 1: route 1: at place 1 it lists 0 (byte 1537); it must be a segment, 1 to 3",
                "10 2: route 2: at place 2 it lists 4 (byte 1570); it must be a segment, 1 to 3",
            ],
            of_text: &[
                "10 1: route 1: at place 1 it lists 0 (line 9); it must be a segment, 1 to 3",
                "10 2: route 2: at place 2 it lists 4 (line 10); it must be a segment, 1 to 3",
            ],
        },
        Case {
            change: |tables| tables.routes = vec![vec![1, 2], vec![2, 3, 3]],
            of_file: &[
                "10 1: route 1: at place 2 it goes on from segment 1 to segment 2 (byte 1538), \
                 and segment 1 has the next link 3 (bytes 518-519), none to 2",
                "10 2: route 2: at place 3 it goes on from segment 3 to segment 3 (byte 1571), \
                 and segment 3 has no next link (bytes 550-551)",
            ],
            of_text: &[
                "10 1: route 1: at place 2 it goes on from segment 1 to segment 2 (line 9), \
                 and segment 1 has the next link 3 (line 5), none to 2",
                "10 2: route 2: at place 3 it goes on from segment 3 to segment 3 (line 10), and segment 3 has no next link (line 7)",
            ],
        },
        Case {
            change: |tables| {
                (tables.segments[0].next, tables.segments[1].previous) = ([3, 2], [1, 0]);
                tables.routes[0] = vec![1, 1];
            },
            of_file: &["10 1: route 1: at place 2 it goes on from segment 1 to segment 1 (byte 1538), \
                        and segment 1 has the next links 3 and 2 (bytes 518-519), none to 1"],
            of_text: &["10 1: route 1: at place 2 it goes on from segment 1 to segment 1 (line 9), \
                        and segment 1 has the next links 3 and 2 (line 5), none to 1"],
        },
    ]);
}

// ---- warnings

#[test]
fn words_for_warnings() {
    let told = |change: fn(&mut Tables)| {
        let mut tables = Tables::of_file(AREA_A);
        change(&mut tables);
        assert_eq!(rbu::load(&tables.file()), Ok(()));
        [warnings(&tables, &Source::File), warnings(&tables, &text())]
    };
    let none: [Vec<String>; 2] = [vec![], vec![]];
    assert_eq!(told(|_| ()), none);
    assert_eq!(
        told(|tables| tables.segments[1].flags = 0),
        [
            ["route 2 (bytes 1568-1599) starts at segment 2, which is no entry: no train can enter on it"],
            ["route 2 (line 10) starts at segment 2, which is no entry: no train can enter on it"],
        ]
    );
    assert_eq!(
        told(|tables| tables.segments.iter_mut().for_each(|segment| segment.flags = EXIT)),
        [
            [
                "no segment is an entry: no train can enter",
                "route 1 (bytes 1536-1567) starts at segment 1, which is no entry: no train can enter on it",
                "route 2 (bytes 1568-1599) starts at segment 2, which is no entry: no train can enter on it",
            ],
            [
                "no segment is an entry: no train can enter",
                "route 1 (line 9) starts at segment 1, which is no entry: no train can enter on it",
                "route 2 (line 10) starts at segment 2, which is no entry: no train can enter on it",
            ],
        ]
    );
    assert_eq!(
        told(|tables| tables.routes[0].truncate(1)),
        [
            ["route 1 (bytes 1536-1567) ends at segment 1, which is no exit: no train can leave from it"],
            ["route 1 (line 9) ends at segment 1, which is no exit: no train can leave from it"],
        ]
    );
    assert_eq!(
        told(|tables| tables.routes.truncate(1)),
        [
            ["segment 2 (bytes 528-543) is on no route: no train can run on it"],
            ["segment 2 (line 6) is on no route: no train can run on it"],
        ]
    );
    assert_eq!(
        told(|tables| {
            tables.segments[2].flags = ENTRY | EXIT;
            tables.routes = vec![vec![3]];
        }),
        [["segments 1, 2 are on no route: no train can run on them"]; 2]
    );
    assert_eq!(
        told(|tables| tables.routes = vec![vec![1, 3], vec![2, 3], vec![1, 3], vec![1, 3]]),
        [
            [
                "route 1 (bytes 1536-1567) and route 3 (bytes 1600-1631) list the same segments",
                "route 1 (bytes 1536-1567) and route 4 (bytes 1632-1663) list the same segments",
            ],
            [
                "route 1 (line 9) and route 3 (line 11) list the same segments",
                "route 1 (line 9) and route 4 (line 12) list the same segments",
            ],
        ]
    );
}

/// Each warning is there exactly if what it says holds.
#[test]
fn warnings_of_areas() {
    let mut met = [0; 5];
    for tables in made::areas(1000) {
        let told = warnings(&tables, &Source::File);
        let count = |words: &str| told.iter().filter(|line| line.contains(words)).count();
        let segment = |number: &u8| &tables.segments[usize::from(*number) - 1];
        let routes = |holds: &dyn Fn(&Vec<u8>) -> bool| tables.routes.iter().filter(|route| holds(route)).count();
        let listed: std::collections::BTreeSet<u8> = tables.routes.iter().flatten().copied().collect();
        let different: std::collections::BTreeSet<&Vec<u8>> = tables.routes.iter().collect();
        let expected = [
            ("no segment is an entry", usize::from(tables.segments.iter().all(|segment| segment.flags & ENTRY == 0))),
            ("starts at", routes(&|route| !segment(&route[0]).is_entry())),
            ("ends at", routes(&|route| !segment(&route[route.len() - 1]).is_exit())),
            ("on no route", usize::from(listed.len() < tables.segments.len())),
            ("list the same", tables.routes.len() - different.len()),
        ];
        for (times, (words, expected)) in met.iter_mut().zip(expected) {
            assert_eq!(count(words), expected, "{words}: {told:?}");
            *times += expected;
        }
        assert_eq!(told.len(), expected.iter().map(|(_, times)| times).sum::<usize>(), "{told:?}");
    }
    assert!(met.iter().all(|&times| times >= 50), "{met:?}");
}
