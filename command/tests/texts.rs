//! Areas as text: what is written comes back as the same file, and what cannot be read is named by its line.
mod made;

use made::Random;
use rbu_command::layout::*;
use rbu_command::show::spelt;
use rbu_command::tables::Tables;
use rbu_command::text::{read, written};

const AREA_A: &[u8; 2560] = include_bytes!("../../crates/area_a/stdin");

fn tables(text: &str) -> Tables {
    read(text.as_bytes()).unwrap().0
}

fn wrong(text: &str) -> String {
    read(text.as_bytes()).unwrap_err()
}

/// What `make` makes of a text: what the core writes once it has loaded what the text spells.
fn made_of(text: &str) -> [u8; 2560] {
    let mut file = [0; 2560];
    rbu::Area::start(&tables(text).file()).unwrap().write(&mut file).unwrap();
    file
}

/// An accepted file, shown and made, comes out the same byte for byte; links stand in both orders.
fn accepted_areas_come_back(metres: bool) {
    let (mut to, mut from, mut tenths) = (0, 0, 0);
    for seed in 0..100_000 {
        let area = made::area(seed);
        let file = area.file();
        assert_eq!(spelt(&file).as_ref(), Ok(&area));
        let text = written(&area, metres);
        assert_eq!(made_of(&text), file, "seed {seed}\n{text}");
        tenths += usize::from(text.contains('.'));
        let falling = |links: &[u8; 2]| links[1] != 0 && links[0] > links[1];
        to += usize::from(area.segments.iter().any(|segment| falling(&segment.next)));
        from += usize::from(area.segments.iter().any(|segment| falling(&segment.previous)));
    }
    assert!(to > 20_000 && from > 20_000 && (tenths > 20_000) == metres, "{to} {from} {tenths}");
}

#[test]
fn accepted_areas_come_back_in_decimetres() {
    accepted_areas_come_back(false);
}

#[test]
fn accepted_areas_come_back_in_metres() {
    accepted_areas_come_back(true);
}

/// A file with changed bytes is spelt by a text and comes back the same, or its first byte that no text spells is named: up to there the
/// text's file has the same bytes.
#[test]
fn refused_areas_come_back_or_are_named() {
    let mut random = Random::new(29);
    let (mut back, mut named) = (0, 0);
    for seed in 0..20_000 {
        let mut file = made::area(seed).file();
        for _ in 0..=random.below(3) {
            let at = match random.below(3) {
                0 => random.below(2560),
                1 => random.below(12),
                _ => segment_at(1 + random.below(usize::from(file[N_AT]).clamp(1, 62))) + random.below(16),
            };
            file[at] = random.below(256) as u8;
        }
        if !random.one_in(20) {
            put_checks(&mut file);
        }
        match spelt(&file) {
            Ok(area) => {
                assert_eq!(tables(&written(&area, random.one_in(2))).file(), file);
                back += usize::from(rbu::load(&file).is_err());
            }
            Err(wrong) => {
                let text = written(&Tables::of_file(&file), false);
                let spelt = tables(&text).file();
                let first = (0..2560).find(|&at| spelt[at] != file[at]).unwrap();
                assert_eq!(wrong, format!("byte {first} is {}, where a text has {}", file[first], spelt[first]));
                named += 1;
            }
        }
    }
    assert!(back > 4_000 && named > 4_000, "{back} {named}");
}

#[test]
fn files_that_no_text_spells() {
    let says = |file: &[u8]| spelt(file).unwrap_err();
    assert_eq!(says(&[]), "it ends before byte 0, and an area file has 2560 bytes");
    assert_eq!(says(&AREA_A[..2559]), "it ends before byte 2559, and an area file has 2560 bytes");
    assert_eq!(says(&[&AREA_A[..], &[0]].concat()), "it goes on with byte 2560, and an area file has 2560 bytes");
    let changed = |at: usize, byte: u8| {
        let mut file = *AREA_A;
        file[at] = byte;
        put_checks(&mut file);
        says(&file)
    };
    assert_eq!(changed(VERSION_AT, 2), "byte 0 is 2, where a text has 1");
    assert_eq!(changed(N_AT, 63), "byte 1 is 63, where a text has 62");
    assert_eq!(changed(route_at(1), 32), "byte 1536 is 32, where a text has 31");
    assert_eq!(changed(route_at(1) + 5, 1), "byte 1541 is 1, where a text has 0");
    assert_eq!(changed(segment_at(2) + 15, 7), "byte 543 is 7, where a text has 0");
}

/// Area A in columns, and in metres.
#[test]
fn area_a_in_columns() {
    let area = Tables::of_file(AREA_A);
    let text = "area  gmax 300  b 10  d 4650

segment 1  length 6000  limit 300  entry  to 3
segment 2  length 5500  limit 290  entry  to 3
segment 3  length 8000  limit 290  exit

route 1  1 3
route 2  2 3
";
    assert_eq!(written(&area, false), text);
    let metres = text.replace("4650", "465 m").replace("6000", "600 m").replace("5500", "550 m").replace("8000", "800 m");
    assert_eq!(written(&area, true), metres);
}

/// Words in any order, lines in any order, comments, lengths in both units, ends of lines of three kinds.
#[test]
fn the_same_area_otherwise_written() {
    let area = Tables::of_file(AREA_A);
    for end in ["\n", "\r\n", "\r"] {
        let text = "\u{feff}route 2 2 3 # the second
            segment 3 exit limit 290 length 800m
            # nothing

            route 1 1 3
            segment 1 to 3 entry length 600.0 m limit 300#
            area d 465 m b 10 gmax 300
            segment 2 from none limit 290 to 3 0 length 5500 entry";
        assert_eq!(tables(&text.replace('\n', end)), area, "{end:?}");
    }
    let (_, lines) = read(b"\narea gmax 1 b 1 d 1\nroute 1 1\n\nsegment 2 length 1 limit 1\nsegment 1 length 1 limit 1").unwrap();
    assert_eq!((lines.area, lines.segments, lines.routes), (2, vec![6, 5], vec![3]));
}

/// What load refuses can be written: the core judges it.
#[test]
fn what_the_core_refuses() {
    for (more, answer) in [
        ("segment 1 length 6000 limit 300 to 0 3\nsegment 2 length 6000 limit 300\nsegment 3 length 6000 limit 300\nroute 1 1", (6, 1)),
        ("segment 1 length 6000 limit 300 flags 7\nroute 1 1", (6, 1)),
        ("segment 1 length 6000 limit 300 to 2 2 from none\nsegment 2 length 6000 limit 300\nroute 1 1", (6, 1)),
        ("segment 1 length 6000 limit 300 to 255\nroute 1 1", (6, 1)),
        ("segment 1 length 6000 limit 300\nroute 1", (10, 1)),
        ("segment 1 length 6000 limit 300\nroute 1 0 255", (10, 1)),
        ("segment 1 length 4294967295 limit 65535\nroute 1 1", (6, 1)),
        ("segment 1 length 6000 limit 300 from 1\nroute 1 1", (7, 1)),
        ("segment 1 length 6000 limit 300 to 1\nroute 1 1", (8, 1)),
        ("segment 1 length 6000 limit 300", (4, 0)),
        ("route 1", (4, 0)),
        ("", (4, 0)),
    ] {
        let text = format!("area gmax 300 b 10 d 4650\n{more}");
        let file = tables(&text).file();
        let refusal = rbu::load(&file).unwrap_err();
        assert_eq!((refusal.number, refusal.place), answer, "{more}");
        assert_eq!(tables(&written(&spelt(&file).unwrap(), true)).file(), file, "{more}");
    }
}

#[test]
fn lengths() {
    let length = |text: &str| read(format!("area gmax 1 b 1 d {text}").as_bytes()).map(|(tables, _)| tables.d);
    for (text, right) in [
        ("0", 0),
        ("6005", 6005),
        ("600.5 m", 6005),
        ("600.5m", 6005),
        ("600 m", 6000),
        ("600m", 6000),
        ("0.1 m", 1),
        ("4294967295", u32::MAX),
        ("429496729 m", u32::MAX - 5),
        ("429496729.5 m", u32::MAX),
        ("429496728.9 m", u32::MAX - 6),
    ] {
        assert_eq!(length(text), Ok(right), "{text}");
    }
    for (text, word) in [
        ("4294967296", "4294967296"),
        ("429496730 m", "429496730"),
        ("429496729.6m", "429496729.6m"),
        ("99999999999999999999", "99999999999999999999"),
    ] {
        assert_eq!(length(text).unwrap_err(), format!("line 1: 'd': '{word}' is more than 4294967295 dm"));
    }
    for text in ["600.55 m", "600. m", ".5 m", "6e3", "-1", "+1", "600.5", "600 km", "m", "0x10"] {
        let said = length(text).unwrap_err();
        let is_length = said.ends_with("is no length; it is decimetres, as 6000, or metres, as 600 m or 600.5 m");
        assert!(is_length || said == "line 1: 'km' is none of gmax, b and d", "{text}: {said}");
    }
}

/// A line that cannot be read is named, with what is wrong.
#[test]
fn lines_that_cannot_be_read() {
    let area = "area gmax 300 b 10 d 4650\n";
    let segment = |number: usize| format!("segment {number} length 6000 limit 300\n");
    for (text, says) in [
        (String::new(), "there is no line 'area gmax G b B d D'"),
        ("# nothing".into(), "there is no line 'area gmax G b B d D'"),
        ("aera gmax 300".into(), "line 1: 'aera' is none of area, segment and route"),
        ("\n\u{1b}[1m".into(), "line 2: '\\u{1b}[1m' is none of area, segment and route"),
        ("area gmax 300 b 10".into(), "line 1: 'd' is missing: area gmax G b B d D"),
        ("area gmax 300 b 10 d 1 d 2".into(), "line 1: 'd' stands twice"),
        ("area gmax 65536 b 10 d 1".into(), "line 1: 'gmax': 65536 is above 65535"),
        ("area gmax x b 10 d 1".into(), "line 1: 'gmax': 'x' is no number"),
        ("area gmax 300 b".into(), "line 1: 'b' takes a number, and nothing follows it"),
        ("area gmax 300 B 10 d 1".into(), "line 1: 'B' is none of gmax, b and d"),
        (format!("{area}\n{area}"), "line 3: 'area' stands in line 1 already"),
        (format!("{area}segment"), "line 2: 'segment' takes a number, and nothing follows it"),
        (format!("{area}segment length 6000 limit 300"), "line 2: 'length' is no number"),
        (format!("{area}{}", segment(0)), "line 2: there is no segment 0: segments are 1 to 62"),
        (format!("{area}{}", segment(99_999_999_999)), "line 2: there is no segment 99999999999: segments are 1 to 62"),
        (format!("{area}{}", segment(63)), "line 2: there is no segment 63: segments are 1 to 62"),
        (format!("{area}segment 1 limit 300"), "line 2: 'length' is missing: segment NUMBER length L limit V"),
        (format!("{area}segment 1 length 6000"), "line 2: 'limit' is missing: segment NUMBER length L limit V"),
        (
            format!("{area}{}", segment(1).replace('\n', " speed 3")),
            "line 2: 'speed' is none of length, limit, entry, exit, flags, to and from",
        ),
        (format!("{area}{}", segment(1).replace('\n', " entry entry")), "line 2: 'entry' stands twice"),
        (
            format!("{area}{}", segment(1).replace('\n', " entry flags 3")),
            "line 2: 'flags' stands in the place of 'entry' and 'exit', and not beside them",
        ),
        (format!("{area}{}", segment(1).replace('\n', " to 2 3 4")), "line 2: 'to' takes one or two segments"),
        (format!("{area}{}", segment(1).replace('\n', " to 256")), "line 2: 'to': 256 is above 255"),
        (format!("{area}{}", segment(1).replace('\n', " to entry")), "line 2: 'to': 'entry' is no number"),
        (format!("{area}{}", segment(1).replace('\n', " from")), "line 2: 'from' takes a number, and nothing follows it"),
        (format!("{area}{}{}", segment(1), segment(1)), "line 3: segment 1 stands in line 2 already"),
        (format!("{area}{}{}", segment(1), segment(3)), "line 3: this is segment 3, and there is no segment 2"),
        (format!("{area}route 31 1"), "line 2: there is no route 31: routes are 1 to 30"),
        (format!("{area}route 1 x"), "line 2: 'x' is no number"),
        (format!("{area}route 1 256"), "line 2: 256 is above 255"),
        (format!("{area}route 1{}", " 1".repeat(32)), "line 2: a route has 31 segments at the most, and 32 are listed"),
        (format!("{area}route 2 1"), "line 2: this is route 2, and there is no route 1"),
        (format!("{area}route 1 1\nroute 1 1"), "line 3: route 1 stands in line 2 already"),
        (
            format!(
                "{area}{}{}{}{}",
                segment(4),
                segment(1).replace('\n', " to 4\n"),
                segment(2).replace('\n', " to 4\n"),
                segment(3).replace('\n', " to 4\n")
            ),
            "line 2: segments 1, 2 and 3 lead to segment 4, and a segment has two previous links at the most",
        ),
        ("area gmax 300\0".into(), "line 1: it has a byte of 0 (NUL), and a text is plain text"),
        ("#".repeat(10_000_001), "the text has more than 10000000 bytes"),
    ] {
        assert_eq!(wrong(&text), says);
    }
}
