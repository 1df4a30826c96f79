//! The maker of area files, run as a command: what it says of its files is what the second program says of them.

use reference::*;
use std::process::Command;

fn areas(argument: &str) -> Vec<u8> {
    let output = Command::new(env!("CARGO_BIN_EXE_areas")).arg(argument).output().unwrap();
    assert!(output.status.success(), "{argument}");
    output.stdout
}

/// The lines that it writes, each a name and what stands after it.
fn lines(argument: &str) -> Vec<(String, String)> {
    let text = String::from_utf8(areas(argument)).unwrap();
    text.lines().map(|line| line.split_once(' ').unwrap()).map(|(name, says)| (name.into(), says.into())).collect()
}

/// So many of a thing.
fn counted(number: u8, thing: &str) -> String {
    match number {
        1 => format!("1 {thing}"),
        _ => format!("{number} {thing}s"),
    }
}

/// What `rbu check` must print of a file after its name.
#[test]
fn verdicts() {
    let verdicts = lines("verdicts");
    for (name, says) in &verdicts {
        let file = areas(name);
        let (number, place) = answer_of(&file);
        let mut right = format!("{number} {place} {}", word(number).unwrap());
        if let Ok(tables) = read(&file) {
            right += &format!(", {}, {}", counted(tables.n, "segment"), counted(tables.r, "route"));
        }
        assert_eq!(*says, right, "{name}");
    }
    let names: Vec<&str> = verdicts.iter().map(|(name, _)| &name[..]).collect();
    assert_eq!(String::from_utf8(areas("list")).unwrap().lines().collect::<Vec<_>>(), names);
    assert!((1..names.len()).all(|k| !names[..k].contains(&names[k])), "no name stands twice");
}

/// Of the accepted files those, and no others, on which document 01's program is refused an entry, and which one.
#[test]
fn entries() {
    let mut right = vec![];
    for (name, _) in lines("verdicts") {
        let Ok(mut area) = load(&areas(&name)) else { continue };
        let numbers = AREA_A_ENTRIES.map(|call| area.call(&call));
        if let Some(train) = (1..).zip(numbers).find(|(_, number)| *number != 0) {
            right.push((name, train));
        }
    }
    let mut entries = lines("entries");
    entries.sort();
    right.sort();
    assert_eq!(entries.len(), right.len());
    for ((name, says), (right_name, (train, number))) in entries.iter().zip(&right) {
        assert_eq!(name, right_name);
        assert!(says.starts_with(&format!("enter of train {train}: {number} 0 ")), "{name}: {says}");
    }
}

/// The files at the bounds of R-3 of document 02 have the numbers in their names.
#[test]
fn numbers_in_names() {
    for (name, is) in [
        ("gmax_1001", (|a| a.gmax == 1001) as fn(&Tables) -> bool),
        ("gmax_2000", |a| a.gmax == 2000),
        ("gmax_2001", |a| a.gmax == 2001),
        ("length_1000001", |a| a.segment(3).length == 1_000_001),
        ("length_4000000", |a| a.segment(3).length == 4_000_000),
        ("length_4000001", |a| a.segment(3).length == 4_000_001),
        ("margin_1000001", |a| a.d == 1_000_001),
        ("margin_2000999", |a| (a.gmax, a.b, a.d) == (2000, 1, 2_000_999)),
        ("margin_2001000", |a| (a.gmax, a.b, a.d) == (2000, 1, 2_001_000)),
        ("margin_3999998", |a| (a.gmax, a.d) == (1, 3_999_998) && (1..=3).all(|k| a.segment(k).length == 4_000_000)),
        ("margin_3999999", |a| (a.gmax, a.d) == (1, 3_999_999) && (1..=3).all(|k| a.segment(k).length == 4_000_000)),
        ("margin_4000000", |a| a.d == 4_000_000),
        ("margin_4000001", |a| a.d == 4_000_001),
    ] {
        assert!(is(&decode_tables(&areas(name))), "{name}");
    }
}

/// Area A's segments, and one after the merge.
#[test]
fn the_line_after_the_merge() {
    let (a, line) = (decode_tables(&areas("area_a")), decode_tables(&areas("ore_line")));
    let lengths = |tables: &Tables| tables.segments.map(|segment| segment.length);
    assert_eq!((&lengths(&line)[..3], lengths(&line)[3]), (&lengths(&a)[..3], 12_000));
    assert_eq!((line.route(1).listed(), line.route(2).listed()), (&[1, 3, 4][..], &[2, 3, 4][..]));
}
