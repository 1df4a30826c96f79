//! Scenarios: the calls of each line, and what is said of one that cannot be read.
use rbu_command::scenario::{read, Asked, Call, Scenario};

fn scenario(text: impl AsRef<[u8]>) -> Scenario {
    read(text.as_ref()).unwrap()
}

fn calls(text: impl AsRef<[u8]>) -> Vec<Call> {
    scenario(text).lines.iter().flat_map(|line| line.calls()).map(|(call, _)| call).collect()
}

fn names(text: impl AsRef<[u8]>) -> Vec<&'static str> {
    calls(text).iter().map(Call::name).collect()
}

#[track_caller]
fn says(text: impl AsRef<[u8]>, words: &str) {
    assert_eq!(read(text.as_ref()).unwrap_err(), words);
}

const CYCLE: [&str; 4] = ["speed", "request", "grant", "position"];

/// A comment goes to the end of its line and no further.
#[test]
fn ends_of_lines() {
    for end in ["\n", "\r\n", "\r"] {
        let text = ["# two trains", "enter 1 1 250 # the first", "", "cycle 300", "leave 1"].join(end);
        assert_eq!(names(text), [&["enter"], &CYCLE[..], &["leave"]].concat(), "{end:?}");
        let fly = "line 3: there is no call 'fly'; the calls are enter, leave, speed, request, grant, position and cycle";
        says(["request", "", "fly"].join(end), fly);
    }
    assert_eq!(names("request # a\rgrant # b\r\nposition # c\nrequest"), ["request", "grant", "position", "request"]);
    assert_eq!(scenario("request\r\n\rgrant\n\r\nposition").lines.iter().map(|line| line.number).collect::<Vec<_>>(), [1, 3, 5]);
    assert_eq!((names(""), names("\r\n\r# nothing\r")), (vec![], vec![]));
}

/// `enter TRAIN ROUTE SPEED` means length 1, `enter TRAIN ROUTE SPEED LENGTH` names it; the calls refuse a wrong one, not the text.
#[test]
fn lengths() {
    for (text, length, short) in [
        ("enter 7 2 250", 1, Some(1)),
        ("enter 7 2 250 1", 1, None),
        ("enter 7 2 250 6000 # ore", 6000, None),
        ("enter 7 2 250 0", 0, None),
        ("enter 7 2 250 65535", 65_535, None),
    ] {
        assert_eq!(calls(text), [Call::Enter { train: 7, route: 2, speed: 250, length }], "{text}");
        assert_eq!(scenario(text).short, short, "{text}");
    }
    assert_eq!(scenario("enter 1 1 1 9\nenter 2 1 1\nenter 3 1 1").short, Some(2));
    let takes = "line 1: 'enter' takes TRAIN ROUTE SPEED or TRAIN ROUTE SPEED LENGTH, and";
    says("enter", &format!("{takes} no number is given"));
    says("enter 1", &format!("{takes} one number is given"));
    says("enter 1 1", &format!("{takes} 2 numbers are given"));
    says("enter 1 1 250 6000 2", &format!("{takes} 5 numbers are given"));
    says("request\nenter 1 1 250 600m", "line 2: '600m' is no number");
    says("enter 1 1 250 -1", "line 1: '-1' is no number");
    says("enter 1 1 250 65536", "line 1: 65536 is above 65535");
    says("leave 65536", "line 1: 65536 is above 65535");
    says("leave one", "line 1: 'one' is no number");
    says("leave", "line 1: 'leave' takes TRAIN, and no number is given");
    says("leave 1 6000", "line 1: 'leave' takes TRAIN, and 2 numbers are given");
    says("grant 1", "line 1: 'grant' takes no number, and one number is given");
}

/// One wish for all, one for all but some, or just those that are listed.
#[test]
fn wishes() {
    let speed = |text: &str| match &calls(text)[..] {
        [Call::Speed(wishes)] => wishes.clone(),
        other => panic!("{other:?}"),
    };
    assert_eq!(speed("speed 300"), [300; 24]);
    assert_eq!(speed("speed 300 200"), [300, 200]);
    assert_eq!(speed(&format!("speed{}", " 1".repeat(25))), [1; 25]);
    let mut right = [300; 24];
    (right[0], right[23]) = (100, 0);
    assert_eq!(speed("speed 300 24=0 1=100"), right);
    says("speed", "line 1: 'speed' takes one WISH for all trains or up to 25 WISHES, and no number is given");
    says(format!("speed{}", " 1".repeat(26)), "line 1: 'speed' takes up to 25 wishes, and 26 are given");
    says("speed 300 1=100 200", "line 1: '200' is not TRAIN=WISH, as 3=250");
    says("speed 1=100", "line 1: '1=100' is no number");
    says("speed 300 0=1", "line 1: there is no train 0: trains are 1 to 24");
    says("speed 300 25=1", "line 1: there is no train 25: trains are 1 to 24");
    says("speed 300 2=1 2=1", "line 1: train 2 has two wishes");
    says("speed 300 2=x", "line 1: '2=x' is not TRAIN=WISH, as 3=250");
    says("speed 300 =2", "line 1: '=2' is not TRAIN=WISH, as 3=250");
    says("speed 300 2=", "line 1: '2=' is not TRAIN=WISH, as 3=250");
    says("speed 300 99999999999=1", "line 1: there is no train 99999999999: trains are 1 to 24");
    says("speed 300 2=65536", "line 1: 65536 is above 65535");
    says("speed 300 x2", "line 1: 'x2' is no number");
}

#[test]
fn cycles() {
    let asked = |text: &str| scenario(text).lines.remove(0).asked;
    let mut wishes = vec![600; 24];
    assert_eq!(asked("cycle 600"), Asked::Cycles { wishes: wishes.clone(), times: None });
    assert_eq!(asked("cycle 600 x1"), Asked::Cycles { wishes: wishes.clone(), times: Some(1) });
    wishes[2] = 0;
    assert_eq!(asked("cycle 600 3=0"), Asked::Cycles { wishes: wishes.clone(), times: None });
    assert_eq!(asked("cycle 600 3=0 x20"), Asked::Cycles { wishes: wishes.clone(), times: Some(20) });
    let line = &scenario("cycle 600 3=0 x2").lines[0];
    let which: Vec<String> = line.calls().into_iter().map(|(_, which)| which).collect();
    assert_eq!(which, [CYCLE.map(|name| format!("cycle 1, {name}")), CYCLE.map(|name| format!("cycle 2, {name}"))].concat());
    assert!(line.calls().iter().step_by(4).all(|(call, _)| *call == Call::Speed(wishes.clone())));
    assert_eq!((line.count(), line.calls().len()), (8, 8));
    let once: Vec<String> = scenario("cycle 600").lines[0].calls().into_iter().map(|(_, which)| which).collect();
    assert_eq!(once, CYCLE);
    says("cycle", "line 1: 'cycle' takes WISH [TRAIN=WISH ..] [xTIMES], and no number is given");
    says("cycle x2", "line 1: 'x2' is no number");
    says("cycle 300 x0", "line 1: 'x0': a cycle is run once or more");
    says("cycle 300 x", "line 1: 'x' is no xTIMES, as x20: '' is no number");
    says("cycle 300 x-1", "line 1: 'x-1' is no xTIMES, as x20: '-1' is no number");
    says("cycle 300 x65536", "line 1: 'x65536' is no xTIMES, as x20: 65536 is above 65535");
    says("cycle 300 x2 1=3", "line 1: 'x2' is not TRAIN=WISH, as 3=250");
    says("cycle 300 200", "line 1: '200' is not TRAIN=WISH, as 3=250");
}

#[test]
fn the_area_of_a_scenario() {
    assert_eq!(scenario("# x\narea ../areas/quarry.area # its line\nrequest").area, Some("../areas/quarry.area".into()));
    assert_eq!(scenario("request").area, None);
    says("area", "line 1: 'area' takes the NAME of a file, one word, and no word is given");
    says("area a b", "line 1: 'area' takes the NAME of a file, one word, and 2 words are given");
    says("area a\narea a", "line 2: 'area' stands in a line before already");
    says(b"area caf\xe9.area", "line 1: 'area': the name is not in UTF-8; hand the area to rbu as its argument");
    says("request\narea a", "line 2: 'area' comes before the first call: a scenario runs on one area");
}

/// The bytes of a call (docs/FORMATS.md): its kind, what it names, and zeros.
#[test]
fn items() {
    for (text, start) in [
        ("enter 7 2 250 6000", &[1, 7, 2, 250, 6000][..]),
        ("leave 7", &[2, 7]),
        ("speed 9 8", &[3, 0, 0, 0, 0, 0, 2, 9, 8]),
        ("request", &[4]),
        ("grant", &[5]),
        ("position", &[6]),
    ] {
        let mut right = [0; 32];
        right[..start.len()].copy_from_slice(start);
        assert_eq!(calls(text)[0].items(), right, "{text}");
    }
    let all = calls(format!("speed{}", " 65535".repeat(25)))[0].items();
    assert_eq!((all[6], &all[7..]), (25, &[65_535; 25][..]));
}

/// A text in another encoding than plain text is named as what it is, with and without a mark at its start.
#[test]
fn wide_encodings() {
    let text = "# two trains\nenter 1 1 250\n";
    let units: Vec<u16> = text.encode_utf16().collect();
    let little: Vec<u8> = units.iter().flat_map(|unit| unit.to_le_bytes()).collect();
    let big: Vec<u8> = units.iter().flat_map(|unit| unit.to_be_bytes()).collect();
    let (utf_16, utf_32) = ["UTF-16", "UTF-32"].map(|name| format!("the scenario is in {name}; save it as plain text, in UTF-8")).into();
    for (mark, text) in [(&[0xff, 0xfe], &little), (&[0xfe, 0xff], &big)] {
        says(text, &utf_16);
        says([&mark[..], text].concat(), &utf_16);
    }
    let wide: Vec<u8> = text.chars().flat_map(|c| (c as u32).to_le_bytes()).collect();
    says(&wide, &utf_32);
    says([&[0xff, 0xfe, 0, 0], &wide[..]].concat(), &utf_32);
    // without a mark, where only some characters are plain ones; and a text of one character
    for text in ["#Ж\nrequest\n", "#", "# ── two trains ──\nrequest\n"] {
        says(text.encode_utf16().flat_map(u16::to_le_bytes).collect::<Vec<u8>>(), &utf_16);
        says(text.encode_utf16().flat_map(u16::to_be_bytes).collect::<Vec<u8>>(), &utf_16);
    }
    // plain text with the mark of UTF-8 is plain text, and a comment may be in any encoding
    assert_eq!(names("\u{feff}request"), ["request"]);
    assert_eq!(names(b"request # Z\xfcge"), ["request"]);
}

/// A byte of 0 is named with its line, in a comment too; one that is no sign of an encoding does not pass for one.
#[test]
fn bytes_of_zero() {
    let zero = |line: usize| format!("line {line}: it has a byte of 0 (NUL), and a scenario is plain text");
    says("request\ngr\0ant", &zero(2));
    says("r\0equest", &zero(1));
    says("request # a\0b", &zero(1));
    says("\0", &zero(1));
}

/// A word that is shown has no byte that a terminal would take for an order.
#[test]
fn words_are_shown_plainly() {
    assert!(read(b"\x1b[31mfly").unwrap_err().starts_with("line 1: there is no call '\\u{1b}[31mfly';"));
    says("leave \u{1b}[31m", "line 1: '\\u{1b}[31m' is no number");
    // and of a long one its beginning
    says(format!("leave {}", "x".repeat(1000)), &format!("line 1: '{}..' is no number", "x".repeat(60)));
    says(format!("leave {}", "9".repeat(1000)), &format!("line 1: {}.. is above 65535", "9".repeat(60)));
}

/// A scenario may have 20,000 calls; of more it is said how many there are, and where they go over.
#[test]
fn too_many_calls() {
    assert_eq!(calls("request\n".repeat(20_000)).len(), 20_000);
    assert_eq!(calls("cycle 300 x5000").len(), 20_000);
    says("request\n".repeat(20_001), "the scenario has 20001 calls, and the most is 20000; line 20001 goes over");
    says("# long\ncycle 300\ncycle 300 x5000", "the scenario has 20004 calls, and the most is 20000; line 3 goes over");
    says("cycle 300 x65535\n".repeat(2), "the scenario has 524280 calls, and the most is 20000; line 1 goes over");
    says("#".repeat(10_000_001), "the scenario has more than 10000000 bytes");
    // a line that cannot be read is named first
    says("cycle 300 x5001\nleave x", "line 2: 'x' is no number");
}
