//! An area as it is named: a file of bytes or a text, told apart by what stands in it.
use crate::faults::Source;
use crate::lines::{is_control, wide_encoding, wide_text, MOST_TEXT};
use crate::streams::{shown, Input};
use crate::text;
use rbu::FILE_SIZE;
use std::ffi::OsStr;

pub struct AreaFile {
    /// as it is shown
    pub name: String,
    /// the file, or the one that the text spells
    pub bytes: Vec<u8>,
    pub source: Source,
}

/// Area A of docs/RULES.md, which is taken where none is named.
const AREA_A: &[u8; FILE_SIZE] = include_bytes!("../../crates/area_a/stdin");

impl AreaFile {
    pub fn area_a() -> AreaFile {
        AreaFile { name: "Area A".into(), bytes: AREA_A.to_vec(), source: Source::File }
    }

    /// Reads an area in either form, no further than shows that it is too long; or says why it cannot be read.
    pub fn read(name: &OsStr) -> Result<AreaFile, String> {
        let mut input = Input::open(name)?;
        input.read_to(FILE_SIZE + 1)?;
        if may_become_text(&input.bytes) {
            input.read_to(MOST_TEXT + 1)?;
        }
        let name = shown(name);
        let named = |wrong| format!("{name}: {wrong}");
        let bytes = input.bytes;
        if !is_text(&bytes) {
            if let Some(encoding) = wide_encoding_of(&bytes) {
                return Err(named(format!("the text is in {encoding}; save it as plain text, in UTF-8")));
            }
            return Ok(AreaFile { name, bytes, source: Source::File });
        }
        let (tables, lines) = text::read(&bytes).map_err(named)?;
        Ok(AreaFile { name, bytes: tables.file().to_vec(), source: Source::Text(lines) })
    }
}

/// A text is known by its first word, and so is one with a byte that no text has; or by having no such byte, so that a misspelt first
/// word is named. An empty file is a file of another size.
fn is_text(bytes: &[u8]) -> bool {
    let is_cut = bytes.len() > MOST_TEXT;
    is_keyword(first_word(bytes)) || (!bytes.is_empty() && is_plain(bytes, is_cut))
}

/// Of the beginning of a file: whether what follows can still make it a text.
fn may_become_text(bytes: &[u8]) -> bool {
    let first = first_word(bytes);
    let goes_on = bytes.ends_with(first) && KEYWORDS.iter().any(|word| word.starts_with(first));
    goes_on || is_keyword(first) || is_plain(bytes, true)
}

const KEYWORDS: [&[u8]; 3] = [b"area", b"segment", b"route"];

fn is_keyword(word: &[u8]) -> bool {
    KEYWORDS.contains(&word)
}

/// UTF-8 with no control character but tabs and ends of lines; where it is cut off, its last character may be too.
fn is_plain(bytes: &[u8], is_cut: bool) -> bool {
    let text = match std::str::from_utf8(bytes) {
        Err(wrong) if is_cut && wrong.error_len().is_none() => std::str::from_utf8(&bytes[..wrong.valid_up_to()]),
        other => other,
    };
    text.is_ok_and(|text| !text.contains(is_control))
}

/// The first word outside comments; an empty one where there is none.
fn first_word(bytes: &[u8]) -> &[u8] {
    let mut rest = bytes.strip_prefix("\u{feff}".as_bytes()).unwrap_or(bytes);
    loop {
        rest = rest.trim_ascii_start();
        let end = |ends: fn(&u8) -> bool| rest.iter().position(ends).unwrap_or(rest.len());
        if rest.first() != Some(&b'#') {
            return &rest[..end(|byte| byte.is_ascii_whitespace() || *byte == b'#')];
        }
        rest = &rest[end(|byte| matches!(byte, b'\n' | b'\r'))..];
    }
}

/// The encoding of a text in characters of two or four bytes. An area file may begin with the mark of one: so all of it has to be such a
/// text.
fn wide_encoding_of(bytes: &[u8]) -> Option<&'static str> {
    let encoding = wide_encoding(bytes)?;
    let size = if encoding == "UTF-32" { 4 } else { 2 };
    let is_such = |low_first| wide_text(bytes, size, low_first).is_some_and(|text| !text.contains(is_control));
    (is_such(true) || is_such(false)).then_some(encoding)
}

/// Why a file that is to be made is no text: its first byte that stands in none.
pub fn no_text(bytes: &[u8]) -> String {
    let (valid, after) = match std::str::from_utf8(bytes) {
        Ok(text) => (text, None),
        Err(wrong) => (std::str::from_utf8(&bytes[..wrong.valid_up_to()]).unwrap_or(""), Some((wrong.valid_up_to(), "which is no UTF-8"))),
    };
    let control = valid.char_indices().find(|(_, c)| is_control(*c)).map(|(at, _)| (at, "a control character"));
    match control.or(after) {
        Some((at, why)) => format!("it is no text of an area: byte {at} is {}, {why}", bytes[at]),
        None => "it is no text of an area: it is empty".into(),
    }
}

#[cfg(test)]
mod tests {
    use super::*;

    #[test]
    fn texts_and_files() {
        for text in [
            "area",
            "segment 1",
            "# x\n\n  route 1\n",
            "aera gmax 300",
            "# nothing\n",
            "\u{feff}area",
            "\r\n#\rarea \0",
            "area \u{1}",
            "Übersicht",
        ] {
            assert!(is_text(text.as_bytes()), "{text:?}");
        }
        assert!(is_text(b"# caf\xe9\narea gmax 300"));
        for bytes in [&b""[..], b"\0", b"aera\0", b"caf\xe9", b"#\0", b"areas\0", AREA_A] {
            assert!(!is_text(bytes), "{bytes:?}");
        }
    }

    #[test]
    fn the_beginning_of_a_text() {
        for bytes in [&b"area"[..], b"# caf\xe9", b"# a\xc3", b"x y z", b"", b"# caf\xe9\nare", b"# caf\xe9\rr"] {
            assert!(may_become_text(bytes), "{bytes:?}");
        }
        for bytes in [&[0; 3][..], AREA_A, b"xyz\xe9 ", b"# caf\xe9\nare ", b"# caf\xe9\naer"] {
            assert!(!may_become_text(bytes), "{bytes:?}");
        }
    }

    #[test]
    fn wide_texts() {
        let wide = |text: &str, low_first: bool| -> Vec<u8> {
            text.encode_utf16().flat_map(|unit| if low_first { unit.to_le_bytes() } else { unit.to_be_bytes() }).collect()
        };
        for text in ["area gmax 300\r\n", "\u{feff}area", "\u{feff}Übersicht\n", "# ── Area A ──\narea gmax 300 b 10 d 4650\n"] {
            for low_first in [true, false] {
                assert_eq!(wide_encoding_of(&wide(text, low_first)), Some("UTF-16"), "{text}");
            }
        }
        let cut = wide("# train 🚂", true);
        assert_eq!(wide_encoding_of(&cut[..cut.len() - 2]), Some("UTF-16"));
        let wider: Vec<u8> = "area".chars().flat_map(|c| u32::from(c).to_le_bytes()).collect();
        assert_eq!(wide_encoding_of(&wider), Some("UTF-32"));
        // an area file, one without segments and routes, and one whose first bytes are a mark
        let mut marked = *AREA_A;
        (marked[0], marked[1]) = (0xff, 0xfe);
        let mut none = [0; FILE_SIZE];
        none[0] = 1;
        assert_eq!([wide_encoding_of(AREA_A), wide_encoding_of(&marked), wide_encoding_of(&none)], [None; 3]);
    }

    #[test]
    fn texts_that_are_cut_off() {
        let long = |text: &str| text.bytes().cycle().take(MOST_TEXT + 1).collect::<Vec<u8>>();
        // é has two bytes, and the first of them is the last that was read
        assert!(is_text(&long("éé\n")) && !is_plain(&long("éé\n"), false));
        assert!(!is_text("a\u{1}".as_bytes()) && !is_text(b"caf\xc3"));
    }

    #[test]
    fn why_it_is_no_text() {
        let says = |bytes: &[u8]| no_text(bytes).replace("it is no text of an area: ", "");
        assert_eq!(says(AREA_A), "byte 0 is 1, a control character");
        assert_eq!(says("# Übersicht\naera \u{1}".as_bytes()), "byte 18 is 1, a control character");
        assert_eq!(says(b"aera caf\xe9"), "byte 8 is 233, which is no UTF-8");
        assert_eq!(says(b""), "it is empty");
    }
}
