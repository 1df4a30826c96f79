//! Plain text as people write it, of areas and of scenarios: its encoding, its lines and their words, and numbers.

/// So many bytes a text may have.
pub const MOST_TEXT: usize = 10_000_000;

/// A line that has words outside its comment.
pub struct Line<'a> {
    /// from 1
    pub number: usize,
    pub words: Vec<&'a str>,
}

/// A text as characters, or what is wrong with it; `what` names it: scenario, text. A line ends with a line feed, a carriage return, or
/// both; a comment may be in any encoding that has no byte of 0, and some editors begin a file with a mark.
pub fn decoded(bytes: &[u8], what: &str) -> Result<String, String> {
    if bytes.len() > MOST_TEXT {
        return Err(format!("the {what} has more than {MOST_TEXT} bytes"));
    }
    if let Some(encoding) = wide_encoding(bytes) {
        return Err(format!("the {what} is in {encoding}; save it as plain text, in UTF-8"));
    }
    let text = String::from_utf8_lossy(bytes);
    Ok(text.trim_start_matches('\u{feff}').replace("\r\n", "\n").replace('\r', "\n"))
}

/// The lines of a decoded text, one after the other; what is wrong with one is told by its number.
pub fn each<'a>(text: &'a str, what: &str, mut read: impl FnMut(Line<'a>) -> Result<(), String>) -> Result<(), String> {
    for (number, line) in (1..).zip(text.lines()) {
        let wrong = |wrong: String| format!("line {number}: {wrong}");
        if line.contains('\0') {
            return Err(wrong(format!("it has a byte of 0 (NUL), and a {what} is plain text")));
        }
        let words: Vec<&str> = line.split('#').next().unwrap_or("").split_whitespace().collect();
        if !words.is_empty() {
            read(Line { number, words }).map_err(wrong)?;
        }
    }
    Ok(())
}

/// The encoding of a text whose characters have two or four bytes: it begins with a mark, or most of its characters, read so, are those
/// of plain English.
pub fn wide_encoding(text: &[u8]) -> Option<&'static str> {
    match text {
        [0xff, 0xfe, 0, 0, ..] | [0, 0, 0xfe, 0xff, ..] => return Some("UTF-32"),
        [0xff, 0xfe, ..] | [0xfe, 0xff, ..] => return Some("UTF-16"),
        _ => (),
    }
    let is_english = |text: String| {
        let (english, all) = (text.chars().filter(char::is_ascii).count(), text.chars().count());
        !text.contains(is_control) && 2 * english > all
    };
    let orders = [true, false];
    if orders.into_iter().any(|low_first| wide_text(text, 4, low_first).is_some_and(is_english)) {
        return Some("UTF-32");
    }
    orders.into_iter().any(|low_first| wide_text(text, 2, low_first).is_some_and(is_english)).then_some("UTF-16")
}

/// A text read in characters of so many bytes, the low one first or last, unless it is none. A character may be cut off at its end.
pub fn wide_text(text: &[u8], size: usize, low_first: bool) -> Option<String> {
    let unit = |bytes: &[u8]| {
        let place = |at: usize| if low_first { at } else { size - 1 - at };
        bytes.iter().enumerate().map(|(at, byte)| u32::from(*byte) << (8 * place(at))).sum::<u32>()
    };
    let units = text.chunks_exact(size).map(unit);
    if size == 4 {
        return units.map(char::from_u32).collect();
    }
    let mut units: Vec<u16> = units.map(|unit| unit as u16).collect();
    if units.last().is_some_and(|last| (0xd800..0xdc00).contains(last)) {
        units.pop();
    }
    String::from_utf16(&units).ok()
}

/// A character that stands in no plain text.
pub fn is_control(c: char) -> bool {
    c.is_control() && !matches!(c, '\t' | '\n' | '\r')
}

/// A word as it is shown: nothing in it is an order to a terminal, and of a long one its beginning.
pub fn quoted(word: &str) -> String {
    const SHOWN: usize = 60;
    let more = if word.chars().nth(SHOWN).is_some() { ".." } else { "" };
    let shown: String = word.chars().take(SHOWN).collect();
    format!("'{}{more}'", shown.escape_debug())
}

pub fn is_digits(word: &str) -> bool {
    !word.is_empty() && word.bytes().all(|byte| byte.is_ascii_digit())
}

/// A number of 0 to `most`. A sign is no part of it.
pub fn number(word: &str, most: u32) -> Result<u32, String> {
    if !is_digits(word) {
        return Err(format!("{} is no number", quoted(word)));
    }
    let number = word.parse().ok().filter(|number| *number <= most);
    number.ok_or_else(|| format!("{} is above {most}", quoted(word).trim_matches('\'')))
}

/// A number of 16 bits.
pub fn number_16(text: &str) -> Result<u16, String> {
    Ok(number(text, u16::MAX.into())? as u16)
}

/// A number of 8 bits.
pub fn number_8(text: &str) -> Result<u8, String> {
    Ok(number(text, u8::MAX.into())? as u8)
}

/// Several things, as a sentence lists them.
pub fn listed<T: ToString>(things: &[T], and: &str) -> String {
    match things {
        [] => "none".into(),
        [one] => one.to_string(),
        [before @ .., last] => {
            let before: Vec<String> = before.iter().map(T::to_string).collect();
            format!("{} {and} {}", before.join(", "), last.to_string())
        }
    }
}

/// So many of a thing: `1 route`, `2 routes`.
pub fn counted(many: usize, thing: &str) -> String {
    match many {
        1 => format!("1 {thing}"),
        _ => format!("{many} {thing}s"),
    }
}
