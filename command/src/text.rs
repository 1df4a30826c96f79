//! An area as text (docs/RBU.md): lines `area ..`, `segment ..` and `route ..`, which a person writes and reads. What load refuses can
//! be written too: the core judges an area, not the reader of its text.
use crate::faults::Lines;
use crate::layout::{ENTRY, EXIT, ROUTE_SEGMENTS};
use crate::lines::{self, is_digits, listed, number, number_16, number_8, quoted};
use crate::tables::{Segment, Tables};
use rbu::{ROUTES, SEGMENTS};

/// What a text of an area is called where something is wrong with it.
pub const WHAT: &str = "text";

// ---- from a text

/// The area that a text spells, with the lines of its parts; or what is wrong with it.
pub fn read(bytes: &[u8]) -> Result<(Tables, Lines), String> {
    let text = lines::decoded(bytes, WHAT)?;
    let (mut area, mut segments, mut routes) = (None, Rows::new("segment"), Rows::new("route"));
    lines::each(&text, WHAT, |line| {
        let mut words = Words { words: line.words, at: 1 };
        match words.words[0] {
            "area" => match area {
                None => area = Some((line.number, area_line(&mut words)?)),
                Some((before, _)) => return Err(format!("'area' stands in line {before} already")),
            },
            "segment" => segments.put(words.numbered("segment", SEGMENTS)?, line.number, segment_line(&mut words)?)?,
            "route" => routes.put(words.numbered("route", ROUTES)?, line.number, route_line(&mut words)?)?,
            other => return Err(format!("{} is none of area, segment and route", quoted(other))),
        }
        Ok(())
    })?;
    let (area, (gmax, b, d)) = area.ok_or("there is no line 'area gmax G b B d D'")?;
    let ((segment_lines, segments), (route_lines, routes)) = (segments.whole()?, routes.whole()?);
    let (segments, said): (Vec<Segment>, Vec<Option<[u8; 2]>>) = segments.into_iter().unzip();
    let mut tables = Tables { gmax, b, d, segments, routes };
    for (number, said) in (1..).zip(said) {
        tables.segments[number - 1].previous = match said {
            Some(previous) => previous,
            None => tables.usual_previous(number).ok_or_else(|| too_many(&tables, number, segment_lines[number - 1]))?,
        };
    }
    Ok((tables, Lines { area, segments: segment_lines, routes: route_lines }))
}

fn too_many(tables: &Tables, number: usize, line: usize) -> String {
    let from = listed(&tables.leading_to(number), "and");
    format!("line {line}: segments {from} lead to segment {number}, and a segment has two previous links at the most")
}

/// Rows by their number, in any order, each with its line.
struct Rows<T> {
    what: &'static str,
    rows: Vec<Option<(usize, T)>>,
}

impl<T> Rows<T> {
    fn new(what: &'static str) -> Rows<T> {
        Rows { what, rows: vec![] }
    }

    fn put(&mut self, number: usize, line: usize, row: T) -> Result<(), String> {
        if self.rows.len() < number {
            self.rows.resize_with(number, || None);
        }
        match &mut self.rows[number - 1] {
            Some((before, _)) => Err(format!("{} {number} stands in line {before} already", self.what)),
            free => {
                *free = Some((line, row));
                Ok(())
            }
        }
    }

    /// The lines and the rows, of which none is missing.
    fn whole(self) -> Result<(Vec<usize>, Vec<T>), String> {
        let (what, last) = (self.what, self.rows.len());
        let last_line = self.rows.last().and_then(|row| row.as_ref()).map_or(0, |(line, _)| *line);
        if let Some(missing) = self.rows.iter().position(Option::is_none) {
            return Err(format!("line {last_line}: this is {what} {last}, and there is no {what} {}", missing + 1));
        }
        Ok(self.rows.into_iter().flatten().unzip())
    }
}

/// The words of a line, taken one after the other.
struct Words<'a> {
    words: Vec<&'a str>,
    at: usize,
}

impl<'a> Words<'a> {
    fn take(&mut self) -> Option<&'a str> {
        let word = self.words.get(self.at).copied();
        self.at += 1;
        word
    }

    /// The next word, if it is one that is meant.
    fn take_if(&mut self, meant: impl Fn(&str) -> bool) -> Option<&'a str> {
        let word = self.words.get(self.at).copied().filter(|word| meant(word))?;
        self.at += 1;
        Some(word)
    }

    fn value(&mut self, of: &str) -> Result<&'a str, String> {
        self.take().ok_or_else(|| format!("'{of}' takes a number, and nothing follows it"))
    }

    /// The number of a segment or of a route, from 1.
    fn numbered(&mut self, what: &str, most: usize) -> Result<usize, String> {
        let word = self.value(what)?;
        match number(word, most as u32) {
            Ok(0) => (),
            Ok(number) => return Ok(number as usize),
            Err(wrong) if !is_digits(word) => return Err(wrong),
            Err(_) => (),
        }
        Err(format!("there is no {what} {}: {what}s are 1 to {most}", quoted(word).trim_matches('\'')))
    }

    fn number_16(&mut self, of: &str) -> Result<u16, String> {
        of_word(of, number_16(self.value(of)?))
    }

    fn number_8(&mut self, of: &str) -> Result<u8, String> {
        of_word(of, number_8(self.value(of)?))
    }

    /// Decimetres, or metres with at most one decimal, as in `600 m`, `600.5 m` and `600m`.
    fn length(&mut self, of: &str) -> Result<u32, String> {
        let word = self.value(of)?;
        let metres = match word.strip_suffix('m') {
            Some(metres) => Some(metres),
            None => self.take_if(|word| word == "m").map(|_| word),
        };
        // decimetres, which may be more than a file has room for
        let length = match metres.map(|metres| metres.split_once('.').unwrap_or((metres, "0"))) {
            None => digits(word),
            Some((metres, tenth)) if tenth.len() == 1 => {
                digits(metres).zip(digits(tenth)).map(|(metres, tenth)| metres.saturating_mul(10).saturating_add(tenth))
            }
            Some(_) => None,
        };
        match length.map(u32::try_from) {
            Some(Ok(length)) => Ok(length),
            Some(Err(_)) => Err(format!("'{of}': {} is more than {} dm", quoted(word), u32::MAX)),
            None => Err(format!("'{of}': {} is no length; it is decimetres, as 6000, or metres, as 600 m or 600.5 m", quoted(word))),
        }
    }

    /// One or two segments, or `none`.
    fn links(&mut self, of: &str) -> Result<[u8; 2], String> {
        if self.take_if(|word| word == "none").is_some() {
            return Ok([0, 0]);
        }
        let first = self.number_8(of)?;
        let second = match self.take_if(is_digits) {
            Some(word) => of_word(of, number_8(word))?,
            None => 0,
        };
        match self.take_if(is_digits) {
            Some(_) => Err(format!("'{of}' takes one or two segments")),
            None => Ok([first, second]),
        }
    }
}

/// A number of any length; one that has no room is the greatest.
fn digits(word: &str) -> Option<u64> {
    is_digits(word).then(|| word.parse().unwrap_or(u64::MAX))
}

fn of_word<T>(word: &str, value: Result<T, String>) -> Result<T, String> {
    value.map_err(|wrong| format!("'{word}': {wrong}"))
}

/// A word that is given once.
fn once<T>(slot: &mut Option<T>, word: &str, value: T) -> Result<(), String> {
    match slot.replace(value) {
        None => Ok(()),
        Some(_) => Err(format!("'{word}' stands twice")),
    }
}

fn given<T>(slot: Option<T>, word: &str, of: &str) -> Result<T, String> {
    slot.ok_or_else(|| format!("'{word}' is missing: {of}"))
}

fn area_line(words: &mut Words) -> Result<(u16, u16, u32), String> {
    let (mut gmax, mut b, mut d) = (None, None, None);
    while let Some(word) = words.take() {
        match word {
            "gmax" => once(&mut gmax, word, words.number_16(word)?)?,
            "b" => once(&mut b, word, words.number_16(word)?)?,
            "d" => once(&mut d, word, words.length(word)?)?,
            other => return Err(format!("{} is none of gmax, b and d", quoted(other))),
        }
    }
    let form = "area gmax G b B d D";
    Ok((given(gmax, "gmax", form)?, given(b, "b", form)?, given(d, "d", form)?))
}

/// A segment without its previous links, and these where they are given.
fn segment_line(words: &mut Words) -> Result<(Segment, Option<[u8; 2]>), String> {
    let (mut length, mut limit, mut next, mut previous) = (None, None, None, None);
    let (mut entry, mut exit, mut flags) = (None, None, None);
    while let Some(word) = words.take() {
        match word {
            "length" => once(&mut length, word, words.length(word)?)?,
            "limit" => once(&mut limit, word, words.number_16(word)?)?,
            "entry" => once(&mut entry, word, ENTRY)?,
            "exit" => once(&mut exit, word, EXIT)?,
            "flags" => once(&mut flags, word, words.number_8(word)?)?,
            "to" => once(&mut next, word, words.links(word)?)?,
            "from" => once(&mut previous, word, words.links(word)?)?,
            other => return Err(format!("{} is none of length, limit, entry, exit, flags, to and from", quoted(other))),
        }
    }
    if flags.is_some() && (entry.is_some() || exit.is_some()) {
        return Err("'flags' stands in the place of 'entry' and 'exit', and not beside them".into());
    }
    let form = "segment NUMBER length L limit V";
    let segment = Segment {
        length: given(length, "length", form)?,
        limit: given(limit, "limit", form)?,
        next: next.unwrap_or_default(),
        previous: [0, 0],
        flags: flags.unwrap_or(entry.unwrap_or(0) | exit.unwrap_or(0)),
    };
    Ok((segment, previous))
}

fn route_line(words: &mut Words) -> Result<Vec<u8>, String> {
    let mut segments = vec![];
    while let Some(word) = words.take() {
        segments.push(number_8(word)?);
    }
    if segments.len() > ROUTE_SEGMENTS {
        return Err(format!("a route has {ROUTE_SEGMENTS} segments at the most, and {} are listed", segments.len()));
    }
    Ok(segments)
}

// ---- to a text

/// The text of an area, in columns, with lengths in decimetres or in metres.
pub fn written(tables: &Tables, metres: bool) -> String {
    let length = |length| length_text(length, metres);
    let mut text = format!("area  gmax {}  b {}  d {}\n", tables.gmax, tables.b, length(tables.d));
    let rows: Vec<[Cell; 6]> = (1..)
        .zip(&tables.segments)
        .map(|(number, segment)| {
            let from =
                if tables.usual_previous(number) == Some(segment.previous) { Cell::default() } else { links("from", segment.previous) };
            let to = if segment.next == [0, 0] { Cell::default() } else { links("to", segment.next) };
            let (number, limit) = (Cell::of("segment", number), Cell::of("limit", segment.limit));
            [number, Cell::of("length", length(segment.length)), limit, flags(segment.flags), to, from]
        })
        .collect();
    text += &table(&rows);
    let wide = tables.routes.len().to_string().len();
    let routes: Vec<String> = (1..).zip(&tables.routes).map(|(number, route)| route_text(number, wide, route)).collect();
    if !routes.is_empty() {
        text += "\n";
    }
    text + &routes.concat()
}

fn length_text(length: u32, metres: bool) -> String {
    match (metres, length / 10, length % 10) {
        (false, ..) => length.to_string(),
        (true, metres, 0) => format!("{metres} m"),
        (true, metres, tenth) => format!("{metres}.{tenth} m"),
    }
}

fn route_text(number: usize, wide: usize, route: &[u8]) -> String {
    let listed: String = route.iter().map(|segment| format!(" {segment}")).collect();
    format!("route {number:>wide$} {listed}").trim_end().to_string() + "\n"
}

/// A word, and a number that stands at the right of its column.
#[derive(Default)]
struct Cell {
    word: String,
    value: String,
}

impl Cell {
    fn of(word: &str, value: impl ToString) -> Cell {
        Cell { word: word.into(), value: value.to_string() }
    }

    fn word(word: impl Into<String>) -> Cell {
        Cell { word: word.into(), value: String::new() }
    }

    /// In a column whose widest cell has so many characters.
    fn padded(&self, wide: usize) -> String {
        match self.value.is_empty() {
            true => format!("{:wide$}", self.word),
            false => format!("{} {:>wide$}", self.word, self.value, wide = wide - self.word.len() - 1),
        }
    }

    fn len(&self) -> usize {
        self.word.len() + usize::from(!self.value.is_empty()) + self.value.len()
    }
}

fn flags(flags: u8) -> Cell {
    match flags {
        0 => Cell::default(),
        ENTRY => Cell::word("entry"),
        EXIT => Cell::word("exit"),
        3 => Cell::word("entry exit"),
        other => Cell::of("flags", other),
    }
}

fn links(word: &str, links: [u8; 2]) -> Cell {
    Cell::word(match links {
        [0, 0] => format!("{word} none"),
        [one, 0] => format!("{word} {one}"),
        [one, two] => format!("{word} {one} {two}"),
    })
}

/// Rows as lines: a column is as wide as its widest cell, and one in which nothing stands is left out.
fn table(rows: &[[Cell; 6]]) -> String {
    let wide: Vec<usize> = (0..6).map(|column| rows.iter().map(|row| row[column].len()).max().unwrap_or(0)).collect();
    let mut text = if rows.is_empty() { String::new() } else { "\n".into() };
    for row in rows {
        let cells = row.iter().zip(&wide).filter(|(_, wide)| **wide > 0).map(|(cell, wide)| cell.padded(*wide));
        text += cells.collect::<Vec<_>>().join("  ").trim_end();
        text += "\n";
    }
    text
}
