//! What is wrong with an area file, in words: every fault of every rule of docs/RULES.md, and what is odd about an accepted one. The
//! core decides and this only explains: the first fault is the core's answer, and there is none exactly if the core accepts.
//!
//! A rule is left out only where what it reads is not there. After rule 1 that is every other rule; rule 5 where `b` is 0; 6 to 10 where
//! N is out of its bounds, and 10 where R is. A link above N is a fault of rule 6 alone: the segment that was meant is not told, so
//! that neither rule 7 nor the steps of routes miss a link where it may be this one. Of a route with a wrong count no place is tested, and
//! of a place that lists no segment no step to it or from it.
use crate::layout::*;
use crate::tables::{Segment, Tables};
use rbu::{braking_distance, FASTEST, FILE_SIZE, LONGEST, ROUTES, SEGMENTS};
use std::ops::Range;

// ---- places

/// Where the area was read: decides how a place is told.
#[derive(Clone, PartialEq, Eq, Debug)]
pub enum Source {
    File,
    Text(Lines),
}

/// The lines of a text: of `area`, and of each segment and route by number (index n - 1).
#[derive(Clone, PartialEq, Eq, Debug, Default)]
pub struct Lines {
    pub area: usize,
    pub segments: Vec<usize>,
    pub routes: Vec<usize>,
}

impl Source {
    /// Where a field or a record is, by its bytes in the file: these, or the line of the text that spells it. What no line spells is
    /// told by its bytes.
    pub fn at(&self, bytes: Range<usize>) -> String {
        let line = match self {
            Source::File => None,
            Source::Text(lines) => lines.spelling(bytes.start),
        };
        line.map_or_else(|| bytes_text(&bytes), |line| format!("line {line}"))
    }
}

impl Lines {
    /// The line that spells the field or the record which has this byte.
    fn spelling(&self, byte: usize) -> Option<usize> {
        if byte < HEADER_ZEROS.start {
            return Some(self.area);
        }
        let segment = (1..).zip(&self.segments).find(|&(number, _)| segment_bytes(number).contains(&byte));
        let route = (1..).zip(&self.routes).find(|&(number, _)| route_bytes(number).contains(&byte));
        segment.or(route).map(|(_, &line)| line)
    }
}

fn bytes_text(bytes: &Range<usize>) -> String {
    match bytes.len() {
        0 | 1 => format!("byte {}", bytes.start),
        _ => format!("bytes {}-{}", bytes.start, bytes.end - 1),
    }
}

fn segment_bytes(number: usize) -> Range<usize> {
    segment_at(number)..segment_at(number) + SEGMENT_SIZE
}

fn route_bytes(number: usize) -> Range<usize> {
    route_at(number)..route_at(number) + ROUTE_SIZE
}

// ---- faults

/// A broken rule and its place, as the core numbers them, and in words, which have no line end.
#[derive(Clone, PartialEq, Eq, Debug)]
pub struct Fault {
    pub number: u8,
    pub place: u16,
    pub what: String,
}

/// All faults of a file, by rule and then by place.
pub fn faults(file: &[u8], source: &Source) -> Vec<Fault> {
    let Ok(whole) = <&[u8; FILE_SIZE]>::try_from(file) else {
        return vec![Fault { number: 1, place: 0, what: size(file.len()) }];
    };
    let mut teller = Teller { file: whole, source, tables: Tables::of_file(whole), found: vec![] };
    teller.checks();
    teller.tails();
    teller.header();
    teller.margin();
    if (1..=SEGMENTS).contains(&teller.n()) {
        teller.segments();
        teller.joints();
        teller.order();
        teller.drops();
        if (1..=ROUTES).contains(&teller.r()) {
            teller.routes();
        }
    }
    teller.found
}

/// Rule 1. Of a longer file the caller has read one byte too many, and no more.
fn size(bytes: usize) -> String {
    let has = match bytes {
        0 => "is empty".to_string(),
        1 => "has 1 byte".to_string(),
        _ if bytes > FILE_SIZE => format!("has more than {FILE_SIZE} bytes"),
        _ => format!("has {bytes} bytes"),
    };
    format!("the file {has}; an area file has {FILE_SIZE} bytes")
}

/// What a block is called.
fn block_text(number: usize) -> String {
    let holds = ["the header", "segments 1 to 31", "segments 32 to 62", "routes 1 to 15", "routes 16 to 30"];
    format!("block {number} ({})", holds[number])
}

/// What is said of bytes that must be zero: of each run of neighbours that are not.
fn zeros(file: &[u8], bytes: Range<usize>) -> Vec<String> {
    let (mut told, mut at) = (vec![], bytes.start);
    for run in file[bytes].split(|&byte| byte == 0) {
        if !run.is_empty() {
            let verb = if run.len() == 1 { "is" } else { "are" };
            told.push(format!("{} must be zero and {verb} {}", bytes_text(&(at..at + run.len())), values(run)));
        }
        at += run.len() + 1;
    }
    told
}

/// Values of bytes; of many the first few, and how many there are.
fn values(bytes: &[u8]) -> String {
    const SHOWN: usize = 8;
    let shown: Vec<String> = bytes.iter().take(SHOWN).map(u8::to_string).collect();
    let more = if bytes.len() > SHOWN { format!(" .. ({} bytes)", bytes.len()) } else { String::new() };
    shown.join(" ") + &more
}

/// The two next or the two previous links of a segment.
#[derive(Clone, Copy)]
struct Links {
    word: &'static str,
    /// their first byte
    at: usize,
    links: [u8; 2],
}

impl Links {
    /// The links that are to be tested, with their bytes: one that is said twice is tested once.
    fn once(self) -> impl Iterator<Item = (usize, usize)> {
        let [one, two] = self.links;
        let second = if two == one { 0 } else { two };
        [(self.at, one.into()), (self.at + 1, second.into())].into_iter().filter(|&(_, link)| link != 0)
    }

    fn lead_to(self, segment: usize) -> bool {
        self.links.iter().any(|&link| usize::from(link) == segment)
    }
}

/// Goes through a file rule by rule.
struct Teller<'a> {
    file: &'a [u8; FILE_SIZE],
    source: &'a Source,
    /// what the file spells; routes are read from the file, since their counts may be wrong
    tables: Tables,
    found: Vec<Fault>,
}

impl Teller<'_> {
    fn say(&mut self, number: u8, place: usize, what: String) {
        self.found.push(Fault { number, place: place as u16, what });
    }

    /// N and R as they are stored; the tables have no more than there is room for.
    fn n(&self) -> usize {
        self.file[N_AT].into()
    }

    fn r(&self) -> usize {
        self.file[R_AT].into()
    }

    fn at(&self, first: usize, size: usize) -> String {
        self.source.at(first..first + size)
    }

    /// Rule 2.
    fn checks(&mut self) {
        for (number, block) in self.file.chunks_exact(BLOCK_SIZE).enumerate() {
            let (stored, sums) = (&block[CHECK_AT..], check_of(block));
            if stored != sums {
                let start = BLOCK_SIZE * number;
                let (summed, check) = (bytes_text(&(start..start + CHECK_AT)), bytes_text(&(start + CHECK_AT..start + BLOCK_SIZE)));
                let what = format!("its check is {} ({check}), and its {summed} sum to {}", values(stored), values(&sums));
                self.say(2, number, format!("{}: {what}", block_text(number)));
            }
        }
    }

    /// Rule 3.
    fn tails(&mut self) {
        for (number, kind) in KINDS.into_iter().enumerate() {
            let start = BLOCK_SIZE * number;
            let mut wrong = vec![];
            // a block of routes
            if number >= 3 {
                wrong.extend(zeros(self.file, start + ROUTE_BLOCK_ZEROS.start..start + ROUTE_BLOCK_ZEROS.end));
            }
            for (field, at, right) in [("kind", start + KIND_AT, kind), ("number", start + NUMBER_AT, number as u8)] {
                let stored = self.file[at];
                if stored != right {
                    wrong.push(format!("its {field} is {stored} (byte {at}); it must be {right}"));
                }
            }
            wrong.extend(zeros(self.file, start + TAIL_ZEROS.start..start + TAIL_ZEROS.end));
            for what in wrong {
                self.say(3, number, format!("{}: {what}", block_text(number)));
            }
        }
    }

    /// Rule 4.
    fn header(&mut self) {
        let (version, n, r, gmax, b, d) = (self.file[VERSION_AT], self.n(), self.r(), self.tables.gmax, self.tables.b, self.tables.d);
        let mut wrong = vec![];
        if version != VERSION {
            wrong.push(format!("the version is {version} ({}); it must be {VERSION}", self.at(VERSION_AT, 1)));
        }
        for (thing, many, at, most) in [("segment", n, N_AT, SEGMENTS), ("route", r, R_AT, ROUTES)] {
            if many == 0 && matches!(self.source, Source::Text(_)) {
                wrong.push(format!("there is no {thing} line; there must be 1 to {most}"));
            } else if many == 0 || many > most {
                wrong.push(format!("the number of {thing}s is {many} ({}); it must be 1 to {most}", self.at(at, 1)));
            }
        }
        wrong.extend(zeros(self.file, ZERO_AT..ZERO_AT + 1));
        if gmax == 0 || gmax > FASTEST {
            wrong.push(format!("gmax, the top speed, is {gmax} ({}); it must be 1 to {FASTEST}", self.at(GMAX_AT, 2)));
        }
        if b == 0 || b > gmax {
            let at = self.at(B_AT, 2);
            wrong.push(format!("b, the speed lost by one cycle of braking, is {b} ({at}); it must be 1 to gmax, which is {gmax}"));
        }
        if d == 0 || d > LONGEST {
            wrong.push(format!("d, the end distance, is {d} ({}); it must be 1 to {LONGEST}", self.at(D_AT, 4)));
        }
        wrong.extend(zeros(self.file, HEADER_ZEROS));
        for what in wrong {
            self.say(4, 0, what);
        }
    }

    /// Rule 5.
    fn margin(&mut self) {
        let Tables { gmax, b, d, .. } = self.tables;
        // 0 where b is 0, so that nothing is said then
        let way = braking_distance(b, gmax);
        if d < way {
            let at = self.at(D_AT, 4);
            let why = format!("a train at gmax = {gmax}, braking by b = {b} a cycle, runs S({gmax}) = {way} until it stands");
            self.say(5, 0, format!("d, the end distance, is {d} ({at}); it must be at least {way}: {why}"));
        }
    }

    /// Rule 6.
    fn segments(&mut self) {
        let n = self.n();
        for s in 1..=n {
            let mut wrong = self.length_and_limit(s);
            wrong.extend(self.own_links(self.next(s)));
            wrong.extend(self.own_links(self.previous(s)));
            let (at, flags) = (segment_at(s), self.segment(s).flags);
            if flags > ENTRY | EXIT {
                let bound = "they must be 0 to 3 (1 entry, 2 exit, 3 both)";
                wrong.push(format!("its flags are {flags} ({}); {bound}", self.at(at + FLAGS_AT, 1)));
            }
            wrong.extend(zeros(self.file, at + SEGMENT_ZEROS.start..at + SEGMENT_ZEROS.end));
            for what in wrong {
                self.say(6, s, format!("segment {s}: {what}"));
            }
        }
        for s in n + 1..=SEGMENTS {
            for what in zeros(self.file, segment_bytes(s)) {
                self.say(6, s, format!("segment {s}: {what}, since the number of segments is {n} ({})", self.at(N_AT, 1)));
            }
        }
    }

    fn length_and_limit(&self, s: usize) -> Vec<String> {
        let (gmax, d, Segment { length, limit, .. }) = (self.tables.gmax, self.tables.d, *self.segment(s));
        let length_is = || format!("its length is {length} ({})", self.at(segment_at(s) + LENGTH_AT, 4));
        let mut wrong = vec![];
        // any d may stand here, so the sum may take more than 32 bits
        let sum = u64::from(d) + u64::from(gmax);
        if u64::from(length) <= sum {
            let none = if sum >= LONGEST.into() { format!(", which none can be, since the most is {LONGEST}") } else { String::new() };
            wrong.push(format!("{}; it must be above d + gmax = {d} + {gmax} = {sum}{none}", length_is()));
        }
        if length > LONGEST {
            wrong.push(format!("{}; it must be at most {LONGEST}", length_is()));
        }
        if limit == 0 || limit > gmax {
            let at = self.at(segment_at(s) + LIMIT_AT, 2);
            wrong.push(format!("its limit is {limit} ({at}); it must be 1 to gmax, which is {gmax}"));
        }
        wrong
    }

    /// What rule 6 says of two links.
    fn own_links(&self, links: Links) -> Vec<String> {
        let (n, Links { word, at, links: [one, two] }) = (self.n(), links);
        let mut wrong = vec![];
        for (byte, link) in links.once().filter(|&(_, link)| link > n) {
            let which = if byte == at { "first" } else { "second" };
            wrong.push(format!("its {which} {word} link is {link} ({}); it must be at most {n}, the number of segments", self.at(byte, 1)));
        }
        if two != 0 && (one == 0 || one == two) {
            let rule = if one == 0 { "a single link must be the first" } else { "the second must be another one, or 0" };
            wrong.push(format!("its {word} links are {one} and {two} ({}); {rule}", self.at(at, 2)));
        }
        wrong
    }

    // what 7 to 10 read: segments 1 to N, and their links to such

    fn segment(&self, s: usize) -> &Segment {
        &self.tables.segments[s - 1]
    }

    fn next(&self, s: usize) -> Links {
        Links { word: "next", at: segment_at(s) + NEXT_AT, links: self.segment(s).next }
    }

    fn previous(&self, s: usize) -> Links {
        Links { word: "previous", at: segment_at(s) + PREVIOUS_AT, links: self.segment(s).previous }
    }

    /// The next links of all segments that lead to a segment: from, the link's byte, to.
    fn all_next(&self) -> Vec<(usize, usize, usize)> {
        let of = |s| self.next(s).once().map(move |(byte, to)| (s, byte, to));
        (1..=self.n()).flat_map(of).filter(|&(_, _, to)| to <= self.n()).collect()
    }

    /// That a segment has only these links, none to the other.
    fn only(&self, s: usize, links: Links, other: usize) -> String {
        let (Links { word, at, links: [one, two] }, none) = (links, format!("none to {other}"));
        let at = self.at(at, 2);
        match (one, two) {
            (0, 0) => format!("segment {s} has no {word} link ({at})"),
            (_, 0) => format!("segment {s} has the {word} link {one} ({at}), {none}"),
            _ => format!("segment {s} has the {word} links {one} and {two} ({at}), {none}"),
        }
    }

    /// A segment lacks a link to another that has one back, or to which a route goes on from it. Where as many links of it lead to no
    /// segment as are missing, these may be the ones that were meant.
    fn is_missing(&self, s: usize, links: fn(&Self, usize) -> Links, other: usize) -> bool {
        let own = links(self, s);
        if own.lead_to(other) {
            return false;
        }
        let nowhere = own.once().filter(|&(_, link)| link > self.n()).count();
        nowhere == 0 || (1..=self.n()).filter(|&other| !own.lead_to(other) && self.is_linked(s, own.word, other)).count() > nowhere
    }

    /// Another segment has a link back to this one, or a route goes on to it from here.
    fn is_linked(&self, s: usize, word: &str, other: usize) -> bool {
        match word {
            "next" => self.previous(other).lead_to(s) || self.tables.routes.iter().any(|route| goes(route, s, other)),
            _ => self.next(other).lead_to(s),
        }
    }

    /// Rule 7.
    fn joints(&mut self) {
        for s in 1..=self.n() {
            let mut wrong = self.unmatched(s, self.next(s), Self::previous);
            wrong.extend(self.unmatched(s, self.previous(s), Self::next));
            for what in wrong {
                self.say(7, s, what);
            }
        }
    }

    /// The links of a segment that the links back, of those that they lead to, do not match.
    fn unmatched(&self, s: usize, links: Links, back: fn(&Self, usize) -> Links) -> Vec<String> {
        let (n, word) = (self.n(), links.word);
        let unmatched = links.once().filter(|&(_, to)| to <= n && self.is_missing(to, back, s));
        let told = |(byte, to)| {
            let (at, only) = (self.at(byte, 1), self.only(to, back(self, to), s));
            format!("segment {s}: it has a {word} link to segment {to} ({at}), and {only}")
        };
        unmatched.map(told).collect()
    }

    /// Rule 8.
    fn order(&mut self) {
        for (s, byte, to) in self.all_next() {
            if to <= s {
                let at = self.at(byte, 1);
                self.say(8, s, format!("segment {s}: it has a next link to segment {to} ({at}); a next link must lead to a higher number"));
            }
        }
    }

    /// Rule 9.
    fn drops(&mut self) {
        let b = u32::from(self.tables.b);
        for (s, _, to) in self.all_next() {
            let (own, its) = (u32::from(self.segment(s).limit), u32::from(self.segment(to).limit));
            if own > its + b {
                let (at, its_at) = (self.at(segment_at(s) + LIMIT_AT, 2), self.at(segment_at(to) + LIMIT_AT, 2));
                let less = format!("{} less, and one cycle of braking takes b = {b}", own - its);
                self.say(9, s, format!("segment {s}: its limit is {own} ({at}), and its next, segment {to}, has {its} ({its_at}): {less}"));
            }
        }
    }

    /// Rule 10.
    fn routes(&mut self) {
        let r = self.r();
        for route in 1..=r {
            for what in self.route(route_at(route)) {
                self.say(10, route, format!("route {route}: {what}"));
            }
        }
        for route in r + 1..=ROUTES {
            for what in zeros(self.file, route_bytes(route)) {
                self.say(10, route, format!("route {route}: {what}, since the number of routes is {r} ({})", self.at(R_AT, 1)));
            }
        }
    }

    /// What is wrong with the route whose record starts at a byte.
    fn route(&self, start: usize) -> Vec<String> {
        let count = usize::from(self.file[start]);
        let has = || format!("the number of its segments is {count} ({})", self.at(start, 1));
        if count == 0 || count > ROUTE_SEGMENTS {
            return vec![format!("{}; it must be 1 to {ROUTE_SEGMENTS}", has())];
        }
        let places = (1..=count).filter_map(|place| self.place(start, place));
        let rest = zeros(self.file, start + 1 + count..start + ROUTE_SIZE).into_iter().map(|what| format!("{what}, since {}", has()));
        places.chain(rest).collect()
    }

    /// What is wrong at a place of it: what it lists, or the step to it.
    fn place(&self, start: usize, place: usize) -> Option<String> {
        let (n, at) = (self.n(), || self.at(start + place, 1));
        let (before, here) = (usize::from(self.file[start + place - 1]), usize::from(self.file[start + place]));
        if here == 0 || here > n {
            return Some(format!("at place {place} it lists {here} ({}); it must be a segment, 1 to {n}", at()));
        }
        // before place 1 stands the count
        if place == 1 || before == 0 || before > n || !self.is_missing(before, Self::next, here) {
            return None;
        }
        let only = self.only(before, self.next(before), here);
        Some(format!("at place {place} it goes on from segment {before} to segment {here} ({}), and {only}", at()))
    }
}

/// A route goes on from one segment to the other.
fn goes(route: &[u8], from: usize, to: usize) -> bool {
    route.windows(2).any(|step| (usize::from(step[0]), usize::from(step[1])) == (from, to))
}

// ---- warnings

/// What is odd about an accepted area: nobody wants it, and the core takes it.
pub fn warnings(tables: &Tables, source: &Source) -> Vec<String> {
    let mut told = vec![];
    if !tables.segments.iter().any(Segment::is_entry) {
        told.push("no segment is an entry: no train can enter".to_string());
    }
    told.extend((1..).zip(&tables.routes).flat_map(|(number, route)| ends(tables, source, number, route)));
    told.extend(unused(tables, source));
    told.extend(equal(tables, source));
    told
}

fn route_text(source: &Source, number: usize) -> String {
    format!("route {number} ({})", source.at(route_bytes(number)))
}

/// Whether trains can enter on a route, and leave from it.
fn ends(tables: &Tables, source: &Source, number: usize, route: &[u8]) -> Vec<String> {
    let name = || route_text(source, number);
    let segment = |s: u8| tables.segments.get(usize::from(s).wrapping_sub(1)).copied().unwrap_or_default();
    let mut told = vec![];
    if let Some(first) = route.first().filter(|first| !segment(**first).is_entry()) {
        told.push(format!("{} starts at segment {first}, which is no entry: no train can enter on it", name()));
    }
    if let Some(last) = route.last().filter(|last| !segment(**last).is_exit()) {
        told.push(format!("{} ends at segment {last}, which is no exit: no train can leave from it", name()));
    }
    told
}

/// The segments on no route.
fn unused(tables: &Tables, source: &Source) -> Option<String> {
    let on_none = |s: &usize| !tables.routes.iter().flatten().any(|&listed| usize::from(listed) == *s);
    let numbers: Vec<usize> = (1..=tables.segments.len()).filter(on_none).collect();
    match numbers[..] {
        [] => None,
        [s] => Some(format!("segment {s} ({}) is on no route: no train can run on it", source.at(segment_bytes(s)))),
        _ => {
            let listed: Vec<String> = numbers.iter().map(usize::to_string).collect();
            Some(format!("segments {} are on no route: no train can run on them", listed.join(", ")))
        }
    }
}

/// Each route that is equal to one before it, with the first such.
fn equal(tables: &Tables, source: &Source) -> Vec<String> {
    let routes = || (1..).zip(&tables.routes);
    let before = |number: usize, route: &[u8]| routes().take(number - 1).find(|(_, other)| **other == route).map(|(first, _)| first);
    let told = |first, second| format!("{} and {} list the same segments", route_text(source, first), route_text(source, second));
    routes().filter_map(|(number, route)| before(number, route).map(|first| told(first, number))).collect()
}
