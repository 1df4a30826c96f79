//! Files: load's answer, the views of routes, and what a list and a start make of them.
use crate::{counted, fail, kept, loaded, same, same_bytes};
use reference::bounds::AT_BOUNDS;
use reference::breaks::{from_rule, BREAKS, PLACES};
use reference::random::{self, Random};
use reference::script::script_of;
use reference::*;

const FILES: u32 = 200_000;
const EACH_RULE: u64 = 500;
const EACH_EXTREME: u64 = 20;
const EACH_BOUND: u64 = 200;

/// Whether an area has an extreme.
type Has = fn(&Description) -> bool;

/// The extremes that an accepted area can have.
const EXTREMES: [(&str, Has); 16] = [
    ("1 segment", |a| a.segments.len() == 1),
    ("62 segments", |a| a.segments.len() == SEGMENTS.into()),
    ("1 route", |a| a.routes.len() == 1),
    ("30 routes", |a| a.routes.len() == ROUTES.into()),
    ("a route of 31", |a| a.routes.iter().any(|route| route.len() == ROUTE_SEGMENTS.into())),
    ("gmax 1", |a| a.gmax == 1),
    ("gmax 1000", |a| a.gmax == 1000),
    ("gmax 2000", |a| a.gmax == 2000),
    ("b 1", |a| a.b == 1),
    ("b = gmax", |a| a.b == a.gmax),
    ("d = S(gmax)", |a| u64::from(a.d) == s(a.b.into(), a.gmax.into())),
    ("the least length", |a| a.segments.iter().any(|segment| segment.length == shortest(a.gmax, a.d))),
    ("length 1,000,000", |a| a.segments.iter().any(|segment| segment.length == 1_000_000)),
    ("length 4,000,000, the greatest", |a| a.segments.iter().any(|segment| segment.length == 4_000_000)),
    ("the drop rule met with equality", |a| {
        a.segments.iter().any(|segment| segment.next_links().any(|next| a.segment(next).limit + a.b == segment.limit))
    }),
    ("a merge and a diverge", |a| {
        a.segments.iter().any(|segment| segment.previous[1] != 0) && a.segments.iter().any(|segment| segment.next[1] != 0)
    }),
];

/// What the files came to, for the counts.
struct Seen<'a> {
    seed: u64,
    kept: &'a mut kept::Seen,
    files: u32,
    rules: [u32; 11],
    views: u32,
    extremes: [u32; EXTREMES.len()],
    /// by break: first, middle and last place
    breaks: Vec<[u32; 3]>,
    bounds: [u64; AT_BOUNDS.len()],
    random: u32,
    random_beyond_3: u32,
}

pub fn compare(seed: u64, kept: &mut kept::Seen) {
    let mut random = Random::new(seed);
    let mut seen = Seen {
        seed,
        kept,
        files: 0,
        rules: [0; 11],
        views: 0,
        extremes: [0; EXTREMES.len()],
        breaks: vec![[0; 3]; BREAKS.len()],
        bounds: [0; AT_BOUNDS.len()],
        random: 0,
        random_beyond_3: 0,
    };
    while seen.files < FILES {
        let lively = random.one_in(4);
        let area = random::area(&mut random, lively);
        let whole = area.file();
        loaded(seed, &whole);
        seen.file(&mut random, &whole, "an area that meets the rules");
        for ((_, has), count) in EXTREMES.iter().zip(&mut seen.extremes) {
            *count += u32::from(has(&area));
        }
        seen.broken_alone(&mut random, &area, &whole);
        seen.broken_together(&mut random, &area, &whole);
        seen.random_bytes(&mut random, &whole);
    }
    seen.at_bounds(&mut random);
    seen.print();
}

impl Seen<'_> {
    /// One file: the number of its answer.
    fn file(&mut self, random: &mut Random, file: &[u8], what: &str) -> u8 {
        let answer @ (number, _) = answer_of(file);
        same(self.seed, what, rbu::bytes::load(file), answer);
        // of an accepted file the view of every route, of a refused one some number's
        let beyond = u16::from(ROUTES) + 1;
        let routes = match number {
            0 => (0..=beyond).chain([255, 256, 257, 65_535]).collect(),
            _ => vec![random.within(0, beyond.into()) as u16],
        };
        for route in routes {
            let view = route_view(file, route);
            same(self.seed, "the view", rbu::bytes::view(file, route), (route_view_start(file, route) as u32, view.len() as u32));
            self.views += u32::from(!view.is_empty());
        }
        match number {
            0 => _ = self.kept.start(file, &loaded(self.seed, file).record()),
            _ => self.refused(file, answer),
        }
        self.files += 1;
        self.rules[usize::from(number)] += 1;
        number
    }

    /// A refused file: no call is run, and the buffers are as they were; a start leaves the blank record.
    fn refused(&mut self, file: &[u8], answer: (u8, u16)) {
        let script = script_of(&[Call::Request, Call::Grant]);
        let (mut answers, mut state) = ([99; 4], [99; STATE_SIZE]);
        let run = rbu::bytes::run_file(file, &script, &mut answers, &mut state);
        same(self.seed, "a list from a refused file", run, (answer, 0));
        same(self.seed, "the answers after a refused file", answers, [99; 4]);
        same_bytes(self.seed, "the state after a refused file", &state, &[99; STATE_SIZE]);
        self.kept.refused_start(file, answer);
    }

    /// Each condition of rules 1 to 10 broken alone. The answer is its rule, not only the same from both.
    fn broken_alone(&mut self, random: &mut Random, area: &Description, whole: &[u8]) {
        for (k, one) in BREAKS.iter().enumerate() {
            for (at, &place) in PLACES.iter().enumerate() {
                let mut file = whole.to_vec();
                if !(one.change)(random, area, &mut file, place) {
                    continue;
                }
                if one.rule > 2 {
                    put_checks(&mut file);
                }
                let answer = self.file(random, &file, one.name);
                if answer != one.rule {
                    fail(format_args!("rule {}, {}: the answer is {answer} (seed {})", one.rule, one.name, self.seed));
                }
                self.breaks[k][at] += 1;
            }
        }
    }

    /// Each bound of `gmax`, `d` and lengths, and one past it. The answer is the one that is known, not only the same from both.
    fn at_bounds(&mut self, random: &mut Random) {
        for (k, bound) in AT_BOUNDS.iter().enumerate() {
            for _ in 0..EACH_BOUND {
                let (area, [right, _]) = bound.made(random);
                let file = area.file();
                self.file(random, &file, bound.name);
                same(self.seed, bound.name, rbu::bytes::load(&file), right);
                self.bounds[k] += 1;
            }
        }
    }

    fn broken_together(&mut self, random: &mut Random, area: &Description, whole: &[u8]) {
        for _ in 0..10 {
            let mut file = whole.to_vec();
            for _ in 0..random.within(2, 5) {
                let one = random.of(from_rule(3));
                let place = *random.of(&PLACES);
                (one.change)(random, area, &mut file, place);
            }
            put_checks(&mut file);
            self.file(random, &file, "several rules broken");
        }
    }

    /// Random bytes with right checks: some in an area's file, and whole files of them.
    fn random_bytes(&mut self, random: &mut Random, whole: &[u8]) {
        for _ in 0..3 {
            let mut file = whole.to_vec();
            for _ in 0..random.within(1, 4) {
                let at = random.within(0, FILE_SIZE as u64 - 1) as usize;
                file[at] = random.draw() as u8;
            }
            put_checks(&mut file);
            self.file(random, &file, "random bytes in an area's file");
        }
        for tails in [false, true] {
            let mut file: Vec<u8> = (0..FILE_SIZE).map(|_| random.draw() as u8).collect();
            if tails {
                put_tails(random, &mut file, whole);
            }
            put_checks(&mut file);
            let answer = self.file(random, &file, "a file of random bytes");
            self.random += 1;
            self.random_beyond_3 += u32::from(answer > 3);
        }
    }

    fn print(&self) {
        println!("files: {} compared, and views of routes, {} of them not empty", self.files, self.views);
        for (rule, &count) in self.rules.iter().enumerate() {
            counted(format_args!("files: answer {rule}"), count, EACH_RULE);
        }
        for ((name, _), count) in EXTREMES.iter().zip(self.extremes) {
            counted(format_args!("files: accepted, {name}"), count, EACH_EXTREME);
        }
        for (bound, count) in AT_BOUNDS.iter().zip(self.bounds) {
            println!("files: {}, answer {}: {count}", bound.name, bound.answers[0]);
        }
        for (one, hits) in BREAKS.iter().zip(&self.breaks) {
            println!("files: rule {}, {}: first {}, middle {}, last {}", one.rule, one.name, hits[0], hits[1], hits[2]);
            if hits.contains(&0) {
                fail("it was never broken at one of these places");
            }
        }
        counted("files: of random bytes", self.random, 1);
        counted("files: of random bytes, answered beyond rule 3", self.random_beyond_3, 1);
    }
}

/// The area's header and tails, without which rule 3 ends it all, and some of its other blocks: one at the least stays random.
fn put_tails(random: &mut Random, file: &mut [u8], whole: &[u8]) {
    let stays = random.within(1, BLOCKS as u64 - 1) as usize;
    for number in 0..BLOCKS {
        let start = BLOCK_SIZE * number;
        let tail = start + if number < 3 { KIND_AT } else { ROUTE_BLOCK_ZEROS.start };
        let right = number == 0 || (number != stays && random.one_in(2));
        let part = if right { start } else { tail }..start + BLOCK_SIZE;
        file[part.clone()].copy_from_slice(&whole[part]);
    }
}
