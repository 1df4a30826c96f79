//! Random areas and lists of calls for the comparison: seeded, so that every run is the same.

use crate::area::Call;
use crate::braking::s;
use crate::numbers::{Bounds, LAST_COUNT, LONGEST, LONGEST_TRAIN, ROUTES, ROUTE_SEGMENTS, SEGMENTS, TOP_SPEED, TRAINS, WISHES};
use crate::record::{RawTrain, Record, GRANT, POSITION, REQUEST, SPEED};
use crate::tables::{Segment, ENTRY, EXIT};
use crate::write::{links_ahead, shortest, Description, Links};

pub struct Random(u64);

impl Random {
    pub fn new(seed: u64) -> Random {
        Random(seed)
    }

    pub fn draw(&mut self) -> u64 {
        self.0 = self.0.wrapping_add(0x9e37_79b9_7f4a_7c15);
        let mut z = self.0;
        z = (z ^ (z >> 30)).wrapping_mul(0xbf58_476d_1ce4_e5b9);
        z = (z ^ (z >> 27)).wrapping_mul(0x94d0_49bb_1331_11eb);
        z ^ (z >> 31)
    }

    /// One of low to high, both included.
    pub fn within(&mut self, low: u64, high: u64) -> u64 {
        low + self.draw() % (high - low + 1)
    }

    /// As `within`, but one time in four an end.
    pub fn edgy(&mut self, low: u64, high: u64) -> u64 {
        match self.draw() % 8 {
            0 => low,
            1 => high,
            _ => self.within(low, high),
        }
    }

    pub fn one_in(&mut self, n: u64) -> bool {
        self.draw().is_multiple_of(n)
    }

    pub fn of<'a, T>(&mut self, list: &'a [T]) -> &'a T {
        &list[self.draw() as usize % list.len()]
    }

    /// A list in any order.
    pub fn mixed<T>(&mut self, mut list: Vec<T>) -> Vec<T> {
        for k in (1..list.len()).rev() {
            list.swap(k, self.within(0, k as u64) as usize);
        }
        list
    }
}

/// A train's count: any, and often one where its bytes, its sign or its end turn.
pub fn count(random: &mut Random) -> u16 {
    match random.draw() % 4 {
        0 => 0,
        1 => random.within(1, 9) as u16,
        2 => *random.of(&[255, 256, 32_767, 32_768, LAST_COUNT - 1, LAST_COUNT]),
        _ => random.draw() as u16,
    }
}

/// A train's length, 1 to 20,000, for a route with segments of these lengths: short ones, the longest, and those about a segment's length
/// and about the whole route's.
pub fn length(random: &mut Random, segments: &[u32]) -> u16 {
    let about = |random: &mut Random, length: u64| length + random.within(0, 2) - 1;
    let length = match random.draw() % 8 {
        0 | 1 => 1,
        2 => LONGEST_TRAIN.into(),
        3 | 4 => {
            let segment = *random.of(segments);
            about(random, segment.into())
        }
        5 => about(random, segments.iter().map(|&length| u64::from(length)).sum()),
        _ => random.edgy(1, LONGEST_TRAIN.into()),
    };
    length.min(LONGEST_TRAIN.into()) as u16
}

/// A length that no train has.
pub fn wrong_length(random: &mut Random) -> u16 {
    match random.draw() % 2 {
        0 => *random.of(&[0, LONGEST_TRAIN + 1, 32_768, 65_535]),
        _ => random.edgy(u64::from(LONGEST_TRAIN) + 1, 65_535) as u16,
    }
}

/// `gmax`, `b` and `d` of an area.
pub type Speeds = (u16, u16, u32);

/// The bounds in force or those of document 01, so that areas at the bounds of both are drawn.
fn bounds(random: &mut Random) -> Bounds {
    *random.of(&[Bounds::DOCUMENT_01, Bounds::DOCUMENT_02])
}

/// Speeds that leave room for lengths.
fn speeds(random: &mut Random, bounds: &Bounds, lively: bool) -> Speeds {
    let gmax = random.edgy(1, bounds.top_speed.into()) as u16;
    speeds_to(random, gmax, bounds.longest, lively)
}

/// The same with this `gmax`; `d` is S(gmax) exactly one time in two. `lively`: few cycles a segment.
pub(crate) fn speeds_to(random: &mut Random, gmax: u16, longest: u32, lively: bool) -> Speeds {
    let b = if lively { random.within(u64::from(gmax).div_ceil(3), gmax.into()) } else { random.edgy(1, gmax.into()) } as u16;
    // with either bounds there is room for any S(gmax)
    let (least, highest) = (s(b.into(), gmax.into()), greatest_d(gmax, longest).into());
    let d = if lively || random.one_in(2) { least } else { random.edgy(least, highest) };
    (gmax, b, d as u32)
}

/// The greatest `d` that a length is left for, "above `d` + `gmax`".
fn greatest_d(gmax: u16, longest: u32) -> u32 {
    longest - u32::from(gmax) - 1
}

/// Links that rise, two of each kind a segment at the most. One time in four a chain, with links over one segment: long routes.
fn links(random: &mut Random, n: usize) -> Links {
    let mut next = vec![[0u8; 2]; n];
    let mut previous = vec![[0u8; 2]; n];
    let mut link = |from: usize, to: usize| {
        let free = |links: &[u8; 2]| links.iter().position(|&link| link == 0);
        if let (Some(i), Some(j)) = (free(&next[from]), free(&previous[to])) {
            if next[from][0] != to as u8 + 1 {
                next[from][i] = to as u8 + 1;
                previous[to][j] = from as u8 + 1;
            }
        }
    };
    let chain = random.one_in(4);
    for from in 0..n - 1 {
        if chain {
            link(from, from + 1);
            if random.one_in(2) {
                link(from, (from + 2).min(n - 1));
            }
            continue;
        }
        for _ in 0..random.within(0, 2) {
            // near ahead for the most part
            let far = if random.one_in(3) { n - 1 } else { (from + 3).min(n - 1) };
            link(from, random.within(from as u64 + 1, far as u64) as usize);
        }
    }
    (next, previous)
}

/// An area that meets every rule.
pub fn area(random: &mut Random, lively: bool) -> Description {
    let bounds = bounds(random);
    let speeds = speeds(random, &bounds, lively);
    area_with(random, speeds, bounds.longest, lively)
}

/// The same with these speeds, and lengths up to this one.
pub(crate) fn area_with(random: &mut Random, (gmax, b, d): Speeds, longest: u32, lively: bool) -> Description {
    let n = random.edgy(1, SEGMENTS.into()) as usize;
    let links = links(random, n);
    let limits = limits(random, gmax, b, &links.0);
    let lengths = lengths(random, shortest(gmax, d), longest, n, lively);
    let segments = segments(&lengths, &limits, links, || if lively { ENTRY | EXIT } else { random.within(0, 3) as u8 });
    let routes = (0..random.edgy(1, ROUTES.into())).map(|_| route(random, &segments)).collect();
    Description { gmax, b, d, segments, routes }
}

/// An area in which trains meet: each segment leads to the two after it, so that all but the first two are merges; it is lively, and has
/// many routes.
pub fn merges(random: &mut Random) -> Description {
    let bounds = bounds(random);
    let speeds @ (gmax, _, d) = speeds(random, &bounds, true);
    let n = random.within(5, SEGMENTS.into()) as u8;
    let lengths = lengths(random, shortest(gmax, d), bounds.longest, n.into(), true);
    // none so low that trains creep
    line(random, speeds, gmax.div_ceil(2), &lengths, ROUTES)
}

/// An area in which trains lie over many segments and routes may be shorter than trains: as `merges`, but with short segments, and fewer of
/// them.
pub fn short_segments(random: &mut Random) -> Description {
    let gmax = random.within(1, 600) as u16;
    let speeds @ (_, _, d) = speeds_to(random, gmax, LONGEST, true);
    let n = random.within(3, 24) as usize;
    let lengths = lengths(random, shortest(gmax, d), LONGEST, n, true);
    line(random, speeds, gmax.div_ceil(2), &lengths, ROUTES)
}

/// An area of a faster line: `gmax` is above document 01's bound, one time in two the greatest, and every limit too. `b` is 1 for the
/// most part, and lengths go up to the greatest.
pub fn faster(random: &mut Random) -> Description {
    let above = Bounds::DOCUMENT_01.top_speed + 1;
    let gmax = if random.one_in(2) { TOP_SPEED } else { random.edgy(above.into(), TOP_SPEED.into()) as u16 };
    let b = if random.one_in(4) { random.within(1, gmax.into()) as u16 } else { 1 };
    let (least, highest) = (s(b.into(), gmax.into()), greatest_d(gmax, LONGEST).into());
    let d = if random.one_in(4) { random.edgy(least, highest) } else { least } as u32;
    // longer than document 01 allows: none by much, or up to the greatest, which one has
    let shortest = shortest(gmax, d).max(Bounds::DOCUMENT_01.longest + 1);
    let (n, lively) = (random.within(3, 8) as usize, random.one_in(2));
    let mut lengths = lengths(random, shortest, LONGEST, n, lively);
    if !lively {
        lengths[random.within(0, n as u64 - 1) as usize] = LONGEST;
    }
    line(random, (gmax, b, d), above, &lengths, 6)
}

/// An area in which each segment leads to the two after it, with limits from `lowest` to `gmax`, and so many routes.
fn line(random: &mut Random, (gmax, b, d): Speeds, lowest: u16, lengths: &[u32], routes: u8) -> Description {
    let n = lengths.len() as u8;
    // no two so far apart that the drop rule is broken
    let lowest = lowest.max(gmax - b);
    let limits: Vec<u16> = lengths.iter().map(|_| random.edgy(lowest.into(), gmax.into()) as u16).collect();
    let segments = segments(lengths, &limits, links_ahead(n), || ENTRY | EXIT);
    let mut listed = vec![];
    for _ in 0..routes {
        let first = random.within(1, u64::from(n) - 1) as u8;
        let longest = random.within(2, ROUTE_SEGMENTS.into()) as usize;
        listed.push(walk_on(random, &segments, vec![first], longest));
    }
    Description { gmax, b, d, segments, routes: listed }
}

/// Limits that meet the drop rule.
fn limits(random: &mut Random, gmax: u16, b: u16, next: &[[u8; 2]]) -> Vec<u16> {
    let mut limits = vec![0u16; next.len()];
    for s in (0..next.len()).rev() {
        let after = next[s].iter().filter(|&&link| link != 0).map(|&link| limits[usize::from(link) - 1] + b).min();
        let highest = after.unwrap_or(gmax).min(gmax);
        // the drop rule met with equality often
        limits[s] = if random.one_in(2) { highest } else { random.edgy(1, highest.into()) as u16 };
    }
    limits
}

/// So many lengths. `lively`: none much above the shortest.
fn lengths(random: &mut Random, shortest: u32, longest: u32, n: usize, lively: bool) -> Vec<u32> {
    let (low, high) = (shortest.into(), longest.into());
    let length = |random: &mut Random| match lively {
        true => random.within(low, (low + low / 4).min(high)),
        false => random.edgy(low, high),
    };
    (0..n).map(|_| length(random) as u32).collect()
}

/// Segments with these lengths, limits and links.
fn segments(lengths: &[u32], limits: &[u16], (next, previous): Links, mut flags: impl FnMut() -> u8) -> Vec<Segment> {
    (0..lengths.len())
        .map(|k| Segment { length: lengths[k], limit: limits[k], next: next[k], previous: previous[k], flags: flags() })
        .collect()
}

/// A walk along next links.
fn route(random: &mut Random, segments: &[Segment]) -> Vec<u8> {
    let first = random.edgy(1, segments.len() as u64) as u8;
    let longest = random.edgy(1, ROUTE_SEGMENTS.into()) as usize;
    walk_on(random, segments, vec![first], longest)
}

/// A route walked on along next links as far as they go, to `longest` segments at the most.
pub fn walk_on(random: &mut Random, segments: &[Segment], mut route: Vec<u8>, longest: usize) -> Vec<u8> {
    while route.len() < longest {
        let links: Vec<u8> = segments[usize::from(route[route.len() - 1]) - 1].next_links().collect();
        if links.is_empty() {
            break;
        }
        route.push(*random.of(&links));
    }
    route
}

/// A number for an argument: mostly one that there is.
fn number(random: &mut Random, most: u64) -> u16 {
    match random.draw() % 16 {
        0 => *random.of(&[0, most as u16 + 1, 255, 256, 257, 65_535]),
        _ => random.within(1, most) as u16,
    }
}

/// A segment's limit, which a train there may have, or one above it, which it may not.
fn about_a_limit(random: &mut Random, area: &Description) -> u16 {
    random.of(&area.segments).limit + random.within(0, 1) as u16
}

/// Mostly 24 wishes: all alike, or each for itself.
fn wishes(random: &mut Random, area: &Description) -> Vec<u16> {
    let count = if random.one_in(20) { *random.of(&[0, 1, WISHES - 1, WISHES + 1, WISHES + 2, 100]) } else { WISHES };
    let all = match random.draw() % 4 {
        0 => None,
        1 => Some(*random.of(&[0, 1, 65_535])),
        _ => Some(area.gmax),
    };
    let own = |random: &mut Random| match random.draw() % 4 {
        0 => about_a_limit(random, area),
        _ => random.edgy(0, u64::from(area.gmax) + 5) as u16,
    };
    (0..count).map(|_| all.unwrap_or_else(|| own(random))).collect()
}

/// A speed to enter with: mostly one that some segment allows, at times one that none does.
fn entry_speed(random: &mut Random, area: &Description) -> u16 {
    match random.draw() % 8 {
        0 => about_a_limit(random, area),
        1 => random.edgy(u64::from(area.gmax) + 1, 65_535) as u16,
        _ => random.edgy(0, u64::from(area.gmax) + 1) as u16,
    }
}

/// A length to enter with on a route, mostly one that a train may have.
fn entry_length(random: &mut Random, area: &Description, route: u16) -> u16 {
    match random.draw() % 16 {
        0 => wrong_length(random),
        _ => length(random, &lengths_on(area, route)),
    }
}

/// The lengths of a route's segments; where there is no such route, those of the first.
fn lengths_on(area: &Description, route: u16) -> Vec<u32> {
    let listed = area.routes.get(usize::from(route).wrapping_sub(1)).unwrap_or(&area.routes[0]);
    listed.iter().map(|&segment| area.segment(segment).length).collect()
}

/// A call that owns its wishes.
#[derive(Clone, PartialEq, Eq, Debug)]
pub enum Owned {
    Enter(u16, u16, u16, u16),
    Leave(u16),
    Speed(Vec<u16>),
    Request,
    Grant,
    Position,
}

impl Owned {
    pub fn call(&self) -> Call<'_> {
        match self {
            Owned::Enter(train, route, speed, length) => Call::Enter { train: *train, route: *route, speed: *speed, length: *length },
            Owned::Leave(train) => Call::Leave { train: *train },
            Owned::Speed(wishes) => Call::Speed { wishes },
            Owned::Request => Call::Request,
            Owned::Grant => Call::Grant,
            Owned::Position => Call::Position,
        }
    }
}

/// Any call. `due` is the step that is likely due: mostly that one comes, so that trains get on.
pub fn call(random: &mut Random, area: &Description, due: u8) -> Owned {
    let routes = area.routes.len() as u64;
    let step = if random.one_in(12) { random.within(SPEED.into(), POSITION.into()) as u8 } else { due };
    match random.draw() % 20 {
        0..=2 => {
            let (train, route) = (number(random, TRAINS.into()), number(random, routes));
            Owned::Enter(train, route, entry_speed(random, area), entry_length(random, area, route))
        }
        3..=4 => Owned::Leave(number(random, TRAINS.into())),
        _ => step_of(step, || wishes(random, area)),
    }
}

/// A step of a cycle, that of speed with these wishes.
fn step_of(due: u8, wishes: impl FnOnce() -> Vec<u16>) -> Owned {
    match due {
        SPEED => Owned::Speed(wishes()),
        REQUEST => Owned::Request,
        GRANT => Owned::Grant,
        _ => Owned::Position,
    }
}

/// A call by which trains meet: at times any call, otherwise trains enter, those at their route's end leave, and all the others run on,
/// at times with some of them held back. One train in so many has any length; the others have length 1, since long trains keep others from
/// coming to a merge.
pub fn meeting(random: &mut Random, area: &Description, record: &Record, long: u64) -> Owned {
    if random.one_in(16) {
        return call(random, area, record.due);
    }
    let (off, at_the_end) = (off(record), at_the_end(record));
    match random.draw() % 8 {
        0 | 1 if !off.is_empty() => entering(random, area, &off, long),
        2..=4 if !at_the_end.is_empty() => Owned::Leave((*random.of(&at_the_end)).into()),
        _ => step_of(record.due, || held_back(random, area, 4)),
    }
}

/// A call by which trains get far: seldom any call, otherwise a few trains enter, run on as fast as they may, seldom held back, and leave
/// long after they came to their route's end.
pub fn running(random: &mut Random, area: &Description, record: &Record) -> Owned {
    if random.one_in(64) {
        return call(random, area, record.due);
    }
    let (off, at_the_end) = (off(record), at_the_end(record));
    let on = usize::from(TRAINS) - off.len();
    match random.draw() % 512 {
        0..=31 if on < 3 => entering(random, area, &off, 1),
        32 | 33 if !at_the_end.is_empty() => Owned::Leave((*random.of(&at_the_end)).into()),
        _ => step_of(record.due, || held_back(random, area, 32)),
    }
}

/// The numbers of trains that are off, and of those at their route's end.
fn off(record: &Record) -> Vec<u8> {
    numbers(record, |train| !train.is_on())
}

fn at_the_end(record: &Record) -> Vec<u8> {
    numbers(record, |train| train.is_on() && train.next(&record.tables).is_none())
}

fn numbers(record: &Record, is: impl Fn(&RawTrain) -> bool) -> Vec<u8> {
    (1..=TRAINS).filter(|&number| is(record.train(number))).collect()
}

/// One of these trains enters, at a speed that its segment allows; one in so many with any length that a train may have, the others with 1.
fn entering(random: &mut Random, area: &Description, off: &[u8], long: u64) -> Owned {
    let route = random.within(1, area.routes.len() as u64) as u16;
    let first = area.segment(area.routes[usize::from(route) - 1][0]);
    let speed = random.edgy(0, first.limit.into()) as u16;
    let length = if random.one_in(long) { length(random, &lengths_on(area, route)) } else { 1 };
    Owned::Enter((*random.of(off)).into(), route, speed, length)
}

/// All wishes at the top speed; one time in so many about half of them at 0.
fn held_back(random: &mut Random, area: &Description, rare: u64) -> Vec<u16> {
    let some = random.one_in(rare);
    (0..WISHES).map(|_| if some && random.one_in(2) { 0 } else { area.gmax }).collect()
}
