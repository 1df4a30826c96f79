//! Areas at random that the core accepts, seeded, for the tests.
//!
//! How: `gmax`, `b` and `d` first, each often at an end of its bounds. Then the segments from the last to the first: up to two next links
//! to higher ones that have room for a previous link, and a limit up to what the drop to these allows, often just that. How far links
//! reach and how often track branches or ends is chosen anew for each area, so that there are long chains as well as bundles. The two
//! links of a pair are exchanged at random. Routes are walks along next links, often as long as they can be.
#![allow(dead_code)] // each test uses what it needs

use rbu::{braking_distance, FASTEST, LONGEST, ROUTES, SEGMENTS};
use rbu_command::layout::ROUTE_SEGMENTS;
use rbu_command::tables::{Segment, Tables};

/// Random numbers (splitmix64).
pub struct Random(u64);

impl Random {
    pub fn new(seed: u64) -> Random {
        Random(seed)
    }

    pub fn draw(&mut self) -> u64 {
        self.0 = self.0.wrapping_add(0x9e37_79b9_7f4a_7c15);
        let mixed = (self.0 ^ (self.0 >> 30)).wrapping_mul(0xbf58_476d_1ce4_e5b9);
        let mixed = (mixed ^ (mixed >> 27)).wrapping_mul(0x94d0_49bb_1331_11eb);
        mixed ^ (mixed >> 31)
    }

    /// One of 0 to the bound, which is left out.
    pub fn below(&mut self, bound: usize) -> usize {
        ((u128::from(self.draw()) * bound as u128) >> 64) as usize
    }

    /// One of two numbers and those between.
    pub fn within(&mut self, low: u32, high: u32) -> u32 {
        low + self.below((high - low) as usize + 1) as u32
    }

    /// The same, half the time one of the two.
    pub fn edgy(&mut self, low: u32, high: u32) -> u32 {
        match self.below(4) {
            0 => low,
            1 => high,
            _ => self.within(low, high),
        }
    }

    pub fn one_in(&mut self, times: usize) -> bool {
        self.below(times) == 0
    }

    pub fn of<T: Copy>(&mut self, list: &[T]) -> T {
        list[self.below(list.len())]
    }
}

/// The area of a seed.
pub fn area(seed: u64) -> Tables {
    let random = &mut Random::new(seed);
    let most = SEGMENTS as u32;
    let (n, r) = (random.edgy(1, most), random.edgy(1, ROUTES as u32));
    let (gmax, b, d) = numbers(random);
    let mut segments = links(random, n as usize);
    for s in (0..segments.len()).rev() {
        let after = segments[s].next.into_iter().filter(|&to| to != 0);
        let highest = after.map(|to| segments[usize::from(to) - 1].limit + b).min().unwrap_or(gmax).min(gmax);
        segments[s].limit = random.edgy(1, highest.into()) as u16;
        segments[s].length = random.edgy(d + u32::from(gmax) + 1, LONGEST);
        segments[s].flags = random.below(4) as u8;
    }
    let routes = (0..r).map(|_| walk(random, &segments)).collect();
    let tables = Tables { gmax, b, d, segments, routes };
    assert_eq!(rbu::load(&tables.file()), Ok(()), "seed {seed}: {tables:?}");
    tables
}

/// Areas of some seeds.
pub fn areas(count: u64) -> Vec<Tables> {
    (0..count).map(area).collect()
}

/// `gmax`, `b` and `d`; with the greatest `d`, just one length is left for segments.
fn numbers(random: &mut Random) -> (u16, u16, u32) {
    let gmax = random.edgy(1, FASTEST.into()) as u16;
    let b = match random.below(3) {
        0 => random.within(1, u32::from(gmax).min(20)),
        _ => random.edgy(1, gmax.into()),
    } as u16;
    let (least, most) = (braking_distance(b, gmax), LONGEST - 1 - u32::from(gmax));
    let d = match random.below(3) {
        0 => random.within(least, most.min(least + 10_000)),
        _ => random.edgy(least, most),
    };
    (gmax, b, d)
}

/// Segments with links alone.
fn links(random: &mut Random, n: usize) -> Vec<Segment> {
    let (reach, ends, branches) = (random.of(&[1, 2, 3, 8, SEGMENTS]), random.of(&[3, 10, 200]), random.of(&[1, 2, 4]));
    let mut segments = vec![Segment::default(); n];
    for s in (1..n).rev() {
        let count = if random.one_in(ends) { 0 } else { 1 + usize::from(random.one_in(branches)) };
        for place in 0..count {
            let open = |to: &usize| segments[to - 1].previous[1] == 0 && !segments[s - 1].next.contains(&(*to as u8));
            let open: Vec<usize> = (s + 1..=n.min(s + reach)).filter(open).collect();
            if open.is_empty() {
                break;
            }
            let to = random.of(&open);
            segments[s - 1].next[place] = to as u8;
            let previous = &mut segments[to - 1].previous;
            previous[usize::from(previous[0] != 0)] = s as u8;
        }
    }
    for pair in segments.iter_mut().flat_map(|segment| [&mut segment.next, &mut segment.previous]) {
        if pair[1] != 0 && random.one_in(2) {
            pair.swap(0, 1);
        }
    }
    segments
}

/// A route: from any segment, half the time one of the first, as far as it is to go or can.
fn walk(random: &mut Random, segments: &[Segment]) -> Vec<u8> {
    let starts = if random.one_in(2) { segments.len() } else { segments.len().min(3) };
    let (mut route, longest) = (vec![1 + random.below(starts) as u8], random.edgy(1, ROUTE_SEGMENTS as u32) as usize);
    while route.len() < longest {
        let next: Vec<u8> = segments[usize::from(route[route.len() - 1]) - 1].next.into_iter().filter(|&to| to != 0).collect();
        if next.is_empty() {
            break;
        }
        route.push(random.of(&next));
    }
    route
}
