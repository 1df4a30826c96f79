//! Ways to break an accepted file, one for each condition of rules 1 to 10, at the first, a middle and the last place where it
//! can be broken. The checks are set right afterwards, but for rules 1 and 2.

use crate::braking::s;
use crate::file::{check, route_start, segment_start};
use crate::numbers::*;
use crate::random::{walk_on, Random};
use crate::tables::Segment;
use crate::write::{put, put_route, Description};

/// The rule that is broken, what of it, and the change; false where the area has no place for it.
pub struct Break {
    pub rule: u8,
    pub name: &'static str,
    pub change: fn(&mut Random, &Description, &mut Vec<u8>, Where) -> bool,
}

#[derive(Clone, Copy, Debug, PartialEq, Eq)]
pub enum Where {
    First,
    Middle,
    Last,
}

pub const PLACES: [Where; 3] = [Where::First, Where::Middle, Where::Last];

/// The breaks of this rule and of those after it.
pub fn from_rule(rule: u8) -> &'static [Break] {
    &BREAKS[BREAKS.partition_point(|one| one.rule < rule)..]
}

impl Where {
    /// One of low to high, both included: the middle is strictly between them. None where there is none.
    fn pick(self, random: &mut Random, low: usize, high: usize) -> Option<usize> {
        match self {
            Where::First => (low <= high).then_some(low),
            Where::Last => (low <= high).then_some(high),
            Where::Middle => (low + 2 <= high).then(|| random.within(low as u64 + 1, high as u64 - 1) as usize),
        }
    }

    fn of<T: Copy>(self, random: &mut Random, list: &[T]) -> Option<T> {
        self.pick(random, 1, list.len()).map(|k| list[k - 1])
    }
}

fn set(file: &mut [u8], at: usize, value: u8) -> bool {
    let changed = file[at] != value;
    file[at] = value;
    changed
}

fn put16(file: &mut [u8], at: usize, value: u16) -> bool {
    put(file, at, &value.to_le_bytes());
    true
}

fn put32(file: &mut [u8], at: usize, value: u32) -> bool {
    put(file, at, &value.to_le_bytes());
    true
}

/// Where a block starts.
fn block(random: &mut Random, place: Where) -> Option<usize> {
    place.pick(random, 0, BLOCKS - 1).map(|number| BLOCK_SIZE * number)
}

/// Where a segment's record starts, of 1 to N.
fn segment(random: &mut Random, area: &Description, place: Where) -> Option<usize> {
    place.pick(random, 1, area.segments.len()).map(|number| segment_start(number as u8))
}

/// Where a route's record starts, of 1 to R.
fn route(random: &mut Random, area: &Description, place: Where) -> Option<usize> {
    place.pick(random, 1, area.routes.len()).map(|number| route_start(number as u8))
}

/// Something else than zero at one of these bytes.
fn zero_of(random: &mut Random, file: &mut [u8], place: Where, bytes: impl Iterator<Item = usize>) -> bool {
    let bytes: Vec<usize> = bytes.collect();
    let value = random.within(1, 255) as u8;
    place.of(random, &bytes).is_some_and(|at| set(file, at, value))
}

/// A block with a sum (0 the first, 1 the second) of 0 that its check stores as 255.
fn stored_as_255(file: &mut [u8], at: usize, sum: usize) -> bool {
    let block = &mut file[at..][..BLOCK_SIZE];
    // the last byte before the check, a zero, counts once in either sum
    block[CHECK_AT - 1] = 255 - check(block)[sum];
    let right = check(block);
    put(block, CHECK_AT, &right);
    block[CHECK_AT + sum] = 255;
    right[sum] == 0
}

/// Where the pair of next links and the pair of previous links of each segment stand in the file; `used`: those with a link.
fn link_pairs(area: &Description, used: bool) -> Vec<usize> {
    (1..)
        .zip(&area.segments)
        .map(|(number, segment)| (segment_start(number), segment))
        .flat_map(|(at, segment)| [(at + NEXT_AT, segment.next[0]), (at + PREVIOUS_AT, segment.previous[0])])
        .filter(|&(_, first)| !used || first != 0)
        .map(|(at, _)| at)
        .collect()
}

/// Two segments, numbered from 1, with from ≥ to, from's next and to's previous links not full, and no link between them.
fn backward(random: &mut Random, area: &Description, place: Where) -> Option<(usize, usize)> {
    let all = &area.segments;
    let pairs: Vec<(usize, usize)> = (1..=all.len())
        .flat_map(|from| (1..=from).map(move |to| (from, to)))
        .filter(|&(from, to)| all[from - 1].next[1] == 0 && all[to - 1].previous[1] == 0)
        .collect();
    place.of(random, &pairs)
}

/// Links, as (segment, slot) pairs, of one kind.
fn linked(area: &Description, next: bool) -> Vec<(usize, usize)> {
    (1..=area.segments.len())
        .flat_map(|k| [(k, 0), (k, 1)])
        .filter(|&(k, slot)| if next { area.segments[k - 1].next[slot] != 0 } else { area.segments[k - 1].previous[slot] != 0 })
        .collect()
}

/// Takes a link out; the second moves up, so that rule 6 is kept.
fn unlink(file: &mut [u8], at: usize, slot: usize) -> bool {
    if slot == 0 {
        file[at] = file[at + 1];
    }
    file[at + 1] = 0;
    true
}

/// A step of a route to a number that is `wrong` after the segment before it. The route goes on from there along next links: no
/// other step of it is wrong.
fn step(random: &mut Random, area: &Description, file: &mut [u8], place: Where, wrong: fn(&Segment, u8, u8) -> bool) -> bool {
    let wrong_after = |before: u8| (1..=area.segments.len() as u8).filter(move |&to| wrong(area.segment(before), before, to));
    let steps: Vec<(usize, usize)> = (0..area.routes.len())
        .flat_map(|k| (1..area.routes[k].len()).map(move |p| (k, p)))
        .filter(|&(k, p)| wrong_after(area.routes[k][p - 1]).next().is_some())
        .collect();
    let Some((k, p)) = place.of(random, &steps) else { return false };
    let mut route = area.routes[k][..p].to_vec();
    let to: Vec<u8> = wrong_after(route[p - 1]).collect();
    route.push(*random.of(&to));
    let route = walk_on(random, &area.segments, route, area.routes[k].len());
    put_route(file, k as u8 + 1, &route);
    true
}

// one to a line where it fits, as a table
#[rustfmt::skip]
pub const BREAKS: &[Break] = &[
    Break { rule: 1, name: "shorter", change: |_, _, f, w| { f.truncate([0, FILE_SIZE - BLOCK_SIZE, FILE_SIZE - 1][w as usize]); true } },
    Break { rule: 1, name: "longer", change: |_, _, f, w| { f.resize([FILE_SIZE + 1, FILE_SIZE + BLOCK_SIZE, 2 * FILE_SIZE][w as usize], 0); true } },
    Break { rule: 2, name: "byte changed", change: |r, _, f, w| { let x = r.within(1, 254) as u8; w.pick(r, 0, FILE_SIZE - 1).is_some_and(|at| { f[at] ^= x; true }) } },
    Break { rule: 2, name: "first sum", change: |r, _, f, w| block(r, w).is_some_and(|at| { f[at + CHECK_AT] ^= 1; true }) },
    Break { rule: 2, name: "second sum", change: |r, _, f, w| block(r, w).is_some_and(|at| { f[at + CHECK_AT + 1] ^= 128; true }) },
    Break { rule: 2, name: "first sum of 0 stored as 255", change: |r, _, f, w| block(r, w).is_some_and(|at| stored_as_255(f, at, 0)) },
    Break { rule: 2, name: "second sum of 0 stored as 255", change: |r, _, f, w| block(r, w).is_some_and(|at| stored_as_255(f, at, 1)) },
    Break { rule: 3, name: "kind", change: |r, _, f, w| block(r, w).is_some_and(|at| { f[at + KIND_AT] ^= 1; true }) },
    Break { rule: 3, name: "block number", change: |r, _, f, w| block(r, w).is_some_and(|at| { f[at + BLOCK_NUMBER_AT] ^= 4; true }) },
    Break { rule: 3, name: "zero of a tail", change: |r, _, f, w| zero_of(r, f, w, (0..BLOCKS).flat_map(|k| TAIL_ZEROS.map(move |at| BLOCK_SIZE * k + at))) },
    Break { rule: 3, name: "zero of a route block", change: |r, _, f, w| zero_of(r, f, w, (3..BLOCKS).flat_map(|k| ROUTE_BLOCK_ZEROS.map(move |at| BLOCK_SIZE * k + at))) },
    Break { rule: 4, name: "version 0, 2, 255", change: |_, _, f, w| set(f, VERSION_AT, [0, 2, 255][w as usize]) },
    Break { rule: 4, name: "segments 0, 63, 255", change: |_, _, f, w| set(f, N_AT, [0, SEGMENTS + 1, 255][w as usize]) },
    Break { rule: 4, name: "routes 0, 31, 255", change: |_, _, f, w| set(f, R_AT, [0, ROUTES + 1, 255][w as usize]) },
    Break { rule: 4, name: "byte 3", change: |_, _, f, w| set(f, ZERO_AT, [1, 128, 255][w as usize]) },
    Break { rule: 4, name: "gmax 0, 2001, 65,535", change: |_, _, f, w| put16(f, GMAX_AT, [0, TOP_SPEED + 1, 65_535][w as usize]) },
    Break { rule: 4, name: "b 0, gmax + 1, 65,535", change: |_, a, f, w| put16(f, B_AT, [0, a.gmax + 1, 65_535][w as usize]) },
    Break { rule: 4, name: "d 0, 4,000,001, the greatest number", change: |_, _, f, w| put32(f, D_AT, [0, LONGEST + 1, u32::MAX][w as usize]) },
    Break { rule: 4, name: "zero of the header", change: |r, _, f, w| zero_of(r, f, w, HEADER_ZEROS) },
    Break { rule: 5, name: "margin", change: |r, a, f, w| {
        let least = s(a.b.into(), a.gmax.into()) as usize;
        w.pick(r, 1, least - 1).is_some_and(|d| put32(f, D_AT, d as u32))
    } },
    // the header is right up to a `d` of 4,000,000, and no length is: from 4,000,000 - gmax on none is above d + gmax
    Break { rule: 6, name: "d up to 4,000,000", change: |r, a, f, w| {
        w.pick(r, LONGEST as usize - usize::from(a.gmax), LONGEST as usize).is_some_and(|d| put32(f, D_AT, d as u32))
    } },
    Break { rule: 6, name: "length at its bound", change: |r, a, f, w| segment(r, a, w).is_some_and(|at| put32(f, at + LENGTH_AT, a.d + u32::from(a.gmax))) },
    Break { rule: 6, name: "length over 4,000,000", change: |r, a, f, w| segment(r, a, w).is_some_and(|at| put32(f, at + LENGTH_AT, *r.of(&[LONGEST + 1, u32::MAX]))) },
    Break { rule: 6, name: "length 0", change: |r, a, f, w| segment(r, a, w).is_some_and(|at| put32(f, at + LENGTH_AT, 0)) },
    Break { rule: 6, name: "limit 0", change: |r, a, f, w| segment(r, a, w).is_some_and(|at| put16(f, at + LIMIT_AT, 0)) },
    Break { rule: 6, name: "limit over gmax", change: |r, a, f, w| segment(r, a, w).is_some_and(|at| put16(f, at + LIMIT_AT, *r.of(&[a.gmax + 1, u16::MAX]))) },
    Break { rule: 6, name: "link over N", change: |r, a, f, w| w.of(r, &link_pairs(a, false)).is_some_and(|at| set(f, at, *r.of(&[a.segments.len() as u8 + 1, 255]))) },
    Break { rule: 6, name: "second link over N", change: |r, a, f, w| w.of(r, &link_pairs(a, true)).is_some_and(|at| set(f, at + 1, a.segments.len() as u8 + 1)) },
    Break { rule: 6, name: "second link alone", change: |r, a, f, w| {
        w.of(r, &link_pairs(a, false)).is_some_and(|at| { f[at] = 0; f[at + 1] = r.within(1, a.segments.len() as u64) as u8; true })
    } },
    Break { rule: 6, name: "second link the same", change: |r, a, f, w| w.of(r, &link_pairs(a, true)).is_some_and(|at| { f[at + 1] = f[at]; true }) },
    Break { rule: 6, name: "flags", change: |r, a, f, w| segment(r, a, w).is_some_and(|at| set(f, at + FLAGS_AT, *r.of(&[4, 128, 255]))) },
    Break { rule: 6, name: "zero of a segment record", change: |r, a, f, w| {
        zero_of(r, f, w, (1..=a.segments.len()).flat_map(|k| SEGMENT_ZEROS.map(move |at| segment_start(k as u8) + at)))
    } },
    Break { rule: 6, name: "record above N", change: |r, a, f, w| {
        zero_of(r, f, w, (a.segments.len() + 1..=SEGMENTS.into()).flat_map(|k| (0..SEGMENT_SIZE).map(move |at| segment_start(k as u8) + at)))
    } },
    Break { rule: 7, name: "next without previous", change: |r, a, f, w| {
        w.of(r, &linked(a, false)).is_some_and(|(k, slot)| unlink(f, segment_start(k as u8) + PREVIOUS_AT, slot))
    } },
    Break { rule: 7, name: "previous without next", change: |r, a, f, w| {
        w.of(r, &linked(a, true)).is_some_and(|(k, slot)| unlink(f, segment_start(k as u8) + NEXT_AT, slot))
    } },
    Break { rule: 8, name: "link not rising", change: |r, a, f, w| {
        backward(r, a, w).is_some_and(|(from, to)| {
            let (next, previous) = (segment_start(from as u8) + NEXT_AT, segment_start(to as u8) + PREVIOUS_AT);
            let (i, j) = (usize::from(f[next] != 0), usize::from(f[previous] != 0));
            f[next + i] = to as u8;
            f[previous + j] = from as u8;
            true
        })
    } },
    Break { rule: 9, name: "limit drops", change: |r, a, f, w| {
        let steep: Vec<(usize, usize)> = linked(a, true).into_iter().filter(|&(k, _)| a.segments[k - 1].limit > a.b + 1).collect();
        w.of(r, &steep).is_some_and(|(k, slot)| {
            let below = a.segments[k - 1].limit - a.b - 1;
            put16(f, segment_start(a.segments[k - 1].next[slot]) + LIMIT_AT, if r.one_in(2) { below } else { r.within(1, below.into()) as u16 })
        })
    } },
    Break { rule: 10, name: "count", change: |r, a, f, w| route(r, a, w).is_some_and(|at| set(f, at, *r.of(&[0, ROUTE_SEGMENTS + 1, 255]))) },
    Break { rule: 10, name: "number outside", change: |r, a, f, w| {
        let numbers: Vec<usize> = (1..).zip(&a.routes).flat_map(|(k, route)| (1..=route.len()).map(move |p| route_start(k) + p)).collect();
        w.of(r, &numbers).is_some_and(|at| set(f, at, *r.of(&[0, a.segments.len() as u8 + 1, 255])))
    } },
    Break { rule: 10, name: "step that is no next link", change: |r, a, f, w| step(r, a, f, w, |segment, _, to| !segment.next.contains(&to)) },
    Break { rule: 10, name: "step to a previous link", change: |r, a, f, w| step(r, a, f, w, |segment, _, to| segment.previous.contains(&to)) },
    Break { rule: 10, name: "step to a greater number that is no link", change: |r, a, f, w| {
        step(r, a, f, w, |segment, number, to| to > number && !segment.next.contains(&to))
    } },
    Break { rule: 10, name: "zero of a route record", change: |r, a, f, w| {
        zero_of(r, f, w, (1..).zip(&a.routes).flat_map(|(k, route)| (route.len() + 1..ROUTE_SIZE).map(move |p| route_start(k) + p)))
    } },
    Break { rule: 10, name: "record above R", change: |r, a, f, w| {
        zero_of(r, f, w, (a.routes.len() + 1..=ROUTES.into()).flat_map(|k| (0..ROUTE_SIZE).map(move |at| route_start(k as u8) + at)))
    } },
];
