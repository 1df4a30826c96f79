//! A writer of area files for tests: it writes what it is told, right or wrong, with right
//! kinds, block numbers and checks.

use crate::area::{cycle, Call};
use crate::file::{check, route_start, segment_start, KINDS};
use crate::numbers::*;
use crate::tables::{Segment, ENTRY, EXIT};

/// N and R are the numbers of segments (at most 62) and routes (at most 30, of at most 31
/// segments each).
#[derive(Clone, PartialEq, Eq, Debug)]
pub struct Description {
    pub gmax: u16,
    pub b: u16,
    pub d: u32,
    pub segments: Vec<Segment>,
    pub routes: Vec<Vec<u8>>,
}

impl Description {
    /// Segment by number, from 1.
    pub fn segment(&self, number: u8) -> &Segment {
        &self.segments[usize::from(number) - 1]
    }

    pub fn file(&self) -> Vec<u8> {
        let mut file = vec![0; FILE_SIZE];
        file[VERSION_AT] = 1;
        file[N_AT] = self.segments.len() as u8;
        file[R_AT] = self.routes.len() as u8;
        put(&mut file, GMAX_AT, &self.gmax.to_le_bytes());
        put(&mut file, B_AT, &self.b.to_le_bytes());
        put(&mut file, D_AT, &self.d.to_le_bytes());
        for (number, segment) in (1..).zip(&self.segments) {
            let record = &mut file[segment_start(number)..][..SEGMENT_SIZE];
            put(record, LENGTH_AT, &segment.length.to_le_bytes());
            put(record, LIMIT_AT, &segment.limit.to_le_bytes());
            put(record, NEXT_AT, &segment.next);
            put(record, PREVIOUS_AT, &segment.previous);
            record[FLAGS_AT] = segment.flags;
        }
        for (number, route) in (1..).zip(&self.routes) {
            put_route(&mut file, number, route);
        }
        for (number, block) in file.chunks_mut(BLOCK_SIZE).enumerate() {
            block[KIND_AT] = KINDS[number];
            block[BLOCK_NUMBER_AT] = number as u8;
        }
        put_checks(&mut file);
        file
    }
}

/// Puts bytes into a file or a record, from one of its places on.
pub(crate) fn put(into: &mut [u8], at: usize, bytes: &[u8]) {
    into[at..at + bytes.len()].copy_from_slice(bytes);
}

/// Puts a route's whole record into a file.
pub(crate) fn put_route(file: &mut [u8], number: u8, route: &[u8]) {
    let record = &mut file[route_start(number)..][..ROUTE_SIZE];
    record.fill(0);
    record[0] = route.len() as u8;
    put(record, 1, route);
}

/// Puts the right check on each whole block.
pub fn put_checks(file: &mut [u8]) {
    for block in file.chunks_exact_mut(BLOCK_SIZE) {
        let right = check(block);
        put(block, CHECK_AT, &right);
    }
}

/// Area A: "`gmax` 300, `b` 10, `d` 4650. Segments (length, limit): 1 (6000, 300, entry), 2
/// (5500, 290, entry), 3 (8000, 290, exit); 1 and 2 lead to 3. Routes: 1-3 and 2-3."
pub fn area_a() -> Description {
    Description {
        gmax: 300,
        b: 10,
        d: 4650,
        segments: vec![
            Segment { length: 6000, limit: 300, next: [3, 0], previous: [0, 0], flags: ENTRY },
            Segment { length: 5500, limit: 290, next: [3, 0], previous: [0, 0], flags: ENTRY },
            Segment { length: 8000, limit: 290, next: [0, 0], previous: [1, 2], flags: EXIT },
        ],
        routes: vec![vec![1, 3], vec![2, 3]],
    }
}

/// Area A with a segment after the merge, long enough that the rear of a long train comes past it: segment 4 (12,000, 290, exit), to which 3
/// leads, which has no exit. Routes: 1-3-4 and 2-3-4.
pub fn ore_line() -> Description {
    let mut line = area_a();
    (line.segments[2].next, line.segments[2].flags) = ([4, 0], 0);
    line.segments.push(Segment { length: 12_000, limit: 290, next: [0, 0], previous: [3, 0], flags: EXIT });
    line.routes.iter_mut().for_each(|route| route.push(4));
    line
}

/// The least length that rule 6 allows: "above `d` + `gmax`".
pub fn shortest(gmax: u16, d: u32) -> u32 {
    d + u32::from(gmax) + 1
}

/// Area A's shape with another `gmax`, `b` and `d`: every limit is `gmax`, and every length the least.
pub fn like_area_a(gmax: u16, b: u16, d: u32) -> Description {
    like(area_a(), gmax, b, d)
}

/// The same of the full area.
pub fn like_full_area(gmax: u16, b: u16, d: u32) -> Description {
    like(full_area(), gmax, b, d)
}

fn like(shape: Description, gmax: u16, b: u16, d: u32) -> Description {
    let mut area = Description { gmax, b, d, ..shape };
    for segment in &mut area.segments {
        (segment.length, segment.limit) = (shortest(gmax, d), gmax);
    }
    area
}

/// Document 01's program on Area A: "enters train 1 on route 1 at 250 and train 2 on route 2 at 200, runs six cycles with all wishes
/// 300": the entries, and the steps of a cycle. R-4 of document 02: "Area A runs with length 1".
pub const AREA_A_ENTRIES: [Call; 2] =
    [Call::Enter { train: 1, route: 1, speed: 250, length: 1 }, Call::Enter { train: 2, route: 2, speed: 200, length: 1 }];
pub const AREA_A_CYCLE: [Call; 4] = cycle(&[300; WISHES]);

/// The next links of all segments, and the previous links.
pub(crate) type Links = (Vec<[u8; 2]>, Vec<[u8; 2]>);

/// Segment k of n leads to k + 1 and k + 2.
pub(crate) fn links_ahead(n: u8) -> Links {
    let at = |number: i32| if (1..=n.into()).contains(&number) { number as u8 } else { 0 };
    (1..=n.into()).map(|k| ([at(k + 1), at(k + 2)], [at(k - 1), at(k - 2)])).unzip()
}

/// An area with every segment and every route, 31 segments each: segment k leads to k + 1 and k + 2, route r runs from r on.
pub fn full_area() -> Description {
    let (next, previous) = links_ahead(SEGMENTS);
    let segment = |(next, previous)| Segment { length: 9000, limit: 290, next, previous, flags: ENTRY | EXIT };
    let segments = next.into_iter().zip(previous).map(segment).collect();
    let routes = (1..=ROUTES).map(|r| (r..r + ROUTE_SEGMENTS).collect()).collect();
    Description { gmax: 300, b: 10, d: 4650, segments, routes }
}

/// The full area with routes that merge two by two: routes 1 and 2 start on 1 and 2 and go to 3, routes 3 and 4 start on 4 and 5 and go
/// to 6, and so on; from there they go from segment to segment as far as they can.
pub fn merging_area() -> Description {
    let route = |before: u8| {
        let merge = before / 2 * 3 + 3;
        let first = merge - 2 + before % 2;
        [first].into_iter().chain(merge..=SEGMENTS).take(ROUTE_SEGMENTS.into()).collect()
    };
    Description { routes: (0..ROUTES).map(route).collect(), ..full_area() }
}
