//! The tables of an area, and rules 4 to 10 as far as they speak of what the tables keep.
//!
//! Two readers use these rules: load (which adds the bytes that the tables do not keep:
//! version and zeros) and the sound record ("Tables meet 4 to 10").

use crate::braking::s;
use crate::numbers::{Bounds, ROUTES, ROUTE_SEGMENTS, SEGMENTS};
use std::ops::Range;

/// "flags (1 entry, 2 exit, sum of both)"
pub const ENTRY: u8 = 1;
pub const EXIT: u8 = 2;

/// "length (4 bytes), limit (2), two next links, two previous links (a byte each, 0 for
/// none), flags"
#[derive(Clone, Copy, PartialEq, Eq, Debug)]
pub struct Segment {
    pub length: u32,
    pub limit: u16,
    pub next: [u8; 2],
    pub previous: [u8; 2],
    pub flags: u8,
}

/// "count 1 to 31, then the segment numbers, rest zero"
#[derive(Clone, Copy, PartialEq, Eq, Debug)]
pub struct Route {
    pub count: u8,
    pub numbers: [u8; ROUTE_SEGMENTS as usize],
}

#[derive(Clone, Copy, PartialEq, Eq, Debug)]
pub struct Tables {
    /// segments N
    pub n: u8,
    /// routes R
    pub r: u8,
    /// the top speed
    pub gmax: u16,
    /// the speed lost by one cycle of full braking
    pub b: u16,
    /// the end distance
    pub d: u32,
    /// segment number k at index k − 1
    pub segments: [Segment; SEGMENTS as usize],
    /// route number k at index k − 1
    pub routes: [Route; ROUTES as usize],
}

impl Segment {
    pub const ZERO: Segment = Segment { length: 0, limit: 0, next: [0; 2], previous: [0; 2], flags: 0 };

    /// The next links that there are ("0 for none").
    pub fn next_links(&self) -> impl Iterator<Item = u8> {
        self.next.into_iter().filter(|&link| link != 0)
    }

    /// The previous links that there are.
    pub fn previous_links(&self) -> impl Iterator<Item = u8> {
        self.previous.into_iter().filter(|&link| link != 0)
    }
}

impl Route {
    pub const ZERO: Route = Route { count: 0, numbers: [0; ROUTE_SEGMENTS as usize] };

    /// The segment numbers without the zeros after them. (A count above 31 breaks rule 10.)
    pub fn listed(&self) -> &[u8] {
        &self.numbers[..usize::from(self.count.min(ROUTE_SEGMENTS))]
    }
}

impl Tables {
    pub const ZERO: Tables =
        Tables { n: 0, r: 0, gmax: 0, b: 0, d: 0, segments: [Segment::ZERO; SEGMENTS as usize], routes: [Route::ZERO; ROUTES as usize] };

    /// Segment by number, 1 to 62.
    pub fn segment(&self, number: u8) -> &Segment {
        &self.segments[usize::from(number) - 1]
    }

    /// Route by number, 1 to 30.
    pub fn route(&self, number: u8) -> &Route {
        &self.routes[usize::from(number) - 1]
    }

    /// The lengths of a route's segments.
    pub fn lengths(&self, route: u8) -> impl Iterator<Item = u32> + '_ {
        self.route(route).listed().iter().map(|&segment| self.segment(segment).length)
    }

    /// Each segment of a route from its start to its end, "lengths summed from the route's start".
    pub fn stretches(&self, route: u8) -> impl Iterator<Item = Range<u64>> + '_ {
        self.lengths(route).scan(0, |end, length| {
            let start = *end;
            *end += u64::from(length);
            Some(start..*end)
        })
    }

    /// R-4 of document 02: what is under a train on this route, of this way and this length. "The rear lies that far behind the front
    /// along the route, and what lies before the route's first segment is outside the area. A segment is under the train from the front's
    /// arrival until the rear is at or past its end".
    pub fn under(&self, route: u8, way: u64, length: u16) -> &[u8] {
        let arrived_at = self.stretches(route).take_while(|segment| segment.start <= way).count();
        let cleared = self.stretches(route).take_while(|segment| segment.end + u64::from(length) <= way).count();
        &self.route(route).listed()[cleared..arrived_at]
    }

    /// 4 header: "segments N, 1 to 62"; "routes R, 1 to 30"; "`b`, 1 to `gmax`"; R-3 of document
    /// 02: "`gmax` may be 1 to 2000; `d` .. may be up to 4,000,000".
    // reading: `d` is still 1 at the least, and `b` reads the new bound by `gmax`.
    pub(crate) fn breaks_4(&self, bounds: &Bounds) -> bool {
        !(1..=SEGMENTS).contains(&self.n)
            || !(1..=ROUTES).contains(&self.r)
            || !(1..=bounds.top_speed).contains(&self.gmax)
            || !(1..=self.gmax).contains(&self.b)
            || !(1..=bounds.longest).contains(&self.d)
    }

    /// 5 margin: "`d` < S(`gmax`)".
    pub(crate) fn breaks_5(&self) -> bool {
        u64::from(self.d) < s(self.b.into(), self.gmax.into())
    }

    /// 6 segment, of the record with this number, 1 to 62.
    pub(crate) fn breaks_6(&self, number: u8, bounds: &Bounds) -> bool {
        let segment = self.segment(number);
        if number > self.n {
            // "a record above N not all zero"
            return *segment != Segment::ZERO;
        }
        // "length not above `d` + `gmax` or over" its bound; R-3 of document 02: "lengths may be up to 4,000,000"
        let length = u64::from(segment.length);
        length <= u64::from(self.d) + u64::from(self.gmax)
            || segment.length > bounds.longest
            // "limit not 1 to `gmax`"
            || !(1..=self.gmax).contains(&segment.limit)
            // "link over N; a second link that is not 0 while the first is 0 or the same number"
            // reading: said of the two next links and of the two previous links alike.
            || [segment.next, segment.previous].into_iter().any(|[first, second]| {
                first > self.n || second > self.n || (second != 0 && (first == 0 || first == second))
            })
            // "flags over 3"
            || segment.flags > 3
    }

    /// 7 joint, of the links of this segment: "a next link without the matching previous
    /// link, or the reverse". Asked only where 6 holds, so that every link is 1 to N.
    // reading: the segment "with such a link" is the one whose record holds the link that
    // stands without its match, be it a next link or a previous link.
    pub(crate) fn breaks_7(&self, number: u8) -> bool {
        let segment = self.segment(number);
        segment.next_links().any(|next| !self.segment(next).previous.contains(&number))
            || segment.previous_links().any(|previous| !self.segment(previous).next.contains(&number))
    }

    /// 8 order: "a next link not greater than its segment".
    pub(crate) fn breaks_8(&self, number: u8) -> bool {
        self.segment(number).next_links().any(|next| next <= number)
    }

    /// 9 drop: "limit of a next segment + `b` < own limit".
    pub(crate) fn breaks_9(&self, number: u8) -> bool {
        let segment = self.segment(number);
        segment.next_links().any(|next| u32::from(self.segment(next).limit) + u32::from(self.b) < u32::from(segment.limit))
    }

    /// 10 route, of the record with this number, 1 to 30.
    // reading: a route may start at a segment without the entry flag and end at one without
    // the exit flag; refusals 17 and 20 speak of that, rule 10 does not.
    pub(crate) fn breaks_10(&self, number: u8) -> bool {
        let route = self.route(number);
        if number > self.r {
            // "a record above R not all zero"
            return *route != Route::ZERO;
        }
        // "count outside 1 to 31"
        !(1..=ROUTE_SEGMENTS).contains(&route.count)
            // "a number outside 1 to N"
            || route.listed().iter().any(|&segment| !(1..=self.n).contains(&segment))
            // "a step that is no next link"
            || route.listed().windows(2).any(|step| !self.segment(step[0]).next.contains(&step[1]))
            // "a zero broken"
            || route.numbers[route.listed().len()..].iter().any(|&byte| byte != 0)
    }

    /// "Tables meet 4 to 10."
    // reading: as far as the tables keep what the rules speak of; version and zero bytes of
    // the file are not kept.
    // reading: the bounds are those in force, R-3's of document 02, as for load.
    pub fn meet_4_to_10(&self) -> bool {
        let bounds = &Bounds::DOCUMENT_02;
        !self.breaks_4(bounds)
            && !self.breaks_5()
            && !(1..=SEGMENTS).any(|number| self.breaks_6(number, bounds))
            && !(1..=self.n).any(|number| self.breaks_7(number))
            && !(1..=self.n).any(|number| self.breaks_8(number))
            && !(1..=self.n).any(|number| self.breaks_9(number))
            && !(1..=ROUTES).any(|number| self.breaks_10(number))
    }
}
