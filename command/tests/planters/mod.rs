//! Faults that are planted in the file of an accepted area, none of which causes another: each has places of its own. What a kind of
//! fault reads elsewhere (limits and links of neighbours) is as it was in the area, and stays so: a segment that was changed takes
//! its neighbours with it.
use crate::made::Random;
use rbu::{braking_distance, FASTEST, FILE_SIZE, LONGEST, ROUTES, SEGMENTS};
use rbu_command::layout::*;
use rbu_command::tables::Tables;
use std::ops::Range;

/// Numbers and places.
pub type Told = Vec<(u8, u16)>;
/// Plants faults and tells them, or finds no place and does nothing.
pub type Planter = fn(&mut Bed) -> Option<Told>;

/// A file in which faults are planted.
pub struct Bed<'a> {
    pub random: &'a mut Random,
    /// the area as it was
    pub tables: &'a Tables,
    pub file: [u8; FILE_SIZE],
    taken: Vec<(&'static str, usize)>,
    /// blocks that are to have a wrong check in the end
    unchecked: Vec<usize>,
    told: Told,
}

impl<'a> Bed<'a> {
    pub fn new(random: &'a mut Random, tables: &'a Tables, file: &[u8; FILE_SIZE]) -> Bed<'a> {
        Bed { random, tables, file: *file, taken: vec![], unchecked: vec![], told: vec![] }
    }

    /// Whether the planter found a place.
    pub fn plant(&mut self, planter: Planter) -> bool {
        let told = planter(self);
        self.told.extend(told.iter().flatten());
        told.is_some()
    }

    /// The file with its checks, and what is to be told of it.
    pub fn done(mut self) -> ([u8; FILE_SIZE], Told) {
        put_checks(&mut self.file);
        for &block in &self.unchecked {
            let (at, by) = (BLOCK_SIZE * block + CHECK_AT + self.random.below(2), 1 + self.random.below(255) as u8);
            self.file[at] = self.file[at].wrapping_add(by);
        }
        let within = |value: u8, most: usize| (1..=most).contains(&usize::from(value));
        let (n, r) = (within(self.file[N_AT], SEGMENTS), within(self.file[R_AT], ROUTES));
        self.told.retain(|(number, _)| match number {
            6..=9 => n,
            10 => n && r,
            _ => true,
        });
        self.told.sort();
        (self.file, self.told)
    }

    // ---- places

    fn is_free(&self, what: &'static str, which: usize) -> bool {
        !self.taken.contains(&(what, which))
    }

    /// Takes a place that nothing else may have, such as a field of the header.
    fn take(&mut self, what: &'static str, which: usize) -> Option<usize> {
        let free = self.is_free(what, which);
        self.taken.push((what, which));
        free.then_some(which)
    }

    fn neighbours(&self, s: usize) -> Vec<usize> {
        let segment = self.tables.segments[s - 1];
        segment.next.into_iter().chain(segment.previous).filter(|&link| link != 0).map(usize::from).collect()
    }

    /// A free segment that fits, which is taken with its neighbours.
    fn segment(&mut self, fits: impl Fn(&Bed, usize) -> bool) -> Option<usize> {
        let fitting: Vec<usize> = (1..=self.n()).filter(|&s| self.is_free("segment", s) && fits(self, s)).collect();
        let s = self.pick(&fitting)?;
        self.take_segment(s);
        Some(s)
    }

    /// Two free segments that fit, one segment perhaps.
    fn two_segments(&mut self, fits: impl Fn(&Bed, usize, usize) -> bool) -> Option<(usize, usize)> {
        let free: Vec<usize> = (1..=self.n()).filter(|&s| self.is_free("segment", s)).collect();
        let pairs = free.iter().flat_map(|&s| free.iter().map(move |&t| (s, t)));
        let fitting: Vec<(usize, usize)> = pairs.filter(|&(s, t)| fits(self, s, t)).collect();
        let (s, t) = self.pick(&fitting)?;
        self.take_segment(s);
        self.take_segment(t);
        Some((s, t))
    }

    fn take_segment(&mut self, s: usize) {
        for s in self.neighbours(s).into_iter().chain([s]) {
            self.take("segment", s);
        }
    }

    /// A free route that fits, which is taken.
    fn route(&mut self, fits: impl Fn(&[u8]) -> bool) -> Option<usize> {
        let fitting: Vec<usize> = (1..=self.r()).filter(|&r| self.is_free("route", r) && fits(&self.tables.routes[r - 1])).collect();
        let r = self.pick(&fitting)?;
        self.take("route", r)
    }

    fn pick<T: Copy>(&mut self, list: &[T]) -> Option<T> {
        (!list.is_empty()).then(|| self.random.of(list))
    }

    // ---- what stands there

    fn n(&self) -> usize {
        self.tables.segments.len()
    }

    fn r(&self) -> usize {
        self.tables.routes.len()
    }

    fn gmax(&self) -> u16 {
        u16_at(&self.file, GMAX_AT)
    }

    fn b(&self) -> u16 {
        u16_at(&self.file, B_AT)
    }

    fn d(&self) -> u32 {
        u32_at(&self.file, D_AT)
    }

    fn limit(&self, s: usize) -> u16 {
        self.tables.segments[s - 1].limit
    }

    fn next(&self, s: usize) -> [u8; 2] {
        self.tables.segments[s - 1].next
    }

    fn previous(&self, s: usize) -> [u8; 2] {
        self.tables.segments[s - 1].previous
    }

    fn links(&self, s: usize, at: usize) -> [u8; 2] {
        if at == NEXT_AT {
            self.next(s)
        } else {
            self.previous(s)
        }
    }

    /// The drop from one limit to that of another segment is not too much.
    fn is_gentle(&self, limit: u16, to: usize) -> bool {
        u32::from(limit) <= u32::from(self.limit(to)) + u32::from(self.b())
    }

    /// Some route goes from one segment to the other.
    fn is_gone(&self, s: usize, t: usize) -> bool {
        self.tables.routes.iter().any(|route| route.windows(2).any(|step| step == [s as u8, t as u8]))
    }

    // ---- changes

    fn put(&mut self, at: usize, bytes: &[u8]) {
        self.file[at..][..bytes.len()].copy_from_slice(bytes);
    }

    fn put_links(&mut self, s: usize, at: usize, links: [u8; 2]) {
        self.put(segment_at(s) + at, &links);
    }

    fn over(&mut self, most: usize) -> u8 {
        self.random.edgy(most as u32 + 1, 255) as u8
    }

    /// Neighbouring bytes that are not zero, somewhere in a range.
    fn run(&mut self, range: Range<usize>) {
        let first = range.start + self.random.below(range.len());
        let size = 1 + self.random.below(range.end - first);
        for byte in first..first + size {
            self.file[byte] = 1 + self.random.below(255) as u8;
        }
    }

    /// One such run or two, each of which is told with the number and place.
    fn runs(&mut self, range: Range<usize>, number: u8, place: usize, two: bool) -> Option<Told> {
        if two {
            let gap = range.start + 1 + self.random.below(range.len() - 2);
            self.run(range.start..gap);
            self.run(gap + 1..range.end);
            return Some(vec![(number, place as u16); 2]);
        }
        self.run(range);
        Some(vec![(number, place as u16)])
    }
}

/// The kinds of faults, in the order in which they are planted: a later one reads what an earlier one has left.
pub const PLANTERS: [(&str, Planter); 66] = [
    ("version", |bed| {
        bed.take("version", 0)?;
        bed.file[VERSION_AT] = VERSION.wrapping_add(1 + bed.random.below(255) as u8);
        Some(vec![(4, 0)])
    }),
    ("no segments", |bed| {
        bed.take("n", 0)?;
        bed.file[N_AT] = 0;
        Some(vec![(4, 0)])
    }),
    ("too many segments", |bed| {
        bed.take("n", 0)?;
        bed.file[N_AT] = bed.over(SEGMENTS);
        Some(vec![(4, 0)])
    }),
    ("no routes", |bed| {
        bed.take("r", 0)?;
        bed.file[R_AT] = 0;
        Some(vec![(4, 0)])
    }),
    ("too many routes", |bed| {
        bed.take("r", 0)?;
        bed.file[R_AT] = bed.over(ROUTES);
        Some(vec![(4, 0)])
    }),
    ("byte 3", |bed| {
        bed.take("byte 3", 0)?;
        bed.runs(ZERO_AT..ZERO_AT + 1, 4, 0, false)
    }),
    ("zeros of the header", |bed| {
        bed.take("header", 0)?;
        bed.runs(HEADER_ZEROS, 4, 0, false)
    }),
    ("zeros of the header, two runs", |bed| {
        bed.take("header", 0)?;
        bed.runs(HEADER_ZEROS, 4, 0, true)
    }),
    ("gmax 0", gmax_0),
    ("gmax too great", gmax_over),
    ("b 0", b_0),
    ("b over gmax", |bed| {
        bed.take("numbers", 0)?;
        let b = bed.random.edgy(u32::from(bed.gmax()) + 1, u16::MAX.into()) as u16;
        bed.put(B_AT, &b.to_le_bytes());
        Some(vec![(4, 0)])
    }),
    ("d 0", |bed| {
        bed.take("numbers", 0)?;
        bed.put(D_AT, &[0; 4]);
        Some(vec![(4, 0), (5, 0)])
    }),
    ("d too great", |bed| {
        bed.take("numbers", 0)?;
        bed.take("lengths", 0);
        let d = bed.random.edgy(LONGEST + 1, u32::MAX);
        bed.put(D_AT, &d.to_le_bytes());
        // it leaves no length
        let lengths = (1..=bed.n()).map(|s| (6, s as u16));
        Some(lengths.chain([(4, 0)]).collect())
    }),
    ("d below S", |bed| {
        bed.take("numbers", 0)?;
        let way = braking_distance(bed.b(), bed.gmax());
        let d = if way < 2 { None } else { Some(bed.random.edgy(1, way - 1)) }?;
        bed.put(D_AT, &d.to_le_bytes());
        Some(vec![(5, 0)])
    }),
    ("length too short", |bed| {
        let sum = bed.d().checked_add(bed.gmax().into()).filter(|_| bed.is_free("lengths", 0))?;
        let (s, length) = (bed.segment(|_, _| true)?, bed.random.edgy(0, sum));
        bed.put(segment_at(s) + LENGTH_AT, &length.to_le_bytes());
        Some(vec![(6, s as u16)])
    }),
    ("length too great", |bed| {
        bed.is_free("lengths", 0).then_some(())?;
        let (s, length) = (bed.segment(|_, _| true)?, bed.random.edgy(LONGEST + 1, u32::MAX));
        bed.put(segment_at(s) + LENGTH_AT, &length.to_le_bytes());
        Some(vec![(6, s as u16)])
    }),
    ("limit 0", |bed| {
        bed.is_free("limits", 0).then_some(())?;
        let from = |bed: &Bed, s| bed.previous(s).into_iter().filter(|&from| from != 0).all(|from| bed.limit(from.into()) <= bed.b());
        let s = bed.segment(from)?;
        bed.put(segment_at(s) + LIMIT_AT, &[0; 2]);
        Some(vec![(6, s as u16)])
    }),
    ("limit over gmax", |bed| {
        bed.is_free("limits", 0).then_some(())?;
        let least = bed.gmax().checked_add(1)?;
        let limit = bed.random.edgy(least.into(), u16::MAX.into()) as u16;
        let s = bed.segment(|bed, s| bed.next(s).into_iter().filter(|&to| to != 0).all(|to| bed.is_gentle(limit, to.into())))?;
        bed.put(segment_at(s) + LIMIT_AT, &limit.to_le_bytes());
        Some(vec![(6, s as u16)])
    }),
    ("next link above N, one more", |bed| link_above(bed, NEXT_AT)),
    ("previous link above N, one more", |bed| link_above(bed, PREVIOUS_AT)),
    ("next link above N, for one that was used", |bed| used_link_above(bed, NEXT_AT)),
    ("previous link above N, for one that was used", |bed| used_link_above(bed, PREVIOUS_AT)),
    ("next link above N, twice", |bed| two_links_above(bed, NEXT_AT, true)),
    ("previous link above N, twice", |bed| two_links_above(bed, PREVIOUS_AT, true)),
    ("two next links above N", |bed| two_links_above(bed, NEXT_AT, false)),
    ("two previous links above N", |bed| two_links_above(bed, PREVIOUS_AT, false)),
    ("second next link above N, no first", |bed| second_link_above(bed, NEXT_AT)),
    ("second previous link above N, no first", |bed| second_link_above(bed, PREVIOUS_AT)),
    ("second next link, no first", |bed| single_link(bed, NEXT_AT, |one| [0, one])),
    ("second previous link, no first", |bed| single_link(bed, PREVIOUS_AT, |one| [0, one])),
    ("next link twice", |bed| single_link(bed, NEXT_AT, |one| [one, one])),
    ("previous link twice", |bed| single_link(bed, PREVIOUS_AT, |one| [one, one])),
    ("flags", |bed| {
        let s = bed.segment(|_, _| true)?;
        bed.file[segment_at(s) + FLAGS_AT] = bed.over(3);
        Some(vec![(6, s as u16)])
    }),
    ("zeros of a segment", |bed| segment_zeros(bed, false)),
    ("zeros of a segment, two runs", |bed| segment_zeros(bed, true)),
    ("zeros of a segment above N", |bed| zeros_above_n(bed, false)),
    ("zeros of a segment above N, two runs", |bed| zeros_above_n(bed, true)),
    ("next link without its match", |bed| {
        let fits = |bed: &Bed, s: usize, t: usize| {
            s < t && bed.next(s)[1] == 0 && !bed.next(s).contains(&(t as u8)) && bed.is_gentle(bed.limit(s), t)
        };
        let (s, t) = bed.two_segments(fits)?;
        add_link(bed, s, NEXT_AT, t);
        Some(vec![(7, s as u16)])
    }),
    ("previous link without its match", |bed| {
        let fits = |bed: &Bed, t: usize, s: usize| bed.previous(t)[1] == 0 && !bed.previous(t).contains(&(s as u8));
        let (t, s) = bed.two_segments(fits)?;
        add_link(bed, t, PREVIOUS_AT, s);
        Some(vec![(7, t as u16)])
    }),
    ("next link taken away", |bed| {
        bed.is_free("drops", 0).then_some(())?;
        let fits = |bed: &Bed, s: usize, t: usize| bed.next(s).contains(&(t as u8)) && !bed.is_gone(s, t);
        let (s, t) = bed.two_segments(fits)?;
        take_link(bed, s, NEXT_AT, t);
        Some(vec![(7, t as u16)])
    }),
    ("previous link taken away", |bed| {
        let (s, t) = bed.two_segments(|bed, s, t| bed.next(s).contains(&(t as u8)))?;
        take_link(bed, t, PREVIOUS_AT, s);
        Some(vec![(7, s as u16)])
    }),
    ("next link twice without its match", |bed| {
        let fits = |bed: &Bed, s: usize, t: usize| s < t && bed.next(s) == [0, 0] && bed.is_gentle(bed.limit(s), t);
        let (s, t) = bed.two_segments(fits)?;
        bed.put_links(s, NEXT_AT, [t as u8; 2]);
        Some(vec![(6, s as u16), (7, s as u16)])
    }),
    ("next link not to a higher number", |bed| {
        let (s, t) = backward(bed, |bed, s| bed.next(s)[1] == 0)?;
        add_link(bed, s, NEXT_AT, t);
        add_link(bed, t, PREVIOUS_AT, s);
        Some(vec![(8, s as u16)])
    }),
    ("next link not to a higher number, twice", |bed| {
        let (s, t) = backward(bed, |bed, s| bed.next(s) == [0, 0])?;
        bed.put_links(s, NEXT_AT, [t as u8; 2]);
        add_link(bed, t, PREVIOUS_AT, s);
        Some(vec![(6, s as u16), (8, s as u16)])
    }),
    ("limit raised over the drop", |bed| {
        bed.is_free("limits", 0).then_some(())?;
        let steep = |bed: &Bed, t: usize| u32::from(bed.limit(t)) + u32::from(bed.b()) < u32::from(bed.gmax());
        let (s, t) = bed.two_segments(|bed, s, t| bed.next(s).contains(&(t as u8)) && steep(bed, t))?;
        let limit = bed.random.edgy(u32::from(bed.limit(t)) + u32::from(bed.b()) + 1, bed.gmax().into()) as u16;
        bed.put(segment_at(s) + LIMIT_AT, &limit.to_le_bytes());
        let steep = bed.next(s).into_iter().filter(|&to| to != 0 && !bed.is_gentle(limit, to.into()));
        Some(steep.map(|_| (9, s as u16)).collect())
    }),
    ("limit lowered below the drop", |bed| {
        bed.is_free("limits", 0).then_some(())?;
        let (s, t) = bed.two_segments(|bed, s, t| bed.next(s).contains(&(t as u8)) && u32::from(bed.limit(s)) > 1 + u32::from(bed.b()))?;
        let limit = bed.random.edgy(1, u32::from(bed.limit(s) - bed.b()) - 1);
        bed.put(segment_at(t) + LIMIT_AT, &(limit as u16).to_le_bytes());
        let steep = bed.previous(t).into_iter().filter(|&from| from != 0 && u32::from(bed.limit(from.into())) > limit + u32::from(bed.b()));
        Some(steep.map(|from| (9, from.into())).collect())
    }),
    ("count 0", |bed| {
        let r = bed.route(|_| true)?;
        bed.file[route_at(r)] = 0;
        Some(vec![(10, r as u16)])
    }),
    ("count too great", |bed| {
        let r = bed.route(|_| true)?;
        bed.file[route_at(r)] = bed.over(ROUTE_SEGMENTS);
        Some(vec![(10, r as u16)])
    }),
    ("place 0", |bed| {
        let r = bed.route(|_| true)?;
        let place = 1 + bed.random.below(bed.tables.routes[r - 1].len());
        bed.file[route_at(r) + place] = 0;
        Some(vec![(10, r as u16)])
    }),
    ("place above N", |bed| {
        let r = bed.route(|_| true)?;
        let place = 1 + bed.random.below(bed.tables.routes[r - 1].len());
        bed.file[route_at(r) + place] = bed.over(bed.n());
        Some(vec![(10, r as u16)])
    }),
    ("places above N, side by side", |bed| {
        let r = bed.route(|route| route.len() > 1)?;
        let place = 1 + bed.random.below(bed.tables.routes[r - 1].len() - 1);
        let listed = [bed.over(bed.n()), bed.over(bed.n())];
        bed.put(route_at(r) + place, &listed);
        Some(vec![(10, r as u16); 2])
    }),
    ("step to the last place", |bed| {
        let r = bed.route(|route| route.len() > 1)?;
        another_place(bed, r, bed.tables.routes[r - 1].len())
    }),
    ("step to or from another place", |bed| {
        let r = bed.route(|route| route.len() > 1)?;
        let place = 1 + bed.random.below(bed.tables.routes[r - 1].len() - 1);
        another_place(bed, r, place)
    }),
    ("zeros of a route", |bed| route_zeros(bed, false)),
    ("zeros of a route, two runs", |bed| route_zeros(bed, true)),
    ("zeros of a route above R", |bed| zeros_above_r(bed, false)),
    ("zeros of a route above R, two runs", |bed| zeros_above_r(bed, true)),
    ("kind", |bed| {
        let block = bed.random.below(5);
        let at = BLOCK_SIZE * bed.take("kind", block)? + KIND_AT;
        bed.file[at] = KINDS[block].wrapping_add(1 + bed.random.below(255) as u8);
        Some(vec![(3, block as u16)])
    }),
    ("number", |bed| {
        let block = bed.random.below(5);
        let at = BLOCK_SIZE * bed.take("number", block)? + NUMBER_AT;
        bed.file[at] = (block as u8).wrapping_add(1 + bed.random.below(255) as u8);
        Some(vec![(3, block as u16)])
    }),
    ("zeros of a tail", |bed| block_zeros(bed, 0, TAIL_ZEROS, false)),
    ("zeros of a tail, two runs", |bed| block_zeros(bed, 0, TAIL_ZEROS, true)),
    ("zeros of a route block", |bed| block_zeros(bed, 3, ROUTE_BLOCK_ZEROS, false)),
    ("zeros of a route block, two runs", |bed| block_zeros(bed, 3, ROUTE_BLOCK_ZEROS, true)),
    ("check", |bed| {
        let block = bed.random.below(5);
        bed.take("check", block)?;
        bed.unchecked.push(block);
        Some(vec![(2, block as u16)])
    }),
    ("checks of all blocks", |bed| {
        (0..5).all(|block| bed.is_free("check", block)).then_some(())?;
        (0..5).for_each(|block| bed.taken.push(("check", block)));
        bed.unchecked.extend(0..5);
        Some((0..5).map(|block| (2, block)).collect())
    }),
];

/// `b` is above it then, and so is every limit.
fn gmax_0(bed: &mut Bed) -> Option<Told> {
    bed.take("numbers", 0)?;
    bed.take("limits", 0);
    bed.put(GMAX_AT, &[0; 2]);
    let limits = (1..=bed.n()).map(|s| (6, s as u16));
    Some(limits.chain([(4, 0); 2]).collect())
}

/// With a `d` for which it is not too much, and which is not too much for any length.
fn gmax_over(bed: &mut Bed) -> Option<Told> {
    bed.take("numbers", 0)?;
    let gmax = bed.random.edgy(u32::from(FASTEST) + 1, u16::MAX.into());
    let shortest = bed.tables.segments.iter().map(|segment| segment.length).min()?;
    let (least, most) = (braking_distance(bed.b(), gmax as u16), shortest.checked_sub(gmax + 1)?);
    let d = if least > most { None } else { Some(bed.random.edgy(least, most)) }?;
    bed.put(GMAX_AT, &(gmax as u16).to_le_bytes());
    bed.put(D_AT, &d.to_le_bytes());
    Some(vec![(4, 0)])
}

/// Every drop is too much then, and of `d` rule 5 says nothing.
fn b_0(bed: &mut Bed) -> Option<Told> {
    bed.take("numbers", 0)?;
    bed.take("limits", 0);
    bed.take("drops", 0);
    bed.put(B_AT, &[0; 2]);
    let d = bed.random.within(1, bed.d());
    bed.put(D_AT, &d.to_le_bytes());
    let drops = (1..=bed.n()).flat_map(|s| bed.next(s).map(|to| (s, usize::from(to))));
    let drops = drops.filter(|&(s, to)| to != 0 && bed.limit(s) > bed.limit(to)).map(|(s, _)| (9, s as u16));
    Some(drops.chain([(4, 0)]).collect())
}

fn link_above(bed: &mut Bed, at: usize) -> Option<Told> {
    let (s, link) = (bed.segment(|bed, s| bed.links(s, at)[1] == 0)?, bed.over(bed.n()));
    add_link(bed, s, at, link.into());
    Some(vec![(6, s as u16)])
}

/// Nobody knows then where it led: neither the links that match it nor routes along it are faults.
fn used_link_above(bed: &mut Bed, at: usize) -> Option<Told> {
    bed.is_free("drops", 0).then_some(())?;
    let (s, link) = (bed.segment(|bed, s| bed.links(s, at)[0] != 0)?, bed.over(bed.n()));
    let links = bed.links(s, at);
    let place = bed.random.below(if links[1] == 0 { 1 } else { 2 });
    bed.file[segment_at(s) + at + place] = link;
    Some(vec![(6, s as u16)])
}

fn two_links_above(bed: &mut Bed, at: usize, same: bool) -> Option<Told> {
    let s = bed.segment(|bed, s| bed.links(s, at) == [0, 0])?;
    let one = bed.random.within(bed.n() as u32 + 1, 254) as u8;
    bed.put_links(s, at, [one, if same { one } else { one + 1 }]);
    Some(vec![(6, s as u16); 2])
}

fn second_link_above(bed: &mut Bed, at: usize) -> Option<Told> {
    let (s, link) = (bed.segment(|bed, s| bed.links(s, at) == [0, 0])?, bed.over(bed.n()));
    bed.put_links(s, at, [0, link]);
    Some(vec![(6, s as u16); 2])
}

fn single_link(bed: &mut Bed, at: usize, change: fn(u8) -> [u8; 2]) -> Option<Told> {
    let s = bed.segment(|bed, s| bed.links(s, at)[0] != 0 && bed.links(s, at)[1] == 0)?;
    bed.put_links(s, at, change(bed.links(s, at)[0]));
    Some(vec![(6, s as u16)])
}

fn add_link(bed: &mut Bed, s: usize, at: usize, link: usize) {
    let place = usize::from(bed.links(s, at)[0] != 0);
    bed.file[segment_at(s) + at + place] = link as u8;
}

fn take_link(bed: &mut Bed, s: usize, at: usize, link: usize) {
    let [one, two] = bed.links(s, at);
    bed.put_links(s, at, [if usize::from(one) == link { two } else { one }, 0]);
}

/// Two segments that are not linked, and may be but for their order; one segment perhaps.
fn backward(bed: &mut Bed, open: fn(&Bed, usize) -> bool) -> Option<(usize, usize)> {
    bed.two_segments(|bed, s, t| t <= s && open(bed, s) && bed.previous(t)[1] == 0 && bed.is_gentle(bed.limit(s), t))
}

fn segment_zeros(bed: &mut Bed, two: bool) -> Option<Told> {
    let s = bed.segment(|_, _| true)?;
    bed.runs(segment_at(s) + SEGMENT_ZEROS.start..segment_at(s) + SEGMENT_ZEROS.end, 6, s, two)
}

fn zeros_above_n(bed: &mut Bed, two: bool) -> Option<Told> {
    let above: Vec<usize> = (bed.n() + 1..=SEGMENTS).collect();
    let s = bed.pick(&above)?;
    bed.take("segment", s)?;
    bed.runs(segment_at(s)..segment_at(s) + SEGMENT_SIZE, 6, s, two)
}

/// Another segment at a place of a route. What the steps read is not taken, so that it is as in the area.
fn another_place(bed: &mut Bed, r: usize, place: usize) -> Option<Told> {
    let (tables, at) = (bed.tables, route_at(r));
    let route = &tables.routes[r - 1];
    let broken = |steps: &[u8]| steps.windows(2).filter(|step| !tables.segments[usize::from(step[0]) - 1].next.contains(&step[1])).count();
    let changed = |here: u8| {
        let mut steps = route.clone();
        steps[place - 1] = here;
        steps
    };
    let is_free = |&&s: &&u8| bed.is_free("segment", s.into());
    let fits = |here: &u8| {
        let steps = changed(*here);
        let around = &steps[place.saturating_sub(2)..steps.len().min(place + 1)];
        broken(around) > 0 && around.iter().take(around.len() - 1).filter(is_free).count() == around.len() - 1
    };
    let fitting: Vec<u8> = (1..=bed.n() as u8).filter(fits).collect();
    let here = bed.pick(&fitting)?;
    bed.file[at + place] = here;
    Some(vec![(10, r as u16); broken(&changed(here))])
}

fn route_zeros(bed: &mut Bed, two: bool) -> Option<Told> {
    let r = bed.route(|route| route.len() + 3 <= ROUTE_SEGMENTS || (!two && route.len() < ROUTE_SEGMENTS))?;
    let at = route_at(r);
    bed.runs(at + 1 + bed.tables.routes[r - 1].len()..at + ROUTE_SIZE, 10, r, two)
}

fn zeros_above_r(bed: &mut Bed, two: bool) -> Option<Told> {
    let above: Vec<usize> = (bed.r() + 1..=ROUTES).collect();
    let r = bed.pick(&above)?;
    bed.take("route", r)?;
    bed.runs(route_at(r)..route_at(r) + ROUTE_SIZE, 10, r, two)
}

/// Zeros of a block from a number on.
fn block_zeros(bed: &mut Bed, from: usize, zeros: Range<usize>, two: bool) -> Option<Told> {
    let block = from + bed.random.below(5 - from);
    bed.take(if from == 0 { "tail" } else { "route block" }, block)?;
    bed.runs(BLOCK_SIZE * block + zeros.start..BLOCK_SIZE * block + zeros.end, 3, block, two)
}
