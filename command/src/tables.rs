//! An area as a planner has it: what is chosen, without what follows from it. A file's zeros, kinds, numbers and checks are no part of it.
use crate::layout::*;
use rbu::{FILE_SIZE, ROUTES, SEGMENTS};

#[derive(Clone, PartialEq, Eq, Debug, Default)]
pub struct Tables {
    pub gmax: u16,
    pub b: u16,
    pub d: u32,
    pub segments: Vec<Segment>,
    /// the segments of each route
    pub routes: Vec<Vec<u8>>,
}

/// A link is a segment's number, or 0 for none.
#[derive(Clone, Copy, PartialEq, Eq, Debug, Default)]
pub struct Segment {
    pub length: u32,
    pub limit: u16,
    pub next: [u8; 2],
    pub previous: [u8; 2],
    pub flags: u8,
}

impl Segment {
    pub fn is_entry(&self) -> bool {
        self.flags & ENTRY != 0
    }

    pub fn is_exit(&self) -> bool {
        self.flags & EXIT != 0
    }
}

impl Tables {
    /// What a file of the right size spells, whatever stands in it: of more segments, routes or places than there is room for, those
    /// that there is room for.
    pub fn of_file(file: &[u8; FILE_SIZE]) -> Tables {
        let segment = |number| {
            let at = segment_at(number);
            Segment {
                length: u32_at(file, at + LENGTH_AT),
                limit: u16_at(file, at + LIMIT_AT),
                next: [file[at + NEXT_AT], file[at + NEXT_AT + 1]],
                previous: [file[at + PREVIOUS_AT], file[at + PREVIOUS_AT + 1]],
                flags: file[at + FLAGS_AT],
            }
        };
        let route = |number| {
            let at = route_at(number);
            file[at + 1..][..usize::from(file[at]).min(ROUTE_SEGMENTS)].to_vec()
        };
        Tables {
            gmax: u16_at(file, GMAX_AT),
            b: u16_at(file, B_AT),
            d: u32_at(file, D_AT),
            segments: (1..=usize::from(file[N_AT]).min(SEGMENTS)).map(segment).collect(),
            routes: (1..=usize::from(file[R_AT]).min(ROUTES)).map(route).collect(),
        }
    }

    /// The bytes that it spells, whether load takes them or not. It has at most 62 segments and 30 routes of at most 31.
    pub fn file(&self) -> [u8; FILE_SIZE] {
        let mut file = [0; FILE_SIZE];
        file[VERSION_AT] = VERSION;
        file[N_AT] = self.segments.len() as u8;
        file[R_AT] = self.routes.len() as u8;
        put(&mut file, GMAX_AT, &self.gmax.to_le_bytes());
        put(&mut file, B_AT, &self.b.to_le_bytes());
        put(&mut file, D_AT, &self.d.to_le_bytes());
        for (number, segment) in (1..).zip(&self.segments) {
            let at = segment_at(number);
            put(&mut file, at + LENGTH_AT, &segment.length.to_le_bytes());
            put(&mut file, at + LIMIT_AT, &segment.limit.to_le_bytes());
            put(&mut file, at + NEXT_AT, &segment.next);
            put(&mut file, at + PREVIOUS_AT, &segment.previous);
            file[at + FLAGS_AT] = segment.flags;
        }
        for (number, route) in (1..).zip(&self.routes) {
            let at = route_at(number);
            file[at] = route.len() as u8;
            put(&mut file, at + 1, route);
        }
        for (number, block) in file.chunks_exact_mut(BLOCK_SIZE).enumerate() {
            block[KIND_AT] = KINDS[number];
            block[NUMBER_AT] = number as u8;
        }
        put_checks(&mut file);
        file
    }

    /// The segments that have a next link to this one, by rising number.
    pub fn leading_to(&self, number: usize) -> Vec<u8> {
        let leads = |segment: &Segment| segment.next.iter().any(|&to| to != 0 && usize::from(to) == number);
        (1..).zip(&self.segments).filter(|(_, segment)| leads(segment)).map(|(from, _)| from).collect()
    }

    /// The previous links that follow from the next links, by rising number; none where more than two segments lead here.
    pub fn usual_previous(&self, number: usize) -> Option<[u8; 2]> {
        match self.leading_to(number)[..] {
            [] => Some([0, 0]),
            [one] => Some([one, 0]),
            [one, two] => Some([one, two]),
            _ => None,
        }
    }
}

fn put(file: &mut [u8], at: usize, bytes: &[u8]) {
    file[at..][..bytes.len()].copy_from_slice(bytes);
}
