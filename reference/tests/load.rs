//! Refusals 1 to 10, each with its place.

use reference::*;

/// Area A's file with bytes set and right checks.
fn with(bytes: &[(usize, u8)]) -> (u8, u16) {
    let mut file = area_a().file();
    for &(at, byte) in bytes {
        file[at] = byte;
    }
    put_checks(&mut file);
    answer_of(&file)
}

/// Area A changed in its description.
fn changed(change: impl Fn(&mut Description)) -> (u8, u16) {
    let mut a = area_a();
    change(&mut a);
    answer_of(&a.file())
}

/// Where segment and route records start, written out by hand.
const SEGMENT_1: usize = BLOCK_SIZE;
const SEGMENT_3: usize = BLOCK_SIZE + 32;
const SEGMENT_4: usize = BLOCK_SIZE + 48;
const SEGMENT_31: usize = BLOCK_SIZE + 480;
const SEGMENT_32: usize = 2 * BLOCK_SIZE;
const SEGMENT_62: usize = 2 * BLOCK_SIZE + 480;
const ROUTE_1: usize = 3 * BLOCK_SIZE;
const ROUTE_2: usize = 3 * BLOCK_SIZE + 32;
const ROUTE_3: usize = 3 * BLOCK_SIZE + 64;
const ROUTE_15: usize = 3 * BLOCK_SIZE + 448;
const ROUTE_16: usize = 4 * BLOCK_SIZE;
const ROUTE_30: usize = 4 * BLOCK_SIZE + 448;

#[test]
fn accepted() {
    assert_eq!(with(&[]), (0, 0));
}

#[test]
fn size_1() {
    let file = area_a().file();
    assert_eq!(answer_of(&file[..FILE_SIZE - 1]), (1, 0));
    assert_eq!(answer_of(&[]), (1, 0));
    assert_eq!(answer_of(&[file, vec![0]].concat()), (1, 0));
}

#[test]
fn damaged_2() {
    for block in 0..BLOCKS {
        for at in [0, 200, 496, 509, 510, 511] {
            let mut file = area_a().file();
            file[block * BLOCK_SIZE + at] ^= 1;
            assert_eq!(answer_of(&file), (2, block as u16));
        }
    }
    // the first block; before any later rule
    let mut file = area_a().file();
    for at in [3, 2 * BLOCK_SIZE + 497, 4 * BLOCK_SIZE] {
        file[at] ^= 1;
    }
    assert_eq!(answer_of(&file), (2, 0));
    // a stored 255 is not the sum 0
    let mut file = area_a().file();
    file[3] = 255 - check(&file[..BLOCK_SIZE])[0];
    put_checks(&mut file);
    assert_eq!((file[510], answer_of(&file)), (0, (4, 0)));
    file[510] = 255;
    assert_eq!(answer_of(&file), (2, 0));
}

#[test]
fn misfiled_3() {
    for block in 0..BLOCKS {
        let start = block * BLOCK_SIZE;
        for at in [496, 497] {
            assert_eq!(with(&[(start + at, 9)]), (3, block as u16));
        }
        for at in 498..510 {
            assert_eq!(with(&[(start + at, 1)]), (3, block as u16));
        }
    }
    for at in 480..496 {
        assert_eq!(with(&[(3 * BLOCK_SIZE + at, 1)]), (3, 3));
        assert_eq!(with(&[(4 * BLOCK_SIZE + at, 1)]), (3, 4));
        // not of the others
        assert_eq!(with(&[(at, 1)]), (4, 0));
        assert_eq!(with(&[(BLOCK_SIZE + at, 1)]), (6, 31));
        assert_eq!(with(&[(2 * BLOCK_SIZE + at, 1)]), (6, 62));
    }
    // over the whole file before rule 4
    assert_eq!(with(&[(0, 2), (4 * BLOCK_SIZE + 497, 3)]), (3, 4));
}

#[test]
fn header_4() {
    for (at, byte) in [(0, 0), (0, 2), (1, 0), (1, SEGMENTS + 1), (2, 0), (2, ROUTES + 1), (3, 1), (12, 1), (495, 1)] {
        assert_eq!(with(&[(at, byte)]), (4, 0));
    }
    for (gmax, b, d) in
        [(0, 10, 4650), (TOP_SPEED + 1, 10, LONGEST), (300, 0, 4650), (300, 301, 4650), (300, 10, 0), (300, 10, LONGEST + 1)]
    {
        assert_eq!(changed(|a| (a.gmax, a.b, a.d) = (gmax, b, d)), (4, 0));
    }
    // far beyond the bounds
    assert_eq!(changed(|a| a.gmax = u16::MAX), (4, 0));
    assert_eq!(changed(|a| a.d = u32::MAX), (4, 0));
    // at the bounds, the later rules speak
    assert_eq!(changed(|a| (a.gmax, a.b, a.d) = (TOP_SPEED, 1, LONGEST)), (6, 1));
    assert_eq!(changed(|a| (a.gmax, a.b, a.d) = (300, 300, 300)), (0, 0));
    assert_eq!(with(&[(1, SEGMENTS)]), (6, 4));
    assert_eq!(with(&[(2, ROUTES)]), (10, 3));
}

#[test]
fn margin_5() {
    assert_eq!(changed(|a| a.d = 4649), (5, 0));
    assert_eq!(changed(|a| a.b = 9), (5, 0));
    // S, not B
    assert_eq!(changed(|a| a.d = 4350), (5, 0));
    assert_eq!(changed(|a| (a.d, a.segments[0].length) = (4649, 0)), (5, 0));
}

#[test]
fn segment_6() {
    assert_eq!(changed(|a| a.segments[0].length = 4950), (6, 1));
    assert_eq!(changed(|a| a.segments[2].length = LONGEST), (0, 0));
    assert_eq!(changed(|a| a.segments[2].length = LONGEST + 1), (6, 3));
    assert_eq!(changed(|a| a.segments[2].length = u32::MAX), (6, 3));
    assert_eq!(changed(|a| a.segments[1].limit = 0), (6, 2));
    assert_eq!(changed(|a| a.segments[0].limit = 301), (6, 1));
    // "link over N"
    assert_eq!(changed(|a| a.segments[2].next = [4, 0]), (6, 3));
    assert_eq!(changed(|a| a.segments[1].next = [3, 4]), (6, 2));
    assert_eq!(changed(|a| a.segments[2].previous = [255, 0]), (6, 3));
    assert_eq!(changed(|a| a.segments[2].previous = [1, 4]), (6, 3));
    // "a second link that is not 0 while the first is 0 or the same number"
    assert_eq!(changed(|a| a.segments[0].next = [0, 3]), (6, 1));
    assert_eq!(changed(|a| a.segments[0].next = [3, 3]), (6, 1));
    assert_eq!(changed(|a| a.segments[2].previous = [0, 1]), (6, 3));
    assert_eq!(changed(|a| a.segments[2].previous = [2, 2]), (6, 3));
    assert_eq!(changed(|a| a.segments[2].previous = [2, 1]), (0, 0));
    assert_eq!(changed(|a| a.segments[1].flags = 3), (0, 0));
    assert_eq!(changed(|a| a.segments[1].flags = 4), (6, 2));
    // "a zero broken"
    for at in 11..16 {
        assert_eq!(with(&[(SEGMENT_1 + at, 1)]), (6, 1));
    }
    // "a record above N not all zero"
    for at in 0..16 {
        assert_eq!(with(&[(SEGMENT_4 + at, 1)]), (6, 4));
        assert_eq!(with(&[(SEGMENT_31 + at, 1)]), (6, 31));
        assert_eq!(with(&[(SEGMENT_32 + at, 1)]), (6, 32));
        assert_eq!(with(&[(SEGMENT_62 + at, 1)]), (6, 62));
    }
    // the least record, before rule 7
    assert_eq!(with(&[(SEGMENT_62, 1), (SEGMENT_3 + 15, 1), (SEGMENT_1 + 6, 0)]), (6, 3));
}

#[test]
fn joint_7() {
    // segment 1's next link 3 without the matching previous link
    assert_eq!(changed(|a| a.segments[2].previous = [2, 0]), (7, 1));
    assert_eq!(changed(|a| a.segments[2].previous = [1, 0]), (7, 2));
    // the reverse: segment 3's previous link 1 without the matching next link
    assert_eq!(changed(|a| a.segments[0].next = [0, 0]), (7, 3));
    // segment 2's previous link 3 stands alone; the least segment with such a link is 2
    assert_eq!(changed(|a| a.segments[1].previous = [3, 0]), (7, 2));
    // before rule 8, over the whole file
    assert_eq!(
        changed(|a| {
            (a.segments[0].next, a.segments[0].previous) = ([3, 1], [1, 0]);
            a.segments[2].previous = [1, 0];
        }),
        (7, 2)
    );
}

#[test]
fn order_8() {
    // to itself
    assert_eq!(changed(|a| (a.segments[1].next, a.segments[1].previous) = ([3, 2], [2, 0])), (8, 2));
    // back, before rule 9
    assert_eq!(
        changed(|a| {
            (a.segments[2].next, a.segments[0].previous) = ([1, 0], [3, 0]);
            a.segments[2].limit = 1;
        }),
        (8, 3)
    );
}

#[test]
fn drop_9() {
    assert_eq!(changed(|a| a.segments[2].limit = 289), (9, 1));
    assert_eq!(changed(|a| (a.segments[2].limit, a.segments[0].limit) = (279, 289)), (9, 2));
    assert_eq!(changed(|a| (a.segments[2].limit, a.routes) = (289, vec![vec![]])), (9, 1));
}

#[test]
fn route_10() {
    assert_eq!(with(&[(ROUTE_1, 0)]), (10, 1));
    assert_eq!(with(&[(ROUTE_2, ROUTE_SEGMENTS + 1)]), (10, 2));
    assert_eq!(with(&[(ROUTE_2, 255)]), (10, 2));
    // a number outside 1 to N
    assert_eq!(with(&[(ROUTE_2, 3)]), (10, 2));
    assert_eq!(with(&[(ROUTE_1 + 1, 4)]), (10, 1));
    assert_eq!(with(&[(ROUTE_1 + 1, 255)]), (10, 1));
    // a step that is no next link
    assert_eq!(changed(|a| a.routes[1] = vec![1, 2]), (10, 2));
    assert_eq!(changed(|a| a.routes[1] = vec![3, 1]), (10, 2));
    assert_eq!(changed(|a| a.routes[1] = vec![1, 1]), (10, 2));
    // a zero broken
    assert_eq!(with(&[(ROUTE_1 + 3, 3)]), (10, 1));
    assert_eq!(with(&[(ROUTE_2 + 31, 1)]), (10, 2));
    assert_eq!(with(&[(ROUTE_1, 1)]), (10, 1));
    // a record above R not all zero
    for at in [0, 1, 31] {
        assert_eq!(with(&[(ROUTE_3 + at, 1)]), (10, 3));
        assert_eq!(with(&[(ROUTE_15 + at, 1)]), (10, 15));
        assert_eq!(with(&[(ROUTE_16 + at, 1)]), (10, 16));
        assert_eq!(with(&[(ROUTE_30 + at, 1)]), (10, 30));
    }
    assert_eq!(changed(|a| a.routes = vec![vec![3]; ROUTES.into()]), (0, 0));
}

#[test]
fn route_of_31_segments() {
    let mut line = area_a();
    line.segments = (1..=SEGMENTS)
        .map(|k| Segment { length: 4951, limit: 300, next: [if k < SEGMENTS { k + 1 } else { 0 }, 0], previous: [k - 1, 0], flags: 3 })
        .collect();
    line.routes = vec![(1..=ROUTE_SEGMENTS).collect(), (ROUTE_SEGMENTS + 1..=SEGMENTS).collect()];
    assert_eq!(answer_of(&line.file()), (0, 0));
    assert_eq!(route_view(&line.file(), 2), (ROUTE_SEGMENTS + 1..=SEGMENTS).collect::<Vec<u8>>());
}

/// The tables without any rule: all the bytes that the record keeps.
#[test]
fn tables_without_rules() {
    let file: Vec<u8> = (0..FILE_SIZE).map(|at| (at * 7 + at / 256) as u8).collect();
    let tables = decode_tables(&file);
    assert_eq!((tables.n, tables.r), (file[1], file[2]));
    assert_eq!(tables.gmax, u16::from_le_bytes([file[4], file[5]]));
    assert_eq!(tables.b, u16::from_le_bytes([file[6], file[7]]));
    assert_eq!(tables.d, u32::from_le_bytes(file[8..12].try_into().unwrap()));
    let last = tables.segment(SEGMENTS);
    assert_eq!(last.length, u32::from_le_bytes(file[SEGMENT_62..SEGMENT_62 + 4].try_into().unwrap()));
    assert_eq!(last.limit, u16::from_le_bytes(file[SEGMENT_62 + 4..SEGMENT_62 + 6].try_into().unwrap()));
    assert_eq!(last.next, file[SEGMENT_62 + 6..SEGMENT_62 + 8]);
    assert_eq!(last.previous, file[SEGMENT_62 + 8..SEGMENT_62 + 10]);
    assert_eq!(last.flags, file[SEGMENT_62 + 10]);
    assert_eq!(tables.route(ROUTES).count, file[ROUTE_30]);
    assert_eq!(tables.route(ROUTES).numbers, file[ROUTE_30 + 1..ROUTE_30 + ROUTE_SIZE]);
    assert!(!sound(&Record::loaded(tables)));
}
