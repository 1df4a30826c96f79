//! The certain values, the sums of braking, Area A's listing, the edges, the route view.

use reference::*;

/// The numbers as the papers write them, and how they hang together.
#[test]
fn numbers_of_the_paper() {
    assert_eq!((SEGMENTS, ROUTES, ROUTE_SEGMENTS, TRAINS, WISHES), (62, 30, 31, 24, 24));
    assert_eq!(Bounds::DOCUMENT_01, Bounds { top_speed: 1000, longest: 1_000_000 });
    assert_eq!(Bounds::DOCUMENT_02, Bounds { top_speed: 2000, longest: 4_000_000 });
    assert_eq!((TOP_SPEED, LONGEST, LAST_COUNT, LONGEST_TRAIN), (2000, 4_000_000, 65_535, 20_000));
    assert_eq!((BLOCKS, BLOCK_SIZE, FILE_SIZE), (5, 512, 2560));
    assert_eq!(FILE_SIZE, BLOCKS * BLOCK_SIZE);
    // two blocks of segments, two of routes
    assert_eq!((SEGMENTS_A_BLOCK, SEGMENT_SIZE), (usize::from(SEGMENTS) / 2, KIND_AT / SEGMENTS_A_BLOCK));
    assert_eq!((ROUTES_A_BLOCK, ROUTE_SIZE), (usize::from(ROUTES) / 2, ROUTE_BLOCK_ZEROS.start / ROUTES_A_BLOCK));
    assert_eq!((ROUTE_BLOCK_ZEROS.end, HEADER_ZEROS.end), (KIND_AT, KIND_AT));
    assert_eq!((TAIL_ZEROS.start, TAIL_ZEROS.end, CHECK_AT + 2), (BLOCK_NUMBER_AT + 1, CHECK_AT, BLOCK_SIZE));
    assert_eq!((SEGMENT_ZEROS, ROUTE_SIZE), (FLAGS_AT + 1..SEGMENT_SIZE, 1 + usize::from(ROUTE_SEGMENTS)));
    // docs/FORMATS.md
    assert_eq!((ITEMS, MOST_WISHES), (32, ITEMS - 7));
    assert_eq!(STATE_SIZE, STATE_TRAINS_AT + STATE_TRAIN_SIZE * usize::from(TRAINS));
    assert_eq!((STATE_SIZE, STATE_ALLOCATIONS.len()), (832, usize::from(SEGMENTS)));
}

#[test]
fn certain_values_of_s_and_b() {
    for (b, v, way) in
        [(10, 5, 5), (10, 10, 10), (10, 11, 12), (10, 295, 4500), (10, 300, 4650), (300, 300, 300), (1, 1000, 500_500), (7, 0, 0)]
    {
        assert_eq!(s(b, v), way, "S({v}) with b = {b}");
    }
    assert_eq!(b_rest(10, 300), 4350);
    // R-3 of document 02: "b = 1 and v = 2000 gives 2,001,000"
    // reading: gives S, which b = 1 and v = 1000 gives in document 01.
    assert_eq!((s(1, 2000), b_rest(1, 2000)), (2_001_000, 1_999_000));
}

/// "v + (v − b) + (v − 2b) + .. while the terms are positive", term by term. R-3 of document 02: "The braking distance must be right for
/// all speeds up to 2000".
#[test]
fn s_is_the_sum_of_its_terms() {
    for b in 1..=u32::from(TOP_SPEED) + 1 {
        for v in 0..=u32::from(TOP_SPEED) {
            let (mut sum, mut term) = (0, i64::from(v));
            while term > 0 {
                sum += term as u64;
                term -= i64::from(b);
            }
            assert_eq!(s(b, v), sum);
        }
    }
    assert_eq!(s(1, u32::MAX), u64::from(u32::MAX) * (u64::from(u32::MAX) + 1) / 2);
    assert_eq!(s(u32::MAX, u32::MAX), u64::from(u32::MAX));
    assert_eq!((s(0, 0), s(0, 1)), (0, u64::MAX));
}

/// R-5 of document 02: "keep the falling speed as a running value and lower it by `b` each turn, to 0 at the last. After each turn the sum
/// so far and S of the kept speed together make S(v)."
// reading: a turn adds the kept speed and then lowers it, and there is one for each positive term, so that S(0) has none.
#[test]
fn the_turns_of_a_braking_sum() {
    for b in 1..=u32::from(TOP_SPEED) {
        for v in 0..=u32::from(TOP_SPEED) {
            let whole = s(b, v);
            let (mut sum, mut kept) = (0, v);
            while kept > 0 {
                sum += u64::from(kept);
                kept = kept.saturating_sub(b);
                assert_eq!(sum + s(b, kept), whole, "b = {b}, v = {v}, with {kept} kept");
            }
            assert_eq!(sum, whole, "b = {b}, v = {v}, at the end");
        }
    }
}

/// "The program reads Area A's file .., loads it, enters train 1 on route 1 at 250 and train 2
/// on route 2 at 200, runs six cycles with all wishes 300, and prints cycle, train, segment,
/// position, speed".
fn listing(file: &[u8]) -> String {
    let mut area = load(file).expect("accepted");
    assert_eq!(AREA_A_ENTRIES.map(|call| area.call(&call)), [0, 0]);
    let mut lines = String::from("cycle train segment position speed\n");
    for cycle in 1..=6 {
        assert_eq!(AREA_A_CYCLE.map(|call| area.call(&call)), [0, 0, 0, 0]);
        let record = area.record();
        for (number, train) in (1..).zip(&record.trains).filter(|(_, train)| train.is_on()) {
            lines += &format!("{cycle} {number} {} {} {}\n", train.own(&record.tables), train.position, train.speed);
        }
    }
    lines
}

#[test]
fn listing_of_area_a() {
    assert_eq!(
        listing(&area_a().file()),
        "\
cycle train segment position speed
1 1 1 300 300
1 2 2 290 290
2 1 1 600 300
2 2 2 580 290
3 1 1 900 300
3 2 2 870 290
4 1 1 1200 300
4 2 2 1150 280
5 1 1 1500 300
5 2 2 1440 290
6 1 1 1790 290
6 2 2 1730 290
"
    );
}

#[test]
fn loaded_area() {
    let file = area_a().file();
    let area = load(&file).unwrap();
    assert_eq!(area.record(), Record::loaded(decode_tables(&file)));
    assert!(sound(&area.record()));
    assert_eq!(area.report(), (0, 0, 1));
}

fn refused(description: &Description) -> (u8, u16) {
    answer_of(&description.file())
}

/// "`d` 4649 is 5. Length 4950 is 6, 4951 passes. Limit 289 on segment 3 is 9."
#[test]
fn edges_of_the_file() {
    let a = area_a();
    assert_eq!(refused(&Description { d: 4649, ..a.clone() }), (5, 0));
    let with_length = |length| {
        let mut a = area_a();
        a.segments[1].length = length;
        a
    };
    assert_eq!(refused(&with_length(4950)), (6, 2));
    assert_eq!(refused(&with_length(4951)), (0, 0));
    let mut low = a;
    low.segments[2].limit = 289;
    assert_eq!(refused(&low), (9, 1));
}

/// "Position + speed equal to the length moves on to 0." R-4 of document 02: the old segment is freed when the rear, here one behind the
/// front, is at its end.
#[test]
fn edge_of_the_position_step() {
    let mut record = Record::loaded(decode_tables(&area_a().file()));
    record.trains[0] = RawTrain { route: 1, place: 1, position: 5710, speed: 290, asks: 0, count: 9, length: 1 };
    record.allocations[..3].copy_from_slice(&[1, 0, 1]);
    record.due = POSITION;
    let (number, back) = call_on(&record, &Call::Position);
    assert_eq!(number, 0);
    assert_eq!(back.trains[0], RawTrain { route: 1, place: 2, position: 0, speed: 290, asks: 0, count: 9, length: 1 });
    assert_eq!(back.allocations[..3], [1, 0, 1]);
    assert_eq!(back.due, SPEED);
    // one more frees the old segment
    record.trains[0].position = 5711;
    let (number, back) = call_on(&record, &Call::Position);
    assert_eq!((number, back.trains[0].place, back.trains[0].position), (0, 2, 1));
    assert_eq!(back.allocations[..3], [0, 0, 1]);
    // one less stays
    record.trains[0].position = 5709;
    let (number, back) = call_on(&record, &Call::Position);
    assert_eq!((number, back.trains[0].place, back.trains[0].position), (0, 1, 5999));
    assert_eq!(back.allocations[..3], [1, 0, 1]);
}

#[test]
fn route_views() {
    let mut a = area_a();
    let file = a.file();
    assert_eq!((route_view(&file, 1), route_view_start(&file, 1)), (&[1, 3][..], 3 * BLOCK_SIZE + 1));
    assert_eq!((route_view(&file, 2), route_view_start(&file, 2)), (&[2, 3][..], 3 * BLOCK_SIZE + ROUTE_SIZE + 1));
    assert_eq!(route_view(&file, 2).as_ptr(), file[3 * BLOCK_SIZE + ROUTE_SIZE + 1..].as_ptr());
    for route in [0, 3, 257, 258, u16::MAX] {
        assert_eq!((route_view(&file, route), route_view_start(&file, route)), (&[][..], 0));
    }
    a.routes = vec![vec![3]; ROUTES.into()];
    let file = a.file();
    assert_eq!((route_view(&file, 15), route_view_start(&file, 15)), (&[3][..], 3 * BLOCK_SIZE + 14 * ROUTE_SIZE + 1));
    assert_eq!((route_view(&file, 16), route_view_start(&file, 16)), (&[3][..], 4 * BLOCK_SIZE + 1));
    assert_eq!(
        (route_view(&file, ROUTES.into()), route_view_start(&file, ROUTES.into())),
        (&[3][..], 4 * BLOCK_SIZE + 14 * ROUTE_SIZE + 1)
    );
    // empty "when load refuses the file"
    let mut damaged = file.clone();
    damaged[100] ^= 1;
    assert_eq!((route_view(&damaged, 1), route_view_start(&damaged, 1)), (&[][..], 0));
    assert!(route_view(&file[1..], 1).is_empty());
    assert!(route_view(&[], 1).is_empty());
}
