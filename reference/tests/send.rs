//! Request R-1 of document 02: the area file sent back out, refusals 11 and 22.

use reference::edges::sound_record;
use reference::random::{self, Random};
use reference::*;

/// Lengths that a buffer must not have.
const WRONG: [usize; 6] = [0, 1, BLOCK_SIZE, FILE_SIZE - 1, FILE_SIZE + 1, 2 * FILE_SIZE];

/// Bytes that are neither zeros nor a file: none is 0, and neighbours differ.
fn pattern(length: usize) -> Vec<u8> {
    (0..length).map(|at| (at % 255) as u8 + 1).collect()
}

/// What a record sends into a buffer with 0xa5 throughout.
fn sent(record: &Record) -> Vec<u8> {
    let mut buffer = vec![0xa5; FILE_SIZE];
    assert_eq!(send(record, &mut buffer), 0);
    buffer
}

/// A refusal leaves the buffer untouched.
fn refused(record: &Record, length: usize, number: u8) {
    for before in [pattern(length), vec![0; length], vec![0xa5; length]] {
        let mut buffer = before.clone();
        assert_eq!(send(record, &mut buffer), number, "a buffer of {length} bytes");
        assert!(buffer == before, "a buffer of {length} bytes is not as it was");
    }
}

/// Area A with the two trains of the listing after some steps of its cycles.
fn area_a_after(steps: usize) -> Area {
    let mut area = load(&area_a().file()).unwrap();
    for call in AREA_A_ENTRIES.iter().chain(AREA_A_CYCLE.iter().cycle().take(steps)) {
        assert_eq!(area.call(call), 0);
    }
    area
}

/// The bytes of Area A's file that are not zero, written out by hand.
#[test]
fn area_a_byte_by_byte() {
    let mut file = [0; 2560];
    for (at, bytes) in [
        (0, &[1, 3, 2, 0, 44, 1, 10, 0, 42, 18, 0, 0][..]),
        (496, &[1, 0]),
        (510, &[122, 33]),
        (512, &[112, 23, 0, 0, 44, 1, 3, 0, 0, 0, 1]),
        (528, &[124, 21, 0, 0, 34, 1, 3, 0, 0, 0, 1]),
        (544, &[64, 31, 0, 0, 34, 1, 0, 0, 1, 2, 2]),
        (1008, &[2, 1]),
        (1022, &[251, 42]),
        (1520, &[2, 2]),
        (1534, &[4, 54]),
        (1536, &[2, 1, 3]),
        (1568, &[2, 2, 3]),
        (2032, &[3, 3]),
        (2046, &[19, 97]),
        (2544, &[3, 4]),
        (2558, &[7, 94]),
    ] {
        file[at..at + bytes.len()].copy_from_slice(bytes);
    }
    assert_eq!(sent(&load(&file).unwrap().record()), file);
    assert_eq!(area_a().file(), file);
}

/// "an accepted file, loaded and written, comes out the same byte for byte", and "Loading that file gives those tables".
#[test]
fn accepted_files_come_out_the_same() {
    let mut random = Random::new(16);
    let made = (0..1000).map(|k| random::area(&mut random, k % 2 == 0));
    for description in [area_a(), full_area()].into_iter().chain(made) {
        let file = description.file();
        let area = load(&file).unwrap();
        assert!(sent(&area.record()) == file, "{description:?}");
        assert_eq!(read(&sent(&area.record())), Ok(*area.tables()));
        assert!(file_of(area.tables())[..] == file);
        // a running area sends the same, and is refused the same
        let mut buffer = pattern(FILE_SIZE);
        assert_eq!(area.send(&mut buffer), 0);
        assert!(buffer == file);
        for length in WRONG {
            let mut buffer = pattern(length);
            assert_eq!(area.send(&mut buffer), 22);
            assert!(buffer == pattern(length));
        }
    }
}

/// "trains aren't written": with any trains and any step due the file is the one of the load.
#[test]
fn trains_and_the_step_due_are_not_written() {
    let file = area_a().file();
    for steps in 0..100 {
        let area = area_a_after(steps);
        assert_eq!(area.record().due, (steps % 4) as u8);
        assert!(sent(&area.record()) == file, "after {steps} steps");
        let mut buffer = pattern(FILE_SIZE);
        assert_eq!(area.send(&mut buffer), 0);
        assert!(buffer == file, "after {steps} steps");
    }
    // places that no run need reach, up to 24 trains
    let mut random = Random::new(17);
    let mut most = 0;
    for k in 0..500 {
        let file = random::area(&mut random, k % 4 != 0).file();
        let tables = decode_tables(&file);
        for due in [SPEED, REQUEST, GRANT, POSITION] {
            let record = sound_record(&mut random, &tables, due);
            let on = record.trains.iter().filter(|train| train.is_on()).count();
            assert!(on > 0 && sent(&record) == file, "{record:?}");
            most = most.max(on);
        }
    }
    assert_eq!(most, TRAINS.into());
}

/// All the bytes are written, whatever stood there: also what a greater area left.
#[test]
fn what_the_buffer_held_does_not_show() {
    let record = area_a_after(7).record();
    for mut buffer in [vec![0; FILE_SIZE], vec![0xa5; FILE_SIZE], vec![255; FILE_SIZE], pattern(FILE_SIZE), full_area().file()] {
        assert_eq!(send(&record, &mut buffer), 0);
        assert_eq!(buffer, area_a().file());
    }
}

/// "22, the buffer isn't 2,560 bytes"
#[test]
fn buffer_22() {
    for record in [Record::loaded(decode_tables(&full_area().file())), area_a_after(0).record(), area_a_after(22).record()] {
        for length in WRONG {
            refused(&record, length, 22);
        }
    }
}

/// ".. after 11": an unsound record is refused with 11 whatever the buffer's length. What is unsound may be the tables, the step due, an
/// allocation, a train.
#[test]
fn unsound_11() {
    let changes: [fn(&mut Record); 8] = [
        |r| *r = Record::BLANK,
        |r| r.tables.d = 4649,
        |r| r.tables.segments[61].flags = 1,
        |r| r.tables.routes[29].numbers[30] = 1,
        |r| r.due = 4,
        |r| r.allocations[61] = 1,
        |r| r.trains[23].asks = 2,
        |r| r.trains[23].count = 1,
    ];
    for change in changes {
        let mut record = area_a_after(22).record();
        assert!(sound(&record));
        change(&mut record);
        for length in WRONG.into_iter().chain([FILE_SIZE]) {
            refused(&record, length, 11);
        }
    }
}

/// Area A has 3 segments and 2 routes: from segment 4 and from route 3 on the records are zeros, to the tails of their blocks.
#[test]
fn records_above_n_and_r_are_zeros() {
    let file = sent(&area_a_after(5).record());
    for (block, from) in [(1, 48), (2, 0), (3, 64), (4, 0)] {
        assert_eq!(file[block * BLOCK_SIZE + from..block * BLOCK_SIZE + 496], [0; BLOCK_SIZE][from..496], "block {block}");
    }
    // with all segments and all routes there are none: the last bytes that a record can have
    let file = sent(&load(&full_area().file()).unwrap().record());
    assert_eq!(file[2 * BLOCK_SIZE + 480..][..11], [40, 35, 0, 0, 34, 1, 0, 0, 61, 60, 3]);
    assert_eq!((file[4 * BLOCK_SIZE + 448], file[4 * BLOCK_SIZE + 479]), (31, 60));
}

/// Of any tables at all, every byte that they keep stands in their file, and the rest is as in every file.
#[test]
fn files_of_wild_tables() {
    for turn in 0..256 {
        let bytes: Vec<u8> = (0..FILE_SIZE).map(|at| (at * 7 + at / 256 + turn) as u8).collect();
        let tables = decode_tables(&bytes);
        let file = file_of(&tables);
        assert_eq!(decode_tables(&file), tables);
        // checks, kinds and zeros are right: it is the header that is refused, by its numbers
        assert_eq!(answer_of(&file), (4, 0));
        assert_eq!((file[VERSION_AT], file[ZERO_AT]), (1, 0));
        assert!(file[HEADER_ZEROS].iter().all(|&byte| byte == 0));
    }
}
