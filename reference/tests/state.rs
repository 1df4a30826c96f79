//! The state as bytes, by docs/FORMATS.md.

use reference::edges::sound_record;
use reference::random::{area, Random};
use reference::*;

#[test]
fn where_everything_stands() {
    let mut record = Record::loaded(decode_tables(&area_a().file()));
    record.due = GRANT;
    record.allocations[0] = 7;
    record.allocations[61] = 255;
    record.trains[6] = RawTrain { route: 1, place: 2, position: 0x0102_0304, speed: 0x0506, asks: 1, count: 0x0708, length: 0x090a };
    record.trains[23].asks = 255;
    record.trains[23].count = 65_535;
    record.trains[23].length = 255;
    let mut state = [0; 832];
    (state[0], state[1], state[62]) = (2, 7, 255);
    state[64 + 6 * 32..][..14].copy_from_slice(&[1, 2, 1, 0, 4, 3, 2, 1, 6, 5, 8, 7, 10, 9]);
    state[64 + 23 * 32 + 2] = 255;
    state[64 + 23 * 32 + 10..][..4].copy_from_slice(&[255, 255, 255, 0]);
    assert_eq!(state_of(&record), state);
}

#[test]
fn a_state_is_read_back() {
    let mut random = Random::new(15);
    for k in 0..500u32 {
        let tables = *load(&area(&mut random, k % 2 == 0).file()).unwrap().tables();
        let mut record = sound_record(&mut random, &tables, (k % 4) as u8);
        assert_eq!(record_of(&tables, &state_of(&record)), record);
        // and any other
        for train in &mut record.trains {
            (train.asks, train.count, train.length) = (random.draw() as u8, random.draw() as u16, random.draw() as u16);
        }
        record.due = random.draw() as u8;
        assert_eq!(record_of(&tables, &state_of(&record)), record);
    }
}

/// The bytes that hold nothing are not looked at.
#[test]
fn bytes_that_hold_nothing() {
    let tables = decode_tables(&area_a().file());
    let mut state = [0; STATE_SIZE];
    state[63] = 9;
    for train in state[STATE_TRAINS_AT..].chunks_mut(STATE_TRAIN_SIZE) {
        train[3] = 9;
        train[14..].fill(9);
    }
    assert_eq!(record_of(&tables, &state), Record::loaded(tables));
}
