//! The running state as bytes (docs/FORMATS.md): the step due, the allocations and the trains of a record.

use crate::numbers::{STATE_ALLOCATIONS, STATE_SIZE, STATE_TRAINS_AT, STATE_TRAIN_SIZE};
use crate::record::{RawTrain, Record};
use crate::tables::Tables;

/// A record's step due, allocations and trains as a state.
pub fn state_of(record: &Record) -> [u8; STATE_SIZE] {
    let mut state = [0; STATE_SIZE];
    state[0] = record.due;
    state[STATE_ALLOCATIONS].copy_from_slice(&record.allocations);
    for (train, bytes) in record.trains.iter().zip(state[STATE_TRAINS_AT..].chunks_mut(STATE_TRAIN_SIZE)) {
        bytes[..3].copy_from_slice(&[train.route, train.place, train.asks]);
        bytes[4..8].copy_from_slice(&train.position.to_le_bytes());
        bytes[8..10].copy_from_slice(&train.speed.to_le_bytes());
        bytes[10..12].copy_from_slice(&train.count.to_le_bytes());
        bytes[12..14].copy_from_slice(&train.length.to_le_bytes());
    }
    state
}

/// The record that tables and a state spell.
pub fn record_of(tables: &Tables, state: &[u8; STATE_SIZE]) -> Record {
    let mut trains = Record::BLANK.trains;
    for (train, bytes) in trains.iter_mut().zip(state[STATE_TRAINS_AT..].chunks(STATE_TRAIN_SIZE)) {
        *train = RawTrain {
            route: bytes[0],
            place: bytes[1],
            position: u32::from_le_bytes(bytes[4..8].try_into().unwrap()),
            speed: u16::from_le_bytes([bytes[8], bytes[9]]),
            asks: bytes[2],
            count: u16::from_le_bytes([bytes[10], bytes[11]]),
            length: u16::from_le_bytes([bytes[12], bytes[13]]),
        };
    }
    Record { tables: *tables, allocations: state[STATE_ALLOCATIONS].try_into().unwrap(), trains, due: state[0] }
}
