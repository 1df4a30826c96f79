//! The binary script that `rbu_run_file` and `rbu_run_record` run (docs/FORMATS.md): 32 items of 16 bits a call.

use crate::area::Call;
use crate::numbers::{ITEMS, MOST_WISHES};

/// A call's record. Of more than 25 wishes the first 25 stand in it: a record has no more room.
pub fn items_of(call: &Call) -> [u16; ITEMS] {
    let mut items = [0; ITEMS];
    match *call {
        Call::Enter { train, route, speed, length } => items[..5].copy_from_slice(&[1, train, route, speed, length]),
        Call::Leave { train } => items[..2].copy_from_slice(&[2, train]),
        Call::Speed { wishes } => {
            items[0] = 3;
            items[6] = wishes.len().min(usize::from(u16::MAX)) as u16;
            let kept = wishes.len().min(MOST_WISHES);
            items[7..7 + kept].copy_from_slice(&wishes[..kept]);
        }
        Call::Request => items[0] = 4,
        Call::Grant => items[0] = 5,
        Call::Position => items[0] = 6,
    }
    items
}

/// A list's script.
pub fn script_of(calls: &[Call]) -> Vec<u16> {
    calls.iter().flat_map(items_of).collect()
}
