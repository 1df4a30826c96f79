//! The record that the core keeps beside the second program's: what one has in the layout of the other, and a call by its own function.

use crate::area::Call;
use crate::numbers::ROUTE_SIZE;
use crate::record::{RawTrain, Record};
use crate::tables::Tables;

/// Tables as the core keeps them.
pub fn tables_of(tables: &Tables) -> rbu::Tables {
    let mut kept = rbu::Tables {
        segments: tables.n,
        routes: tables.r,
        gmax: tables.gmax,
        braking: tables.b,
        margin: tables.d,
        lengths: tables.segments.map(|segment| segment.length),
        limits: tables.segments.map(|segment| segment.limit),
        flags: tables.segments.map(|segment| segment.flags),
        ..rbu::Tables::BLANK
    };
    for (k, segment) in tables.segments.iter().enumerate() {
        kept.next[2 * k..][..2].copy_from_slice(&segment.next);
        kept.previous[2 * k..][..2].copy_from_slice(&segment.previous);
    }
    for (bytes, route) in kept.routebytes.chunks_mut(ROUTE_SIZE).zip(&tables.routes) {
        bytes[0] = route.count;
        bytes[1..].copy_from_slice(&route.numbers);
    }
    kept
}

/// Trains as the core keeps them.
pub fn trains_of(record: &Record) -> [rbu::Train; rbu::TRAINS] {
    record.trains.map(|RawTrain { route, place, position, speed, asks, count, length }| rbu::Train {
        route,
        place,
        count,
        position,
        speed,
        length,
        asks,
    })
}

/// A record as the core keeps it.
pub fn kept_of(record: &Record) -> rbu::Record {
    rbu::Record { tables: tables_of(&record.tables), allocations: record.allocations, trains: trains_of(record), due: record.due }
}

/// What the core keeps, as the second program's record.
pub fn record_of_kept(kept: &rbu::Record) -> Record {
    let mut tables = Tables {
        n: kept.tables.segments,
        r: kept.tables.routes,
        gmax: kept.tables.gmax,
        b: kept.tables.braking,
        d: kept.tables.margin,
        ..Tables::ZERO
    };
    for (k, segment) in tables.segments.iter_mut().enumerate() {
        segment.length = kept.tables.lengths[k];
        segment.limit = kept.tables.limits[k];
        segment.flags = kept.tables.flags[k];
        segment.next.copy_from_slice(&kept.tables.next[2 * k..][..2]);
        segment.previous.copy_from_slice(&kept.tables.previous[2 * k..][..2]);
    }
    for (bytes, route) in kept.tables.routebytes.chunks(ROUTE_SIZE).zip(&mut tables.routes) {
        route.count = bytes[0];
        route.numbers.copy_from_slice(&bytes[1..]);
    }
    let trains = kept.trains.map(|rbu::Train { route, place, count, position, speed, length, asks }| RawTrain {
        route,
        place,
        position,
        speed,
        asks,
        count,
        length,
    });
    Record { tables, allocations: kept.allocations, trains, due: kept.due }
}

/// A call on a record that the core keeps: the number of its answer.
pub fn call_kept(area: &mut rbu::Area, call: &Call) -> u8 {
    let answer = match *call {
        Call::Enter { train, route, speed, length } => area.enter(train, route, speed, length),
        Call::Leave { train } => area.leave(train),
        Call::Speed { wishes } => area.speed(wishes),
        Call::Request => area.request(),
        Call::Grant => area.grant(),
        Call::Position => area.position(),
    };
    answer.map_or_else(|refusal| refusal.number, |()| 0)
}
