//! One radio block area: segments, routes, trains.
//!
//! A second program, written from document 01, in `demand3` also from the words of demand 3 that it names, in `send` from request R-1 of
//! document 02, in the grant step and the record from its request R-2, of which the readings in docs/DECISIONS.md were given too, in the
//! bounds of rules 4 and 6 from its request R-3, of which it names what was given too, in enter, the position step, the record and
//! `demand3` from its request R-4, of which it names what was given too, and in `stops` and the tests of `braking` from its request R-5, of
//! which it names what was given too; and from nothing else; to be read beside them. Sentences of the papers stand in quotation marks.
//! Where a paper leaves something open, a comment begins with `reading:`.

// The modules in the order of document 01, then of document 02.

// the papers' numbers, each named once; the bounds of `gmax`, `d` and lengths with R-3 of document 02
pub mod numbers;

// Units and braking; S in a closed form, where R-5 of document 02 has turns
pub mod braking;

// the tables, rules 4 to 10 on them, and what is under a train by R-4 of document 02
pub mod tables;

// The area file, refusals 1 to 10
pub mod file;

// The calls, refusals 11 to 21 and R-4's 23, and the report; the grant step with R-2 of document 02, the position step with R-4
pub mod area;

// the route view
pub mod view;

// the area record with R-2's count and R-4's length, and "A sound record"
pub mod record;

// Whole runs
pub mod demand3;

// R-1 of document 02, refusals 11 and 22
pub mod send;

// a writer of files for tests, and Area A
pub mod write;

// the binary script and the state as bytes, words for answers, the output of the maker of area files, areas, lists and records for the
// comparison, and the core's record: not of the papers
pub mod bounds;
pub mod breaks;
pub mod edges;
#[cfg(feature = "rbu")]
pub mod kept;
pub mod lengths;
pub mod merges;
pub mod random;
pub mod script;
pub mod state;
pub mod stops;
pub mod streams;
// the wrapper's own, which is there without the core
#[path = "../../rust/src/words.rs"]
pub mod words;

pub use area::{answer_of, answer_within, call_on, cycle, load, report_on, Area, Call};
pub use braking::{b_rest, s};
pub use demand3::Demand3;
pub use file::{check, decode_tables, read, read_within, Refusal};
pub use numbers::*;
pub use record::{sound, RawTrain, Record, GRANT, POSITION, REQUEST, SPEED};
pub use send::{file_of, send};
pub use state::{record_of, state_of};
pub use tables::{Route, Segment, Tables, ENTRY, EXIT};
pub use view::{route_view, route_view_start};
pub use words::word;
pub use write::{
    area_a, full_area, like_area_a, like_full_area, merging_area, ore_line, put_checks, shortest, Description, AREA_A_CYCLE, AREA_A_ENTRIES,
};
