//! The section "Whole runs" and demand 3, a function for each sentence, in their order: a checker that works from the list alone.
//!
//! Demand 3: "For every list of the six calls (enter, leave, speed, request, grant, position), refused ones included, in any order and
//! with any wishes, from an area freshly loaded from any accepted file: no two trains are on one segment; every segment that a train is
//! on is allocated to it and its speed isn't above the limit there; every allocated segment is one that its train is on or was granted
//! next; every train, braking fully from the next speed step on, stops within the segments then allocated to it."
//!
//! R-4 of document 02: "'On a segment' now means that it is under the train ... The speed limit remains that of the front's segment, and
//! a train's own segment and its next are still reckoned from the front."
//!
//! It shares with the calls only the tables, S and B. It keeps for itself which trains are on, their routes, their lengths, their ways and
//! what was granted to them. Speeds, step due and allocations are those of the record handed back: the comparison holds them, and the
//! answers, against the second program's after each call.

use crate::area::Call;
use crate::braking::{b_rest, s};
use crate::numbers::{LONGEST_TRAIN, SEGMENTS, TRAINS};
use crate::record::{Record, SPEED};
use crate::tables::Tables;

type Verdict = Result<(), String>;

/// A list of the six calls from one load, as far as it was told.
#[derive(Clone)]
pub struct Demand3 {
    tables: Tables,
    /// train number n at index n − 1; None while it is off
    trains: [Option<Train>; TRAINS as usize],
    /// the record that the last call handed back
    record: Record,
}

/// A train on, by the list.
#[derive(Clone, Copy)]
struct Train {
    route: u8,
    length: u16,
    way: u64,
    /// segment number k at index k − 1: a grant step since the enter allocated it to the train
    granted: [bool; SEGMENTS as usize],
}

/// Where a train on is, by its way.
struct Own<'a> {
    number: u8,
    /// its own segment, the place of that in its route, from 1, and its position there
    segment: u8,
    place: usize,
    position: u64,
    /// what it is on: its own segment and those behind that are under it
    under: Vec<u8>,
    /// the segments that come after its own in its route
    following: &'a [u8],
}

impl Own<'_> {
    /// "Its next is the route's next segment, if any."
    fn next(&self) -> Option<u8> {
        self.following.first().copied()
    }
}

/// Wrong unless it holds.
fn holds(it: bool, wrong: impl FnOnce() -> String) -> Verdict {
    it.then_some(()).ok_or_else(wrong)
}

// ---- Whole runs: the list

impl Demand3 {
    /// "It starts from the record of a load answered done: no allocations, no trains, speed due."
    /// "Report and route view hand back no record and stand in no list; another load starts another list."
    pub fn new(tables: &Tables) -> Demand3 {
        Demand3 { tables: *tables, trains: [None; TRAINS as usize], record: Record::loaded(*tables) }
    }

    /// The next call of the list, the number of its answer and the record handed back.
    /// "Each call is handed the record that the one before handed back, after a refusal too."
    pub fn tell(&mut self, call: &Call, answer: u8, record: &Record) -> Verdict {
        let handed_in = std::mem::replace(&mut self.record, *record);
        self.answer_can_be(call, answer)?;
        if answer == 0 {
            self.trains_on(call);
            self.ways_grow(call, &handed_in);
            self.grants(call, &handed_in);
        }
        self.same_trains_on_routes_and_lengths()?;
        let owns = self.own_segments()?;
        self.same_places_and_positions(&owns)?;
        self.no_two_trains_on_one_segment(&owns)?;
        self.segments_under_allocated(&owns)?;
        self.speeds_within_limits(&owns)?;
        self.allocated_is_under_or_granted_next(&owns)?;
        self.every_train_stops(&owns)
    }
}

// ---- Whole runs: "Its words"

impl Demand3 {
    /// "A train is on the area from an enter of it answered done until the next leave of it answered done."
    /// "A train's way is 0 at that enter ..": and nothing was granted to it since.
    fn trains_on(&mut self, call: &Call) {
        match *call {
            Call::Enter { train, route, length, .. } => {
                let entered = Train { route: route as u8, length, way: 0, granted: [false; SEGMENTS as usize] };
                self.trains[usize::from(train) - 1] = Some(entered);
            }
            Call::Leave { train } => self.trains[usize::from(train) - 1] = None,
            _ => {}
        }
    }

    /// "Answers .. are those that the refusals and the calls above give": of these, what the trains on and the tables tell by
    /// themselves. A list starts from a load answered done and each call hands back a sound record, so 11 is never given.
    fn answer_can_be(&self, call: &Call, answer: u8) -> Verdict {
        let is_train = |train: u16| (1..=u16::from(TRAINS)).contains(&train);
        let is_on = |train: u16| is_train(train) && self.trains[usize::from(train) - 1].is_some();
        match (*call, answer) {
            (_, 11) => Err("an answer is 11, unsound".to_string()),
            (Call::Enter { train, route, length, .. }, 0) => {
                let there_are = is_train(train) && (1..=u16::from(self.tables.r)).contains(&route);
                holds(there_are, || format!("enter of train {train} on route {route} is answered done"))?;
                let within = (1..=LONGEST_TRAIN).contains(&length);
                holds(within, || format!("enter of train {train} with length {length} is answered done"))?;
                holds(!is_on(train), || format!("enter of train {train} is answered done while it is on"))
            }
            (Call::Leave { train }, 0) => holds(is_on(train), || format!("leave of train {train} is answered done while it is off")),
            _ => Ok(()),
        }
    }

    /// ".. the record handed back holds the same trains on, routes, .."; R-4: "a length .., kept with the train". A train off has
    /// neither route nor place nor position nor length there.
    fn same_trains_on_routes_and_lengths(&self) -> Verdict {
        for (number, (train, told)) in (1..).zip(self.trains.iter().zip(&self.record.trains)) {
            let Some(train) = train else {
                let is_off = (told.route, told.place, told.position, told.length) == (0, 0, 0, 0);
                holds(is_off, || format!("train {number} is off, but not in the record"))?;
                continue;
            };
            holds(told.is_on(), || format!("train {number} is on, but not in the record"))?;
            holds(told.route == train.route, || format!("train {number} is on route {}, the record says {}", train.route, told.route))?;
            let same = told.length == train.length;
            holds(same, || format!("train {number} has length {}, the record says {}", train.length, told.length))?;
        }
        Ok(())
    }

    /// "A train's way .. grows by its speed at each position step answered done."
    // reading: its speed is the one that it has when the step is called, that of the record handed in.
    fn ways_grow(&mut self, call: &Call, handed_in: &Record) {
        if !matches!(call, Call::Position) {
            return;
        }
        for (train, raw) in self.trains.iter_mut().zip(&handed_in.trains) {
            if let Some(train) = train {
                train.way += u64::from(raw.speed);
            }
        }
    }

    /// "Its own segment is the one of its route that starts at or before its way and ends beyond it, lengths summed from the route's
    /// start. .. Its position is its way less that segment's start." R-4 says what it is on, in place of its own segment "and no other":
    /// "A segment is under the train from the front's arrival until the rear is at or past its end".
    fn own_segment(&self, number: u8, train: &Train) -> Option<Own<'_>> {
        let listed = self.tables.route(train.route).listed();
        let (mut start, mut under) = (0, vec![]);
        for (place, &segment) in (1..).zip(listed) {
            let end = start + self.length(segment);
            if start <= train.way && train.way < end + u64::from(train.length) {
                under.push(segment);
            }
            if start <= train.way && train.way < end {
                return Some(Own { number, segment, place, position: train.way - start, under, following: &listed[place..] });
            }
            start = end;
        }
        None
    }

    /// Every train on has an own segment.
    fn own_segments(&self) -> Result<Vec<Own<'_>>, String> {
        let beyond = |number, way| format!("train {number} has no own segment: its way {way} is beyond its route");
        self.on().map(|(number, train)| self.own_segment(number, train).ok_or_else(|| beyond(number, train.way))).collect()
    }

    /// ".. the limit there is that segment's."
    fn limit(&self, own: &Own) -> u16 {
        self.tables.segment(own.segment).limit
    }

    /// "The record's place and position are these."
    fn same_places_and_positions(&self, owns: &[Own]) -> Verdict {
        for Own { number, place, position, .. } in owns {
            let told = self.record.train(*number);
            holds(usize::from(told.place) == *place, || format!("train {number} is at place {place}, the record says {}", told.place))?;
            let same = u64::from(told.position) == *position;
            holds(same, || format!("train {number} is at position {position}, the record says {}", told.position))?;
        }
        Ok(())
    }

    /// ".. a grant step answered done since that enter allocated it to the train."
    fn grants(&mut self, call: &Call, handed_in: &Record) {
        if !matches!(call, Call::Grant) {
            return;
        }
        for segment in 1..=SEGMENTS {
            let holder = self.record.allocated(segment);
            if holder != handed_in.allocated(segment) && (1..=TRAINS).contains(&holder) {
                if let Some(train) = &mut self.trains[usize::from(holder) - 1] {
                    train.granted[usize::from(segment) - 1] = true;
                }
            }
        }
    }

    /// "A segment was granted next to it if it is its next and a grant step answered done since that enter allocated it to the train."
    fn was_granted_next(&self, own: &Own, segment: u8) -> Verdict {
        let Own { number, .. } = own;
        let granted = self.trains[usize::from(*number) - 1].is_some_and(|train| train.granted[usize::from(segment) - 1]);
        let is_next = own.next() == Some(segment);
        holds(is_next, || format!("segment {segment} is allocated to train {number}, neither under it nor its next"))?;
        holds(granted, || format!("segment {segment} is allocated to train {number}, its next but never granted"))
    }

    /// "Full braking lowers the speed v by `b` at each speed step, down to 0. The way still to run is B(v) with speed due, S(v) with
    /// another step due."
    fn way_still_to_run(&self, own: &Own) -> u64 {
        let (b, v) = (self.tables.b.into(), self.record.train(own.number).speed.into());
        if self.record.due == SPEED {
            b_rest(b, v)
        } else {
            s(b, v)
        }
    }

    /// ".. the summed lengths of its own segment and of those allocated to it that follow on its route without a gap."
    fn room(&self, own: &Own) -> u64 {
        let allocated = own.following.iter().take_while(|&&segment| self.record.allocated(segment) == own.number);
        self.length(own.segment) + allocated.map(|&segment| self.length(segment)).sum::<u64>()
    }

    /// "The train stops within its segments if position + that way is less than the summed lengths ..".
    fn stops_within_its_segments(&self, own: &Own) -> Verdict {
        let (Own { number, position, .. }, way, room) = (own, self.way_still_to_run(own), self.room(own));
        let wrong = || format!("train {number} does not stop within its segments: {position} + {way} is not less than {room}");
        holds(position + way < room, wrong)
    }

    fn length(&self, segment: u8) -> u64 {
        self.tables.segment(segment).length.into()
    }

    /// The trains on with their numbers.
    fn on(&self) -> impl Iterator<Item = (u8, &Train)> {
        (1..).zip(&self.trains).filter_map(|(number, train)| train.as_ref().map(|train| (number, train)))
    }
}

// ---- Demand 3

impl Demand3 {
    /// "no two trains are on one segment"
    fn no_two_trains_on_one_segment(&self, owns: &[Own]) -> Verdict {
        let mut on: [u8; SEGMENTS as usize] = [0; SEGMENTS as usize];
        for Own { number, under, .. } in owns {
            for segment in under {
                let other = std::mem::replace(&mut on[usize::from(*segment) - 1], *number);
                holds(other == 0, || format!("trains {other} and {number} are on segment {segment}"))?;
            }
        }
        Ok(())
    }

    /// "every segment that a train is on is allocated to it"
    fn segments_under_allocated(&self, owns: &[Own]) -> Verdict {
        for Own { number, under, .. } in owns {
            for segment in under {
                let to_it = self.record.allocated(*segment) == *number;
                holds(to_it, || format!("segment {segment} is not allocated to train {number} on it"))?;
            }
        }
        Ok(())
    }

    /// "and its speed isn't above the limit there"; R-4: "The speed limit remains that of the front's segment".
    fn speeds_within_limits(&self, owns: &[Own]) -> Verdict {
        for own in owns {
            let (number, speed, limit) = (own.number, self.record.train(own.number).speed, self.limit(own));
            holds(speed <= limit, || format!("train {number} has speed {speed} above the limit {limit}"))?;
        }
        Ok(())
    }

    /// "every allocated segment is one that its train is on or was granted next"
    fn allocated_is_under_or_granted_next(&self, owns: &[Own]) -> Verdict {
        for segment in 1..=SEGMENTS {
            let holder = self.record.allocated(segment);
            if holder == 0 {
                continue;
            }
            let Some(own) = owns.iter().find(|own| own.number == holder) else {
                return Err(format!("segment {segment} is allocated to train {holder}, which is not on"));
            };
            if !own.under.contains(&segment) {
                self.was_granted_next(own, segment)?;
            }
        }
        Ok(())
    }

    /// "every train, braking fully from the next speed step on, stops within the segments then allocated to it"
    fn every_train_stops(&self, owns: &[Own]) -> Verdict {
        owns.iter().try_for_each(|own| self.stops_within_its_segments(own))
    }
}
