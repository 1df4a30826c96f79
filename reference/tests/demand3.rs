//! The checker of demand 3: silent on runs of the calls, and shown to catch each sentence broken once, in the order of "Whole runs"
//! and of demand 3.

use reference::random::{self, Owned, Random};
use reference::*;

/// An area and the checker that is told its calls.
#[derive(Clone)]
struct Run {
    area: Area,
    demand: Demand3,
}

impl Run {
    fn of(description: &Description) -> Run {
        let area = load(&description.file()).unwrap();
        Run { area, demand: Demand3::new(area.tables()) }
    }

    fn call(&mut self, call: Call) -> Result<u8, String> {
        let answer = self.area.call(&call);
        self.demand.tell(&call, answer, &self.area.record()).map(|_| answer)
    }

    fn done(&mut self, calls: &[Call]) {
        calls.iter().for_each(|&call| assert_eq!(self.call(call), Ok(0), "{call:?}"));
    }

    /// The step due, answered done.
    fn step(&mut self) {
        self.done(&[AREA_A_CYCLE[usize::from(self.area.record().due)]]);
    }

    /// Area A with the two trains of the listing after some steps of its cycles.
    fn of_area_a(steps: usize) -> Run {
        let mut run = Run::of(&area_a());
        run.done(&AREA_A_ENTRIES);
        (0..steps).for_each(|_| run.step());
        run
    }

    /// Cycles until it holds of train 1; one that never does fails.
    fn until(&mut self, holds: impl Fn(&RawTrain) -> bool) {
        let comes = (0..300).any(|_| {
            self.done(&AREA_A_CYCLE);
            holds(&self.area.record().trains[0])
        });
        assert!(comes);
    }

    /// Area A with train 1 alone.
    fn of_train_1() -> Run {
        let mut run = Run::of(&area_a());
        run.done(&AREA_A_ENTRIES[..1]);
        run
    }

    /// What the checker says of a call with this answer that hands back the area's record, doctored.
    fn told(&mut self, call: Call, answer: u8, doctor: impl Fn(&mut Record)) -> Result<(), String> {
        let mut record = self.area.record();
        doctor(&mut record);
        self.demand.tell(&call, answer, &record)
    }

    /// What it says if the next step's record is doctored; as it is, it is right.
    fn doctored(&self, doctor: impl Fn(&mut Record)) -> Result<(), String> {
        let mut run = self.clone();
        let call = AREA_A_CYCLE[usize::from(run.area.record().due)];
        assert_eq!(run.area.call(&call), 0);
        assert_eq!(run.clone().told(call, 0, |_| ()), Ok(()));
        run.told(call, 0, doctor)
    }
}

fn says(verdict: Result<(), String>, words: &str) {
    let sentence = verdict.unwrap_err();
    assert!(sentence.contains(words), "{sentence}");
}

const fn standing(route: u8) -> RawTrain {
    RawTrain { route, place: 1, position: 0, speed: 0, asks: 0, count: 0, length: 1 }
}

// ---- Whole runs

/// "A list may be empty or of any length, with any arguments."
#[test]
fn six_cycles_and_on() {
    let mut run = Run::of_area_a(24);
    // refused ones included
    assert_eq!(run.call(Call::Position), Ok(12));
    assert_eq!(run.call(Call::Speed { wishes: &[] }), Ok(21));
    assert_eq!(run.call(Call::Enter { train: 257, route: 1, speed: 0, length: 1 }), Ok(13));
    assert_eq!(run.call(Call::Leave { train: 2 }), Ok(20));
    // train 2 goes to segment 3, leaves, and train 1 follows
    let mut left = 0;
    for _ in 0..80 {
        run.done(&AREA_A_CYCLE);
        for train in [2, 1] {
            if run.call(Call::Leave { train }) == Ok(0) {
                left += 1;
            }
        }
    }
    assert_eq!(left, 2);
    assert_eq!(run.area.report(), (0, 0, 1));
}

/// "It starts from the record of a load answered done: no allocations, no trains, speed due."
#[test]
fn catches_another_start() {
    let run = Run::of(&area_a());
    assert_eq!(run.clone().told(Call::Position, 12, |_| ()), Ok(()));
    says(run.clone().told(Call::Position, 12, |r| r.allocations[0] = 1), "segment 1 is allocated to train 1, which is not on");
    says(run.clone().told(Call::Position, 12, |r| r.trains[0] = standing(1)), "train 1 is off, but not in the record");
}

/// "Each call is handed the record that the one before handed back, after a refusal too."
#[test]
fn goes_on_from_the_record_handed_back() {
    // the position step's speed is the one that the refusal before it handed back
    let mut run = Run::of_area_a(7);
    assert_eq!(run.told(Call::Request, 12, |r| r.trains[0].speed = 299), Ok(()));
    assert_eq!(run.area.call(&Call::Position), 0);
    says(run.told(Call::Position, 0, |_| ()), "train 1 is at position 599, the record says 600");
}

/// "A train is on the area from an enter of it answered done until the next leave of it answered done."
#[test]
fn catches_trains_on() {
    let run = Run::of_area_a(7);
    says(run.doctored(|r| r.trains[0] = RawTrain::OFF), "train 1 is on, but not in the record");
    says(run.doctored(|r| r.trains[4] = r.trains[0]), "train 5 is off, but not in the record");
    // not from a refused enter, nor until a refused leave
    let enter = Call::Enter { train: 5, route: 1, speed: 0, length: 1 };
    says(run.clone().told(enter, 18, |r| r.trains[4] = standing(1)), "train 5 is off, but not in the record");
    says(run.clone().told(Call::Leave { train: 1 }, 20, |r| r.trains[0] = RawTrain::OFF), "train 1 is on, but not in the record");
    // from the enter and until the leave answered done
    let mut on = Run::of_area_a(7);
    says(Run::of(&area_a()).told(AREA_A_ENTRIES[0], 0, |_| ()), "train 1 is on, but not in the record");
    says(on.told(Call::Leave { train: 2 }, 0, |_| ()), "train 2 is off, but not in the record");
}

/// "Answers .. are those that the refusals and the calls above give".
#[test]
fn catches_answers_that_the_list_cannot_have() {
    let mut run = Run::of_area_a(4);
    for call in [
        Call::Enter { train: 1, route: 1, speed: 0, length: 1 },
        Call::Enter { train: 257, route: 1, speed: 0, length: 1 },
        Call::Enter { train: 3, route: 0, speed: 0, length: 1 },
        Call::Enter { train: 3, route: 3, speed: 0, length: 1 },
        Call::Enter { train: 3, route: 1, speed: 0, length: 0 },
        Call::Enter { train: 3, route: 1, speed: 0, length: 20_001 },
        Call::Enter { train: 3, route: 1, speed: 0, length: u16::MAX },
        Call::Leave { train: 0 },
        Call::Leave { train: 3 },
        Call::Leave { train: u16::from(TRAINS) + 1 },
    ] {
        says(run.told(call, 0, |_| ()), "answered done");
    }
    says(run.told(Call::Position, 11, |_| ()), "11");
}

/// ".. the record handed back holds the same trains on, routes, step due, speeds and allocations."
#[test]
fn catches_routes() {
    says(Run::of_area_a(7).doctored(|r| r.trains[0].route = 2), "train 1 is on route 1, the record says 2");
}

/// "A train's way is 0 at that enter and grows by its speed at each position step answered done."
#[test]
fn catches_ways() {
    let entered = |r: &mut Record| (r.trains[0], r.allocations[0]) = (RawTrain { position: 1, ..standing(1) }, 1);
    says(Run::of(&area_a()).told(AREA_A_ENTRIES[0], 0, entered), "train 1 is at position 0, the record says 1");
    // a position step that moves nobody, by another speed, or refused
    let mut run = Run::of_area_a(7);
    let still = run.area.record().trains;
    says(run.doctored(|r| r.trains = still), "train 1 is at position 600, the record says 300");
    says(run.doctored(|r| r.trains[0].position += 1), "train 1 is at position 600, the record says 601");
    says(run.told(Call::Position, 12, |r| r.trains[0].position = 600), "train 1 is at position 300, the record says 600");
    // another step that moves a train
    says(Run::of_area_a(4).doctored(|r| r.trains[0].position = 600), "train 1 is at position 300, the record says 600");
}

/// Train 1 alone after a position step that brings its way to 6000, the length of its first segment.
fn at_the_length() -> Run {
    let mut run = Run::of_train_1();
    let with_wishes = |run: &mut Run, wish: u16| run.done(&cycle(&[wish; WISHES]));
    // six cycles to 1500, near; one at 240 while it asks; then to the end
    (0..7 + 16).for_each(|_| with_wishes(&mut run, 250));
    with_wishes(&mut run, 260);
    run
}

/// "Its own segment is the one of its route that starts at or before its way and ends beyond it, lengths summed from the route's
/// start. It is on that segment and no other, and the limit there is that segment's. Its position is its way less that segment's
/// start. The record's place and position are these."
#[test]
fn catches_places_and_positions() {
    let run = Run::of_area_a(7);
    says(run.doctored(|r| r.trains[0].place = 2), "train 1 is at place 1, the record says 2");
    says(run.doctored(|r| r.trains[0].position = 0), "train 1 is at position 600, the record says 0");
    // a way of just the first segment's length is on the second one
    let mut run = at_the_length();
    assert_eq!((run.area.record().trains[0].place, run.area.record().trains[0].position), (2, 0));
    says(run.told(Call::Position, 12, |r| r.trains[0].place = 1), "train 1 is at place 2, the record says 1");
    says(run.told(Call::Position, 12, |r| r.trains[0].position = 6000), "train 1 is at position 0, the record says 6000");
    says(run.told(Call::Position, 12, |r| r.trains[0].speed = 291), "speed 291 above the limit 290");
}

#[test]
fn catches_a_way_beyond_the_route() {
    let mut run = Run::of_area_a(4);
    says(run.told(AREA_A_CYCLE[0], 0, |r| r.trains[0].speed = 20_000), "above the limit");
    says(run.told(AREA_A_CYCLE[3], 0, |_| ()), "train 1 has no own segment");
}

/// "A segment was granted next to it if it is its next and a grant step answered done since that enter allocated it to the train."
#[test]
fn catches_next_without_a_grant() {
    // by another step than grant
    says(Run::of_train_1().doctored(|r| r.allocations[2] = 1), "its next but never granted");
    // by a grant step that is refused
    says(Run::of_train_1().told(Call::Grant, 12, |r| r.allocations[2] = 1), "its next but never granted");
    // by a step before the grant step, which leaves it as it is
    let mut run = Run::of_train_1();
    for call in [Call::Request, Call::Grant] {
        says(run.told(call, 0, |r| r.allocations[2] = 1), "its next but never granted");
    }
    // by a grant step answered done
    assert_eq!(Run::of_train_1().told(Call::Grant, 0, |r| r.allocations[2] = 1), Ok(()));
    // to another train
    says(Run::of_area_a(4).told(Call::Grant, 0, |r| r.allocations[1] = 1), "segment 2 is not allocated to train 2 on it");
}

/// What was granted before a leave was not granted since the new enter.
#[test]
fn catches_a_grant_of_an_earlier_enter() {
    let mut description = area_a();
    description.segments[0].flags = ENTRY | EXIT;
    description.routes = vec![vec![1], vec![1, 3]];
    let mut run = Run::of(&description);
    run.done(&[Call::Enter { train: 1, route: 2, speed: 300, length: 1 }]);
    while run.area.record().allocations[2] == 0 {
        run.step();
    }
    // a leave and an enter told as done, segment 3 kept
    says(run.told(Call::Leave { train: 1 }, 0, |r| r.trains[0] = RawTrain::OFF), "which is not on");
    let enter = Call::Enter { train: 1, route: 2, speed: 0, length: 1 };
    says(run.told(enter, 0, |r| r.trains[0] = standing(2)), "never granted");
}

/// "The way still to run is B(v) with speed due, S(v) with another step due."
#[test]
fn brakes_by_b_and_by_s() {
    // train 1 is at 1790 of 6000, near and without a grant; speed is due after the position step: B(295) = 4205, B(296) = 4234
    let with_speed_due = Run::of_area_a(23);
    assert_eq!(with_speed_due.doctored(|r| r.trains[0].speed = 295), Ok(()));
    says(with_speed_due.doctored(|r| r.trains[0].speed = 296), "1790 + 4234 is not less than 6000");
    // request is due after the speed step: S(285) = 4205, S(286) = 4234
    let with_another_due = Run::of_area_a(24);
    assert_eq!(with_another_due.doctored(|r| r.trains[0].speed = 285), Ok(()));
    says(with_another_due.doctored(|r| r.trains[0].speed = 286), "1790 + 4234 is not less than 6000");
}

/// ".. less than the summed lengths of its own segment and of those allocated to it that follow on its route without a gap."
#[test]
fn stops_within_what_is_allocated_only() {
    // train 2's grant taken away
    says(Run::of_area_a(54).doctored(|r| r.allocations[2] = 0), "train 2 does not stop within its segments");
}

// ---- Demand 3

/// No sentence speaks of the count.
#[test]
fn says_nothing_of_counts() {
    assert_eq!(Run::of_area_a(23).doctored(|r| (r.trains[0].count, r.trains[5].count) = (7, 65_535)), Ok(()));
}

/// "no two trains are on one segment"
#[test]
fn catches_two_trains_on_one_segment() {
    // an enter onto train 1's segment answered done
    let enter = Call::Enter { train: 3, route: 1, speed: 0, length: 1 };
    says(Run::of_area_a(4).told(enter, 0, |r| r.trains[2] = standing(1)), "trains 1 and 3 are on segment 1");
}

/// "every segment that a train is on is allocated to it"
#[test]
fn catches_own_segment_not_allocated() {
    let run = Run::of_area_a(4);
    says(run.doctored(|r| r.allocations[0] = 0), "segment 1 is not allocated to train 1 on it");
    says(run.doctored(|r| r.allocations[0] = 2), "segment 1 is not allocated to train 1 on it");
}

/// "and its speed isn't above the limit there"
#[test]
fn catches_speed_above_limit() {
    let run = Run::of_area_a(4);
    says(run.doctored(|r| r.trains[1].speed = 291), "speed 291 above the limit 290");
    says(run.doctored(|r| r.trains[1].speed = u16::MAX), "above the limit 290");
}

/// "every allocated segment is one that its train is on or was granted next"
#[test]
fn catches_allocations() {
    // to a train that is not on
    let run = Run::of_area_a(4);
    says(run.doctored(|r| r.allocations[2] = 3), "which is not on");
    says(run.doctored(|r| r.allocations[2] = 255), "which is not on");
    // neither own nor next
    let run = Run::of_train_1();
    says(run.doctored(|r| r.allocations[1] = 1), "neither under it nor its next");
    says(run.doctored(|r| r.allocations[usize::from(SEGMENTS) - 1] = 1), "neither under it nor its next");
    // a segment behind it, not freed
    let mut past = at_the_length();
    past.done(&AREA_A_CYCLE);
    says(past.told(Call::Position, 12, |r| r.allocations[0] = 1), "neither under it nor its next");
}

// ---- R-4 of document 02

/// Train 1, of this length, alone on the line after Area A's merge, when its way is 18,020: 4020 past the end of segment 3, which ends at
/// 14,000 as segment 1 ends at 6000.
fn on_the_ore_line(length: u16) -> Run {
    let mut run = Run::of(&ore_line());
    run.done(&[Call::Enter { train: 1, route: 1, speed: 290, length }]);
    let tables = *run.area.tables();
    run.until(|train| train.way(&tables) >= 18_000);
    assert_eq!((run.area.record().trains[0].place, run.area.record().trains[0].position), (3, 4020));
    run
}

/// "'On a segment' now means that it is under the train, so all of these segments are allocated to that train alone."
#[test]
fn catches_a_segment_under_a_train_not_allocated() {
    // rear at 0, 6000 and 14,000, and one before these
    for (length, under) in
        [(18_020, &[1, 3, 4][..]), (18_021, &[1, 3, 4]), (12_020, &[3, 4]), (12_021, &[1, 3, 4]), (4020, &[4]), (4021, &[3, 4])]
    {
        let mut run = on_the_ore_line(length);
        let held = |record: &Record| (1..=SEGMENTS).filter(|&segment| record.allocated(segment) == 1).collect::<Vec<u8>>();
        assert_eq!(held(&run.area.record()), under);
        for segment in [1, 3, 4] {
            let place = usize::from(segment) - 1;
            if under.contains(&segment) {
                for other in [0, 2] {
                    let wrong = format!("segment {segment} is not allocated to train 1 on it");
                    says(run.told(Call::Position, 12, |r| r.allocations[place] = other), &wrong);
                }
            } else {
                says(run.told(Call::Position, 12, |r| r.allocations[place] = 1), "neither under it nor its next");
            }
        }
    }
}

/// A train enters onto the segment of another's rear.
#[test]
fn catches_two_trains_on_the_rears_segment() {
    let enter = Call::Enter { train: 3, route: 1, speed: 0, length: 1 };
    let entered = |r: &mut Record| (r.trains[2], r.allocations[0]) = (standing(1), 3);
    says(on_the_ore_line(12_021).told(enter, 0, entered), "trains 1 and 3 are on segment 1");
    assert_eq!(on_the_ore_line(12_020).told(enter, 0, entered), Ok(()));
}

/// "The speed limit remains that of the front's segment".
#[test]
fn the_limit_is_the_fronts() {
    let mut line = ore_line();
    line.segments[3].limit = 300;
    let mut run = Run::of(&line);
    run.done(&[Call::Enter { train: 1, route: 1, speed: 290, length: 12_000 }]);
    run.until(|train| train.place == 3 && train.speed == 300);
    // segment 3, with limit 290, is still under it
    assert_eq!((run.area.record().allocated(3), run.area.record().trains[0].place), (1, 3));
    says(run.told(Call::Position, 12, |r| r.trains[0].speed = 301), "speed 301 above the limit 300");
}

/// ".. a length .., kept with the train".
#[test]
fn catches_lengths() {
    let run = Run::of_area_a(7);
    says(run.doctored(|r| r.trains[0].length = 2), "train 1 has length 1, the record says 2");
    says(run.doctored(|r| r.trains[0].length = 0), "train 1 has length 1, the record says 0");
    says(run.doctored(|r| r.trains[4].length = 1), "train 5 is off, but not in the record");
    let entered = |r: &mut Record| (r.trains[0], r.allocations[0]) = (standing(1), 1);
    let enter = Call::Enter { train: 1, route: 1, speed: 0, length: 300 };
    says(Run::of(&area_a()).told(enter, 0, entered), "train 1 has length 300, the record says 1");
}

/// "every train, braking fully from the next speed step on, stops within the segments then allocated to it"
#[test]
fn catches_not_stopping() {
    // after six cycles train 1 is near without a grant: it must brake
    says(Run::of_area_a(24).doctored(|r| r.trains[0].speed = 300), "train 1 does not stop within its segments");
}

/// Lists of calls in any order from many areas: demand 3 holds, the record stays sound, and the
/// running area and a call on its raw record agree.
#[test]
fn many_runs() {
    let mut random = Random::new(15);
    let (mut moved_on, mut left, mut over) = (0, 0, 0);
    for k in 0..150 {
        let description = if k % 5 == 0 { random::short_segments(&mut random) } else { random::area(&mut random, k % 4 != 0) };
        let mut run = Run::of(&description);
        for _ in 0..1000 {
            let before = run.area.record();
            let owned = random::call(&mut random, &description, before.due);
            let answer = run.call(owned.call()).unwrap();
            let after = run.area.record();
            assert!(sound(&after));
            assert_eq!(call_on(&before, &owned.call()), (answer, after));
            if answer != 0 {
                assert_eq!(before, after);
            }
            left += usize::from(answer == 0 && matches!(owned, Owned::Leave(_)));
            moved_on += before.trains.iter().zip(&after.trains).filter(|(was, is)| was.route != 0 && was.place < is.place).count();
            over += after.trains.iter().filter(|train| train.is_on() && train.under(&after.tables).len() > 2).count();
        }
    }
    assert!(moved_on > 1000 && left > 100 && over > 10_000, "{moved_on} moved on, {left} left, {over} over more than two segments");
    println!("{moved_on} moved on, {left} left, {over} over more than two segments");
}
