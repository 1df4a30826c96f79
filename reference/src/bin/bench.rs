//! The core and the second program on the same inputs, in one process: microseconds each and the ratio core / second program. Then the
//! core alone: a call on a record that is kept, and the same call inside a run. It ends with status 1 where a load, a write or a call of
//! the core takes longer than the second program's, or a call on a kept record too much longer than inside a run. The rows of a faster
//! line stand apart and do not decide the status: there the core's sum of S has up to 2000 turns, where the second program has its
//! closed form. What these sums take is told for the core alone, as a number of sums: it ends with status 1 too where a load, or a call
//! with all trains far, comes to more than one and a half.
//! Both programs test the whole record at every call and at every write. In the replays and the writes the buffers, for answers and state
//! or for the file, are not cleared between runs; for a single call the state, or the kept record, is copied anew before each run, with
//! and without the call.
use reference::kept::{call_kept, kept_of};
use reference::script::{items_of, script_of};
use reference::stops::RATES;
use reference::*;
use std::hint::black_box;
use std::time::Instant;

/// What a call on a kept record may take, as a part of the same call inside a run.
const MOST_OF_A_RUN: f64 = 1.3;
/// What a load, a write and a call of the core may take, as a part of the second program's.
const MOST_OF_THE_SECOND: f64 = 1.0;
/// What a load and a call with all trains far may come to, in braking sums: each tests rule 5 once, and of a far train `d` answers for the
/// braking distance.
const MOST_SUMS: f64 = 1.5;

/// The mean of so many turns, in microseconds.
fn round<R>(turns: u32, run: &mut impl FnMut() -> R) -> f64 {
    let start = Instant::now();
    for _ in 0..turns {
        black_box(run());
    }
    start.elapsed().as_secs_f64() * 1e6 / f64::from(turns)
}

/// The core and the second program, the least of nine rounds each. Rounds of both take turns, since a machine's speed changes from
/// second to second.
fn time<R, S>(turns: u32, mut core: impl FnMut() -> R, mut second: impl FnMut() -> S) -> (f64, f64) {
    let rounds: Vec<(f64, f64)> = (0..9).map(|_| (round(turns, &mut core), round(turns, &mut second))).collect();
    let least = |part: fn(&(f64, f64)) -> f64| rounds.iter().map(part).fold(f64::MAX, f64::min);
    (least(|x| x.0), least(|x| x.1))
}

/// What `with` takes beyond `without`, of rounds that follow each other.
fn beyond<R>(with: &mut impl FnMut() -> R, without: &mut impl FnMut() -> R) -> f64 {
    round(100, with) - round(100, without)
}

/// The middle one of some numbers.
fn middle(mut numbers: Vec<f64>) -> f64 {
    numbers.sort_by(f64::total_cmp);
    numbers[numbers.len() / 2]
}

fn line(what: &str, core: f64, second: f64) {
    println!("{what:40} {core:9.2} {second:9.2} {:8.2}", core / second);
}

/// A load: core / second program.
fn loads(name: &str, file: &[u8]) -> f64 {
    let (core, second) = time(2000, || rbu::bytes::load(black_box(file)), || load(black_box(file)).is_ok());
    line(&format!("load, {name}"), core, second);
    core / second
}

/// The file sent back out of a running area, by the core from the record that it keeps: core / second program.
fn writes(name: &str, description: &Description, trains: u16) -> f64 {
    let file = description.file();
    let area = running(&file, trains);
    let kept = rbu::Area::of_record(kept_of(&area.record()));
    let (mut by_core, mut by_second) = ([0; FILE_SIZE], [0; FILE_SIZE]);
    let core_run = || black_box(&kept).write(black_box(&mut by_core));
    let second_run = || black_box(&area).send(black_box(&mut by_second));
    let (core, second) = time(2000, core_run, second_run);
    assert!(by_core[..] == file && by_second[..] == file, "write, {name}: both wrote the file");
    line(&format!("write, {name}"), core, second);
    core / second
}

/// A call's times: inside a run of the core, on a record that the core keeps, and with the second program.
struct Times {
    name: String,
    core: f64,
    kept: f64,
    second: f64,
}

impl Times {
    fn mean(name: String, times: &[Times]) -> Times {
        let mean = |part: fn(&Times) -> f64| times.iter().map(part).sum::<f64>() / times.len() as f64;
        Times { name, core: mean(|x| x.core), kept: mean(|x| x.kept), second: mean(|x| x.second) }
    }
}

/// One call on a record, less what handing the record over takes.
fn one_call(name: String, file: &[u8], area: &Area, call: &Call) -> Times {
    let script = items_of(call);
    let before = state_of(&area.record());
    let core_run = |script: &[u16]| {
        let (mut answer, mut state) = ([0], before);
        (rbu::bytes::run_record(file, script, &mut answer, &mut state), state)
    };
    let kept = rbu::Area::of_record(kept_of(&area.record()));
    let kept_run = |call: Option<&Call>| {
        let mut area = black_box(&kept).clone();
        (call.map(|call| call_kept(&mut area, call)), area)
    };
    let second_run = |call: Option<&Call>| {
        let mut area = black_box(*area);
        (call.map(|call| area.call(call)), area)
    };
    let (mut cores, mut kepts, mut seconds) = (vec![], vec![], vec![]);
    for _ in 0..1001 {
        cores.push(beyond(&mut || core_run(&script), &mut || core_run(&[])));
        kepts.push(beyond(&mut || kept_run(Some(call)), &mut || kept_run(None)));
        seconds.push(beyond(&mut || second_run(Some(call)), &mut || second_run(None)));
    }
    let (mut after, mut answer) = (*area, [99]);
    rbu::bytes::run_record(file, &script, &mut answer, &mut { before });
    assert_eq!((answer[0], kept_run(Some(call)).0, after.call(call)), (0, Some(0), 0), "{name} is answered done");
    Times { name, core: middle(cores), kept: middle(kepts), second: middle(seconds) }
}

/// The area of a file with so many trains on, far enough that trains ask and are granted.
fn running(file: &[u8], trains: u16) -> Area {
    let mut area = load(file).expect("the area is accepted");
    (1..=trains).for_each(|t| assert_eq!(area.enter(t, t, 200, 1), 0));
    for _ in 0..15 {
        AREA_A_CYCLE.iter().for_each(|call| assert_eq!(area.call(call), 0));
    }
    area
}

/// The area with a train of length 1 standing on its route's last segment, past its start.
fn at_the_last(area: &Area, number: u8) -> Area {
    let mut record = area.record();
    record.allocations.iter_mut().filter(|train| **train == number).for_each(|train| *train = 0);
    let train = &mut record.trains[usize::from(number) - 1];
    (train.place, train.position, train.speed) = (record.tables.route(train.route).count, 1, 0);
    record.allocations[usize::from(train.own(&record.tables)) - 1] = number;
    Area::from_record(&record).expect("the record is sound")
}

/// The calls of a cycle one after the other, each on the record where it is answered done, and the area after them.
fn steps(name: &str, file: &[u8], mut area: Area) -> (Vec<Times>, Area) {
    let steps = ["speed", "request", "grant", "position"].into_iter().zip(&AREA_A_CYCLE).map(|(step, call)| {
        let times = one_call(format!("{step}, {name}"), file, &area, call);
        area.call(call);
        times
    });
    (steps.collect(), area)
}

/// The calls of a cycle, and a train that leaves and enters anew; and their mean.
fn calls(name: &str, description: &Description, trains: u16) -> Vec<Times> {
    let file = description.file();
    let (mut times, area) = steps(name, &file, running(&file, trains));
    times.extend(leave_and_enter(name, &file, at_the_last(&area, trains as u8), trains, trains, 1));
    times.push(Times::mean(format!("mean call, {name}"), &times));
    times
}

/// A train on its route's last segment leaves, and enters on a route, with a length.
fn leave_and_enter(name: &str, file: &[u8], mut area: Area, train: u16, route: u16, length: u16) -> [Times; 2] {
    [("leave", Call::Leave { train }), ("enter", Call::Enter { train, route, speed: 0, length })].map(|(step, call)| {
        let times = one_call(format!("{step}, {name}"), file, &area, &call);
        area.call(&call);
        times
    })
}

/// The full area with 24 trains, one behind the other from segment 60 back to segment 7, over one, two and four segments. The rear of each
/// second one comes past an end in the next cycle. Each is on the route that ends with its front's segment, if there is one.
fn long_trains(file: &[u8]) -> Area {
    let mut record = load(file).expect("the area is accepted").record();
    let mut front = ROUTES + ROUTE_SEGMENTS - 1;
    for (number, train) in (1..).zip(&mut record.trains) {
        let (position, length, over): (u32, u16, u8) =
            [(4000, 1, 1), (4000, 4100, 2), (4000, 13_000, 2), (1000, LONGEST_TRAIN, 4)][usize::from(number - 1) % 4];
        let route = front.saturating_sub(ROUTE_SEGMENTS - 1).clamp(1, ROUTES);
        *train = RawTrain { route, place: front - route + 1, position, speed: 200, length, ..RawTrain::OFF };
        record.allocations[usize::from(front - over)..usize::from(front)].fill(number);
        front -= over;
    }
    Area::from_record(&record).expect("the record is sound")
}

/// The calls on that area, and their mean; the train that leaves is over four segments, and enters with that length.
fn long_train_calls() -> Vec<Times> {
    let (name, file) = ("full area, long trains", full_area().file());
    let area = long_trains(&file);
    let may_leave = |number: &u8| area.record().train(*number).next(area.tables()).is_none();
    let train = (4..=TRAINS).step_by(4).find(may_leave).expect("a train over four segments is at its route's end");
    let (mut times, area) = steps(name, &file, area);
    times.extend(leave_and_enter(name, &file, area, train.into(), 1, LONGEST_TRAIN));
    times.push(Times::mean(format!("mean call, {name}"), &times));
    times
}

/// Area A's shape at the greatest `gmax`. `d` has room for the longest braking distance and a cycle at the top speed, so that a train can
/// be near at that speed with any step due.
fn faster_area(b: u16) -> Description {
    like_area_a(TOP_SPEED, b, s(1, TOP_SPEED.into()) as u32 + u32::from(TOP_SPEED))
}

/// The same of the full area.
fn faster_full_area(b: u16) -> Description {
    like_full_area(TOP_SPEED, b, faster_area(b).d)
}

/// The segments that trains 1 and 2 are on in Area A's shape, and all trains in the full area, where each has a free segment before it.
fn fronts_in_area_a() -> Vec<u8> {
    vec![1, 2]
}

fn fronts_in_full_area() -> Vec<u8> {
    (1..=TRAINS).map(|number| 2 * number).collect()
}

/// Where trains at the top speed without their next segment are.
#[derive(Clone, Copy, PartialEq, Eq)]
enum Where {
    /// they just are near: their braking distances are needed
    Near,
    /// one decimetre before that
    Far,
}

impl Where {
    fn name(self) -> &'static str {
        match self {
            Where::Near => "near",
            Where::Far => "far",
        }
    }
}

fn at_top_speed(file: &[u8], due: u8, fronts: &[u8], at: Where) -> Area {
    let mut record = Record { due, ..load(file).expect("the area is accepted").record() };
    for (number, &front) in (1..).zip(fronts) {
        let route = front.min(record.tables.r);
        let position = record.tables.segment(front).length - record.tables.d - u32::from(at == Where::Far);
        let asks = u8::from(due == GRANT && at == Where::Near);
        let train = RawTrain { route, place: front - route + 1, position, speed: TOP_SPEED, asks, length: 1, ..RawTrain::OFF };
        record.trains[usize::from(number) - 1] = train;
        record.allocations[usize::from(front) - 1] = number;
    }
    Area::from_record(&record).expect("the record is sound")
}

/// The steps of a cycle with the top speed for all wishes, each with its name and the step due.
fn fast_steps() -> impl Iterator<Item = (u8, &'static str, Call<'static>)> {
    let steps = ["speed", "request", "grant", "position"].into_iter().zip(cycle(&[TOP_SPEED; WISHES]));
    (SPEED..).zip(steps).map(|(due, (step, call))| (due, step, call))
}

/// The calls on the area of a faster line and their mean: each step with both trains near, leave and enter with train 1 there alone.
fn faster_calls(name: &str, description: &Description) -> Vec<Times> {
    let file = description.file();
    let mut times = vec![];
    let stands = |due: u8| at_top_speed(&file, due, &fronts_in_area_a(), Where::Near);
    for (due, step, call) in fast_steps() {
        times.push(one_call(format!("{step}, {name}"), &file, &stands(due), &call));
    }
    times.extend(leave_and_enter(name, &file, at_the_last(&stands(SPEED), 2), 2, 2, 1));
    times.push(Times::mean(format!("mean call, {name}"), &times));
    times
}

/// The area of a faster line, with as many turns of a braking sum as there can be and with one.
fn faster_line() {
    println!("a faster line; with b 1 a braking sum of the core has {TOP_SPEED} turns, with b {TOP_SPEED} one; these rows do not decide the status");
    println!("{:40} {:>9} {:>9} {:>8}", "microseconds", "core", "second", "ratio");
    let mut times = vec![];
    for b in [1, TOP_SPEED] {
        let (name, area) = (format!("gmax {TOP_SPEED}, b {b}"), faster_area(b));
        loads(&name, &area.file());
        times.extend(faster_calls(&name, &area));
    }
    times.iter().for_each(|one| line(&one.name, one.core, one.second));
    print_kept(&times);
}

/// A sum of the top speed: the core's, and the second program's closed form.
fn one_sum() {
    println!("one braking sum, S({TOP_SPEED})");
    println!("{:40} {:>9} {:>9} {:>8}", "microseconds", "core", "second", "ratio");
    for b in RATES {
        let core_run = || rbu::braking_distance(black_box(b), black_box(TOP_SPEED));
        let second_run = || s(black_box(b).into(), black_box(TOP_SPEED).into());
        let (core, second) = time(2000, core_run, second_run);
        // the closed form takes a few nanoseconds
        println!("{:40} {core:9.4} {second:9.4} {:8.2}", format!("one sum, b {b}"), core / second);
    }
}

/// Something of the core with `b` 1 and with the greatest `b`, and the number of sums that the one takes beyond the other.
struct AtBoth {
    name: String,
    times: [f64; 2],
    sums: f64,
    /// it is held to `MOST_SUMS`
    is_bound: bool,
}

impl AtBoth {
    /// Rounds of both take turns, with rounds of one sum beside them.
    fn of<R>(name: String, is_bound: bool, with: impl Fn(usize) -> R, without: impl Fn(usize) -> R) -> AtBoth {
        let (mut times, mut sums) = ([vec![], vec![]], [vec![], vec![]]);
        for _ in 0..301 {
            for (k, b) in RATES.into_iter().enumerate() {
                times[k].push(beyond(&mut || with(k), &mut || without(k)));
                sums[k].push(round(100, &mut || rbu::braking_distance(black_box(b), black_box(TOP_SPEED))));
            }
        }
        let (times, sums) = (times.map(middle), sums.map(middle));
        AtBoth { name, times, sums: (times[0] - times[1]) / (sums[0] - sums[1]), is_bound }
    }

    fn load(name: &str, area: fn(u16) -> Description) -> AtBoth {
        let files = RATES.map(|b| area(b).file());
        AtBoth::of(format!("load, {name}"), true, |k| Some(rbu::bytes::load(black_box(&files[k]))), |_| None)
    }

    /// A call on a record that is kept, less what handing the record over takes.
    fn call(name: String, is_bound: bool, areas: &[Area; 2], call: &Call) -> AtBoth {
        let kept = areas.map(|area| rbu::Area::of_record(kept_of(&area.record())));
        let run = |k: usize, call: Option<&Call>| {
            let mut area = black_box(&kept[k]).clone();
            (call.map(|call| call_kept(&mut area, call)), area)
        };
        assert_eq!([0, 1].map(|k| run(k, Some(call)).0), [Some(0); 2], "{name} is answered done");
        AtBoth::of(name, is_bound, |k| run(k, Some(call)), |k| run(k, None))
    }

    fn mean(name: String, rows: &[AtBoth]) -> AtBoth {
        let mean = |part: &dyn Fn(&AtBoth) -> f64| rows.iter().map(part).sum::<f64>() / rows.len() as f64;
        let times = [0, 1].map(|k| mean(&|row| row.times[k]));
        AtBoth { name, times, sums: mean(&|row| row.sums), is_bound: rows.iter().any(|row| row.is_bound) }
    }
}

/// The steps of a cycle with all these trains far, or near; in Area A's shape a train also leaves and enters anew, with the other there
/// alone; and their mean.
fn calls_at_both(name: &str, area: fn(u16) -> Description, fronts: &[u8], at: Where) -> Vec<AtBoth> {
    let is_bound = at == Where::Far;
    let name = format!("{name}, {} {}", fronts.len(), at.name());
    let files = RATES.map(|b| area(b).file());
    let areas = |due: u8| [0, 1].map(|k: usize| at_top_speed(&files[k], due, fronts, at));
    let step = |(due, step, call)| AtBoth::call(format!("{step}, {name}"), is_bound, &areas(due), &call);
    let mut rows: Vec<AtBoth> = fast_steps().map(step).collect();
    if fronts.len() == 2 {
        let mut areas = areas(SPEED).map(|area| at_the_last(&area, 2));
        for (step, call) in [("leave", Call::Leave { train: 2 }), ("enter", Call::Enter { train: 2, route: 2, speed: 0, length: 1 })] {
            rows.push(AtBoth::call(format!("{step}, {name}"), is_bound, &areas, &call));
            areas.iter_mut().for_each(|area| assert_eq!(area.call(&call), 0));
        }
    }
    rows.push(AtBoth::mean(format!("mean call, {name}"), &rows));
    rows
}

/// What the sums take, in Area A's shape and in the worst area, which is full and has a train on each second segment.
fn sums() -> Vec<AtBoth> {
    let (shape, full) = ("Area A's shape", "full area");
    let mut rows = vec![AtBoth::load(shape, faster_area), AtBoth::load(full, faster_full_area)];
    for at in [Where::Far, Where::Near] {
        rows.extend(calls_at_both(shape, faster_area, &fronts_in_area_a(), at));
    }
    for at in [Where::Far, Where::Near] {
        rows.extend(calls_at_both(full, faster_full_area, &fronts_in_full_area(), at));
    }
    println!("gmax {TOP_SPEED}, trains at the top speed without their next segment, all far or all near, calls on a record that is kept;");
    println!("sums: (time at b 1 - time at b {TOP_SPEED}) / (one sum at b 1 - one sum at b {TOP_SPEED}), one sum timed beside each;");
    println!("a load, and a call with all trains far, may come to {MOST_SUMS}");
    println!("{:40} {:>9} {:>9} {:>8}", "microseconds, of the core", "b 1", format!("b {TOP_SPEED}"), "sums");
    rows.iter().for_each(|row| println!("{:40} {:9.2} {:9.2} {:8.1}", row.name, row.times[0], row.times[1], row.sums));
    rows
}

fn print_kept(times: &[Times]) {
    println!("a call on a record that is kept, and the same call inside a run");
    println!("{:40} {:>9} {:>9} {:>8}", "microseconds", "kept", "in a run", "ratio");
    times.iter().for_each(|one| line(&one.name, one.kept, one.core));
}

/// The grant step with all trains asking, two for each segment: with equal counts, and with higher counts for the lower numbers.
fn grants() -> Vec<Times> {
    let file = merging_area().file();
    let mut area = running(&file, TRAINS.into());
    AREA_A_CYCLE[..2].iter().for_each(|call| assert_eq!(area.call(call), 0));
    let record = area.record();
    assert!(record.trains.iter().all(|train| train.asks == 1), "all trains ask");
    let with_counts = |name: &str, count: fn(u8) -> u16| {
        let mut record = record;
        (1..).zip(&mut record.trains).for_each(|(number, train)| train.count = count(number));
        let area = Area::from_record(&record).expect("the record is sound");
        one_call(format!("grant, full area, all ask, {name}"), &file, &area, &Call::Grant)
    };
    vec![with_counts("counts equal", |_| 0), with_counts("counts fall", |number| (TRAINS - number).into())]
}

/// A list of calls, by call: from the file by all three, in one run, call by call on a kept record, and with the second program.
fn replay(name: &str, description: &Description, trains: u16) -> Times {
    let file = description.file();
    let mut calls: Vec<Call> = (1..=trains).map(|t| Call::Enter { train: t, route: t, speed: 200, length: 1 }).collect();
    for _ in 0..200 {
        calls.extend(AREA_A_CYCLE);
    }
    let script = script_of(&calls);
    let mut answers = vec![0; calls.len()];
    let mut state = [0; STATE_SIZE];
    let mut core_run = || rbu::bytes::run_file(&file, &script, &mut answers, &mut state);
    let kept_run = || {
        let mut area = rbu::Area::start(&file).expect("the area is accepted");
        for call in &calls {
            black_box(call_kept(&mut area, call));
        }
        area
    };
    let second_run = || {
        let mut area = load(&file).expect("the area is accepted");
        for call in &calls {
            black_box(area.call(call));
        }
        area
    };
    let count = calls.len() as f64;
    let (core, second) = time(20, &mut core_run, second_run);
    let (again, kept) = time(20, &mut core_run, kept_run);
    let name = format!("replay of {} calls, {name}, a call", calls.len());
    Times { name, core: core.min(again) / count, kept: kept / count, second: second / count }
}

fn main() {
    println!("the core and the second program on the same inputs; each of the single calls is answered done");
    println!("in the replays and the writes the buffers are not cleared between runs;");
    println!("for a single call the state, or the kept record, is copied anew before each run, with and without the call");
    println!("{:40} {:>9} {:>9} {:>8}", "microseconds", "core", "second", "ratio");
    let loads = [loads("Area A", &area_a().file()), loads("full area", &full_area().file())];
    let writes = [writes("Area A", &area_a(), 2), writes("full area", &full_area(), TRAINS.into())];
    let mut times = calls("Area A", &area_a(), 2);
    times.extend(calls("full area", &full_area(), TRAINS.into()));
    times.extend(long_train_calls());
    times.extend(grants());
    times.push(replay("Area A", &area_a(), 2));
    times.push(replay("full area", &full_area(), TRAINS.into()));
    times.iter().for_each(|one| line(&one.name, one.core, one.second));
    print_kept(&times);
    faster_line();
    one_sum();
    let sums = sums();
    let slow_file = loads.iter().chain(&writes).any(|&ratio| ratio > MOST_OF_THE_SECOND);
    if slow_file {
        println!("bench: a load or a write of the core takes over {MOST_OF_THE_SECOND:.1} of the second program's");
    }
    let slow_calls: Vec<&Times> = times.iter().filter(|one| one.core > MOST_OF_THE_SECOND * one.second).collect();
    for one in &slow_calls {
        println!("bench: {}: over {MOST_OF_THE_SECOND:.1} of the second program's", one.name);
    }
    let slow_kept = times.iter().any(|one| one.kept > MOST_OF_A_RUN * one.core);
    if slow_kept {
        println!("bench: a call on a kept record takes over {MOST_OF_A_RUN} of the same call inside a run");
    }
    let many_sums: Vec<&AtBoth> = sums.iter().filter(|row| row.is_bound && row.sums > MOST_SUMS).collect();
    for row in &many_sums {
        println!("bench: {}: over {MOST_SUMS} sums", row.name);
    }
    if slow_file || !slow_calls.is_empty() || slow_kept || !many_sums.is_empty() {
        std::process::exit(1);
    }
}
