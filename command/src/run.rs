//! `rbu run`: the calls of a scenario on an area, one at a time, as a running unit gets them.
use crate::area_file::AreaFile;
use crate::arguments::Given;
use crate::explain;
use crate::scenario::{Call, Line, Scenario};
use crate::script;
use crate::streams::{is_standard, is_stream, print, say, Failure, Status};
use rbu::{Area, Refusal, SEGMENTS};
use std::ffi::{OsStr, OsString};
use std::fmt::Write;
use std::path::{Path, PathBuf};

pub fn run(given: &Given) -> Result<Status, Failure> {
    let name = &given.operands[0];
    let scenario = script::read(name)?;
    let area = area_of(given.operands.get(1), name, &scenario)?;
    let tracing = given.has("--trace");
    let started = match Area::start(&area.bytes) {
        Ok(started) => started,
        Err(refusal) => {
            if !tracing {
                print(format!("load {} {}\n", refusal.number, refusal.place).as_bytes())?;
            }
            say(format!("rbu: {}", explain::told(&area.name, refusal, &explain::reasons(&area, refusal, false))));
            return Ok(Status::Refused);
        }
    };
    let steps = steps(started.clone(), &scenario);
    let text = if tracing { trace(&steps) } else { transcript(&started, &scenario, &steps) };
    print(text.as_bytes())?;
    Ok(if given.has("--strict") && refused(&steps) > 0 { Status::Refused } else { Status::Done })
}

/// The area that is named after the scenario, or by it, or Area A.
fn area_of(named: Option<&OsString>, scenario: &OsStr, read: &Scenario) -> Result<AreaFile, String> {
    match (named, &read.area) {
        (Some(named), _) => AreaFile::read(named),
        (None, Some(named)) => AreaFile::read(named_by(scenario, named).as_os_str()),
        (None, None) => {
            say("rbu: no area is named, and Area A is taken");
            Ok(AreaFile::area_a())
        }
    }
}

/// The area that a scenario names: seen from the scenario's own folder, and where that comes from standard input or a pipe from the
/// working one. It is always a file: `-` is one of that name.
fn named_by(scenario: &OsStr, area: &str) -> PathBuf {
    let path = Path::new(scenario);
    let is_file = !is_standard(scenario) && !is_stream(path) && path.is_file();
    let folder = path.parent().filter(|folder| is_file && !folder.as_os_str().is_empty());
    match folder {
        Some(folder) => folder.join(area),
        None if is_standard(OsStr::new(area)) => Path::new(".").join(area),
        None => area.into(),
    }
}

// ---- the run

/// A call that was run.
struct Step<'a> {
    line: &'a Line,
    /// what tells it from the line's other calls
    which: String,
    call: Call,
    answer: Result<(), Refusal>,
    /// the cycles that are done after it: its position steps
    cycles: usize,
    /// the area after it
    area: Area,
}

fn steps(mut area: Area, scenario: &Scenario) -> Vec<Step<'_>> {
    let mut cycles = 0;
    let mut steps = vec![];
    for line in &scenario.lines {
        for (call, which) in line.calls() {
            let answer = answer(&mut area, &call);
            cycles += usize::from(call == Call::Position && answer.is_ok());
            steps.push(Step { line, which, call, answer, cycles, area: area.clone() });
        }
    }
    steps
}

fn refused(steps: &[Step]) -> usize {
    steps.iter().filter(|step| step.answer.is_err()).count()
}

fn answer(area: &mut Area, call: &Call) -> Result<(), Refusal> {
    match call {
        Call::Enter { train, route, speed, length } => area.enter(*train, *route, *speed, *length),
        Call::Leave { train } => area.leave(*train),
        Call::Speed(wishes) => area.speed(wishes),
        Call::Request => area.request(),
        Call::Grant => area.grant(),
        Call::Position => area.position(),
    }
}

/// `NUMBER WORD`.
fn number_and_word(answer: &Result<(), Refusal>) -> String {
    answer.map_or_else(|refusal| format!("{} {}", refusal.number, refusal.word()), |()| "0 done".into())
}

// ---- what is printed

/// Load's answer, the lines with theirs, how much was run, and where everything stands.
fn transcript(started: &Area, scenario: &Scenario, steps: &[Step]) -> String {
    let mut text = "load 0 0\n".to_string();
    let mut rest = steps;
    for line in &scenario.lines {
        let (own, after) = rest.split_at(line.count());
        rest = after;
        text += &rows(line, own);
    }
    let cycles = steps.last().map_or(0, |step| step.cycles);
    let _ = writeln!(text, "cycles {cycles} calls {} refused {}", steps.len(), refused(steps));
    text + &state(steps.last().map_or(started, |step| &step.area))
}

/// A line of the scenario with its answer: a row, and for cycles of which not all is done a row for each refused call.
fn rows(line: &Line, steps: &[Step]) -> String {
    let row =
        |which: &str, answer: &Result<(), Refusal>| format!("line {}: {}{which}: {}\n", line.number, line.text, number_and_word(answer));
    let refused: Vec<&Step> = steps.iter().filter(|step| step.answer.is_err()).collect();
    if refused.is_empty() {
        return row("", &Ok(()));
    }
    let which = |step: &Step| if step.which.is_empty() { String::new() } else { format!(", {}", step.which) };
    refused.iter().map(|step| row(&which(step), &step.answer)).collect()
}

/// Where everything stands: the step due, the trains on, the allocations, the report.
fn state(area: &Area) -> String {
    let mut text = format!("due {}\n", area.due());
    for (number, train) in area.trains_on() {
        let (route, place, position, speed) = (train.route, train.place, train.position, train.speed);
        let _ = write!(text, "train {number} route {route} place {place} position {position} speed {speed}");
        let _ = writeln!(text, " asks {} count {} length {}", train.asks, train.count, train.length);
    }
    for segment in 1..=SEGMENTS as u8 {
        if area.allocated_to(segment) != 0 {
            let _ = writeln!(text, "allocation {segment} {}", area.allocated_to(segment));
        }
    }
    // a record that was started and handed on is never refused, and a refused report has zeros
    let (allocated, free) = area.report().map_or((0, 0), |report| (report.allocated, report.free));
    let _ = writeln!(text, "report {allocated} {free}");
    text
}

const COLUMNS: [&str; 14] =
    ["call", "line", "cycle", "name", "answer", "train", "route", "segment", "position", "speed", "length", "asks", "count", "allocated"];

/// A row for each train on after each call; one with `-` where none is on.
fn trace(steps: &[Step]) -> String {
    let mut text = COLUMNS.join("\t") + "\n";
    for (number, step) in (1..).zip(steps) {
        let name = match step.call {
            Call::Enter { train, .. } | Call::Leave { train } => format!("{} {train}", step.call.name()),
            _ => step.call.name().into(),
        };
        let call = format!("{number}\t{}\t{}\t{name}\t{}", step.line.number, step.cycles, number_and_word(&step.answer));
        let trains = trains(&step.area);
        match trains.is_empty() {
            true => text += &format!("{call}{}\n", "\t-".repeat(COLUMNS.len() - 5)),
            false => text.extend(trains.iter().map(|train| format!("{call}\t{train}\n"))),
        }
    }
    text
}

fn trains(area: &Area) -> Vec<String> {
    let row = |(number, train): (u8, &rbu::Train)| {
        let held = (1..=SEGMENTS as u8).filter(|segment| area.allocated_to(*segment) == number);
        let held: Vec<String> = held.map(|segment| segment.to_string()).collect();
        let (segment, position, speed) = (area.segment_of(number), train.position, train.speed);
        let first = format!("{number}\t{}\t{segment}\t{position}\t{speed}\t{}", train.route, train.length);
        format!("{first}\t{}\t{}\t{}", train.asks, train.count, held.join(" "))
    };
    area.trains_on().map(row).collect()
}
