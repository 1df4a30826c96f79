//! `rbu check`: what the core answers to areas, and why.
use crate::area_file::AreaFile;
use crate::arguments::Given;
use crate::explain;
use crate::faults::warnings;
use crate::layout::{N_AT, R_AT};
use crate::lines::counted;
use crate::streams::{print, say, Failure, Status};
use crate::tables::Tables;

pub fn run(given: &Given) -> Result<Status, Failure> {
    let all = given.has("--all");
    let mut ends = vec![];
    for name in &given.operands {
        let end = match AreaFile::read(name) {
            Ok(area) => {
                let (line, end) = checked(&area, all);
                print(format!("{line}\n").as_bytes())?;
                end
            }
            Err(wrong) => {
                say(format!("rbu: {wrong}"));
                Status::Failed
            }
        };
        ends.push(end);
    }
    if ends.len() > 1 {
        print(format!("{}\n", sum(&ends)).as_bytes())?;
    }
    Ok(ends.into_iter().max().unwrap_or(Status::Done))
}

/// The lines of one area.
fn checked(area: &AreaFile, all: bool) -> (String, Status) {
    match rbu::load(&area.bytes) {
        Err(refusal) => (explain::told(&area.name, refusal, &explain::reasons(area, refusal, all)), Status::Refused),
        Ok(()) => {
            let many = |at: usize, thing| counted(area.bytes[at].into(), thing);
            let mut lines = format!("{}: 0 0 done, {}, {}", area.name, many(N_AT, "segment"), many(R_AT, "route"));
            if let (true, Ok(file)) = (all, area.bytes[..].try_into()) {
                lines.extend(warnings(&Tables::of_file(file), &area.source).iter().map(|warning| format!("\n    warning: {warning}")));
            }
            (lines, Status::Done)
        }
    }
}

fn sum(ends: &[Status]) -> String {
    let many = |end: Status| ends.iter().filter(|other| **other == end).count();
    let mut sum = format!("{}: {} accepted, {} refused", counted(ends.len(), "area"), many(Status::Done), many(Status::Refused));
    if many(Status::Failed) > 0 {
        sum += &format!(", {} could not be read", many(Status::Failed));
    }
    sum
}
