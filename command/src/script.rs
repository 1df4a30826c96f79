//! `rbu script`: the calls of a scenario as bytes, for firmware and C (docs/FORMATS.md).
use crate::arguments::Given;
use crate::scenario::{self, Scenario};
use crate::streams::{say, shown, write, Failure, Input, Status};
use std::ffi::OsStr;

pub fn run(given: &Given) -> Result<Status, Failure> {
    let scenario = read(&given.operands[0])?;
    let calls = scenario.lines.iter().flat_map(|line| line.calls());
    let bytes: Vec<u8> = calls.flat_map(|(call, _)| call.items()).flat_map(u16::to_le_bytes).collect();
    write(given.value("-o"), &bytes)?;
    Ok(Status::Done)
}

/// The scenario of this name; that a length was taken is said.
pub fn read(name: &OsStr) -> Result<Scenario, String> {
    let mut input = Input::open(name)?;
    input.read_to(crate::lines::MOST_TEXT + 1)?;
    let scenario = scenario::read(&input.bytes).map_err(|wrong| format!("{}: {wrong}", shown(name)))?;
    if let Some(line) = scenario.short {
        say(format!("rbu: an enter without a length, as in line {line}, takes a train of 1 dm"));
    }
    Ok(scenario)
}
