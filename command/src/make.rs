//! `rbu make`: the file of an area's text.
use crate::area_file::{no_text, AreaFile};
use crate::arguments::Given;
use crate::explain;
use crate::faults::Source;
use crate::streams::{say, write, Failure, Status};
use rbu::{Area, FILE_SIZE};

pub fn run(given: &Given) -> Result<Status, Failure> {
    let text = AreaFile::read(&given.operands[0])?;
    if matches!(text.source, Source::File) {
        return Err(Failure::Because(format!("{}: {}", text.name, no_text(&text.bytes))));
    }
    match Area::start(&text.bytes) {
        Ok(area) => {
            let mut file = [0; FILE_SIZE];
            area.write(&mut file).map_err(|refusal| format!("{}: the core does not write it: {refusal}", text.name))?;
            write(given.value("-o"), &file)?;
            Ok(Status::Done)
        }
        Err(refusal) => {
            if given.has("--anyway") {
                write(given.value("-o"), &text.bytes)?;
            }
            say(format!("rbu: {}", explain::told(&text.name, refusal, &explain::reasons(&text, refusal, true))));
            Ok(Status::Refused)
        }
    }
}
