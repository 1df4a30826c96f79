//! `rbu show`: an area as text.
use crate::area_file::AreaFile;
use crate::arguments::Given;
use crate::streams::{write, Failure, Status};
use crate::tables::Tables;
use crate::text;
use rbu::{Refusal, FILE_SIZE};

pub fn run(given: &Given) -> Result<Status, Failure> {
    let area = AreaFile::read(&given.operands[0])?;
    let answer = rbu::load(&area.bytes);
    let tables = spelt(&area.bytes).map_err(|wrong| unspelt(&area.name, answer, &wrong))?;
    let text = text::written(&tables, given.has("--metres"));
    let (text, status) = match answer {
        Ok(()) => (text, Status::Done),
        Err(refusal) => (format!("# {refusal}\n{text}"), Status::Refused),
    };
    write(given.value("-o"), text.as_bytes())?;
    Ok(status)
}

fn unspelt(name: &str, answer: Result<(), Refusal>, wrong: &str) -> Failure {
    let answer = answer.err().map_or(String::new(), |refusal| format!("{refusal}; "));
    Failure::Because(format!("{name}: {answer}no text spells it: {wrong}"))
}

/// The area of a file that a text can spell, or the first byte that no text spells.
pub fn spelt(bytes: &[u8]) -> Result<Tables, String> {
    let Ok(file) = <&[u8; FILE_SIZE]>::try_from(bytes) else {
        let wrong = |what| Err(format!("it {what}, and an area file has {FILE_SIZE} bytes"));
        return match bytes.len() {
            0..FILE_SIZE => wrong(format!("ends before byte {}", bytes.len())),
            _ => wrong(format!("goes on with byte {FILE_SIZE}")),
        };
    };
    let tables = Tables::of_file(file);
    let spelt = tables.file();
    match (0..FILE_SIZE).find(|&at| file[at] != spelt[at]) {
        None => Ok(tables),
        Some(at) => Err(format!("byte {at} is {}, where a text has {}", file[at], spelt[at])),
    }
}
