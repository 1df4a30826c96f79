//! The core's answer to an area, and why: what `faults` finds, held to the answer.
use crate::area_file::AreaFile;
use crate::faults::{faults, Fault};
use crate::lines::counted;
use rbu::Refusal;

/// What is said where the explanation does not come to the answer.
const UNEXPLAINED: &str = "this answer has no explanation here";

/// The lines below a refused area's answer: the faults at the answer's rule and place, or all that can be found.
pub fn reasons(area: &AreaFile, refusal: Refusal, all: bool) -> Vec<String> {
    reasons_of(&faults(&area.bytes, &area.source), refusal, all)
}

fn reasons_of(found: &[Fault], refusal: Refusal, all: bool) -> Vec<String> {
    let at_answer = |fault: &Fault| (fault.number, fault.place) == (refusal.number, refusal.place);
    if !found.first().is_some_and(at_answer) {
        return vec![UNEXPLAINED.into()];
    }
    if !all {
        return found.iter().filter(|fault| at_answer(fault)).map(|fault| fault.what.clone()).collect();
    }
    let numbered = |fault: &Fault| format!("{}: {}", Refusal { number: fault.number, place: fault.place }, fault.what);
    let sum = format!("{} in all; the unit's answer is the first", counted(found.len(), "fault"));
    found.iter().map(numbered).chain([sum]).collect()
}

/// An answer and the lines below it.
pub fn told(name: &str, refusal: Refusal, reasons: &[String]) -> String {
    let below: String = reasons.iter().map(|reason| format!("\n    {reason}")).collect();
    format!("{name}: {refusal}{below}")
}

#[cfg(test)]
mod tests {
    use super::*;

    fn fault(number: u8, place: u16, what: &str) -> Fault {
        Fault { number, place, what: what.into() }
    }

    #[test]
    fn an_answer_without_its_explanation() {
        let refusal = Refusal { number: 9, place: 1 };
        for found in [vec![], vec![fault(9, 2, "a")], vec![fault(8, 1, "a"), fault(9, 1, "b")]] {
            for all in [false, true] {
                assert_eq!(reasons_of(&found, refusal, all), [UNEXPLAINED]);
            }
        }
    }

    #[test]
    fn some_and_all() {
        let found = [fault(9, 1, "a"), fault(9, 1, "b"), fault(9, 2, "c"), fault(10, 1, "d")];
        let refusal = Refusal { number: 9, place: 1 };
        assert_eq!(reasons_of(&found, refusal, false), ["a", "b"]);
        let all = ["9 1 drop: a", "9 1 drop: b", "9 2 drop: c", "10 1 route: d", "4 faults in all; the unit's answer is the first"];
        assert_eq!(reasons_of(&found, refusal, true), all);
        assert_eq!(told("x", refusal, &reasons_of(&found, refusal, false)), "x: 9 1 drop\n    a\n    b");
    }
}
