//! A scenario, calls as text (docs/RBU.md): its lines, the calls of each, and what is wrong with one that cannot be read.
use crate::lines::{self, is_digits, number, number_16, quoted};
use rbu::{CALL_ITEMS, TRAINS};

/// So many calls a scenario may have.
pub const MOST_CALLS: usize = 20_000;
/// So many wishes a line may list, and a call of a script has room for.
pub const MOST_WISHES: usize = 25;
/// What a scenario is called where something is wrong with it.
const WHAT: &str = "scenario";

#[derive(Clone, PartialEq, Eq, Debug)]
pub enum Call {
    Enter { train: u16, route: u16, speed: u16, length: u16 },
    Leave { train: u16 },
    Speed(Vec<u16>),
    Request,
    Grant,
    Position,
}

impl Call {
    pub fn name(&self) -> &'static str {
        match self {
            Call::Enter { .. } => "enter",
            Call::Leave { .. } => "leave",
            Call::Speed(_) => "speed",
            Call::Request => "request",
            Call::Grant => "grant",
            Call::Position => "position",
        }
    }

    /// Its record in a script of bytes (docs/FORMATS.md).
    pub fn items(&self) -> [u16; CALL_ITEMS] {
        let mut items = [0; CALL_ITEMS];
        match self {
            Call::Enter { train, route, speed, length } => items[..5].copy_from_slice(&[1, *train, *route, *speed, *length]),
            Call::Leave { train } => items[..2].copy_from_slice(&[2, *train]),
            Call::Speed(wishes) => {
                (items[0], items[6]) = (3, wishes.len() as u16);
                items[7..7 + wishes.len()].copy_from_slice(wishes);
            }
            Call::Request => items[0] = 4,
            Call::Grant => items[0] = 5,
            Call::Position => items[0] = 6,
        }
        items
    }
}

/// What a line asks for.
#[derive(Clone, PartialEq, Eq, Debug)]
pub enum Asked {
    One(Call),
    /// the four steps of a cycle, so many times where that is said
    Cycles {
        wishes: Vec<u16>,
        times: Option<u16>,
    },
}

/// A line that has calls.
#[derive(Clone, PartialEq, Eq, Debug)]
pub struct Line {
    /// its number in the text, from 1
    pub number: usize,
    /// as it is written, without its comment and with one space between words
    pub text: String,
    pub asked: Asked,
}

impl Line {
    pub fn count(&self) -> usize {
        match &self.asked {
            Asked::One(_) => 1,
            Asked::Cycles { times, .. } => 4 * usize::from(times.unwrap_or(1)),
        }
    }

    /// The calls in order, each with what tells it from the line's others: nothing, `speed`, or `cycle 3, speed`.
    pub fn calls(&self) -> Vec<(Call, String)> {
        match &self.asked {
            Asked::One(call) => vec![(call.clone(), String::new())],
            Asked::Cycles { wishes, times } => (1..=times.unwrap_or(1))
                .flat_map(|cycle| {
                    let which = times.map_or(String::new(), |_| format!("cycle {cycle}, "));
                    let calls = [Call::Speed(wishes.clone()), Call::Request, Call::Grant, Call::Position];
                    calls.map(|call| (call.clone(), format!("{which}{}", call.name())))
                })
                .collect(),
        }
    }
}

#[derive(PartialEq, Eq, Debug)]
pub struct Scenario {
    /// the area that it names
    pub area: Option<String>,
    /// the first line that names no length of a train
    pub short: Option<usize>,
    pub lines: Vec<Line>,
}

/// A scenario, or what is wrong with it.
pub fn read(bytes: &[u8]) -> Result<Scenario, String> {
    let text = lines::decoded(bytes, WHAT)?;
    let mut scenario = Scenario { area: None, short: None, lines: vec![] };
    // all calls, and the line that goes over the most; from there on calls are only counted
    let (mut all, mut over) = (0, None);
    lines::each(&text, WHAT, |line| {
        if line.words[0] == "area" {
            return area_line(&line.words[1..], &mut scenario);
        }
        let asked = asked(line.words[0], &line.words[1..])?;
        if matches!(asked, Asked::One(Call::Enter { .. })) && line.words.len() == 4 {
            scenario.short.get_or_insert(line.number);
        }
        let line = Line { number: line.number, text: line.words.join(" "), asked };
        all += line.count();
        if all <= MOST_CALLS {
            scenario.lines.push(line);
        } else {
            over.get_or_insert(line.number);
        }
        Ok(())
    })?;
    match over {
        None => Ok(scenario),
        Some(over) => Err(format!("the scenario has {all} calls, and the most is {MOST_CALLS}; line {over} goes over")),
    }
}

/// `area NAME`, which comes before the first call.
fn area_line(words: &[&str], scenario: &mut Scenario) -> Result<(), String> {
    match words {
        _ if scenario.area.is_some() => Err("'area' stands in a line before already".into()),
        _ if !scenario.lines.is_empty() => Err("'area' comes before the first call: a scenario runs on one area".into()),
        [name] if name.contains('\u{fffd}') => Err("'area': the name is not in UTF-8; hand the area to rbu as its argument".into()),
        [name] => {
            scenario.area = Some(name.to_string());
            Ok(())
        }
        _ => Err(format!("'area' takes the NAME of a file, one word, and {} given", are_given(words.len(), "word"))),
    }
}

fn are_given(many: usize, thing: &str) -> String {
    match many {
        0 => format!("no {thing} is"),
        1 => format!("one {thing} is"),
        n => format!("{n} {thing}s are"),
    }
}

/// What is said where another number of numbers is given than a call takes.
fn wrongly_given(call: &str, takes: &str, words: &[&str]) -> String {
    format!("'{call}' takes {takes}, and {} given", are_given(words.len(), "number"))
}

/// What a line's words ask for.
fn asked(call: &str, words: &[&str]) -> Result<Asked, String> {
    Ok(match call {
        "enter" => Asked::One(enter(words)?),
        "leave" => match numbers(words)?[..] {
            [train] => Asked::One(Call::Leave { train }),
            _ => return Err(wrongly_given(call, "TRAIN", words)),
        },
        "speed" => Asked::One(Call::Speed(speed(words)?)),
        "cycle" => cycles(words)?,
        "request" => alone(call, words, Call::Request)?,
        "grant" => alone(call, words, Call::Grant)?,
        "position" => alone(call, words, Call::Position)?,
        other => {
            let calls = "the calls are enter, leave, speed, request, grant, position and cycle";
            return Err(format!("there is no call {}; {calls}", quoted(other)));
        }
    })
}

fn numbers(words: &[&str]) -> Result<Vec<u16>, String> {
    words.iter().map(|word| number_16(word)).collect()
}

fn alone(name: &str, words: &[&str], call: Call) -> Result<Asked, String> {
    match numbers(words)?[..] {
        [] => Ok(Asked::One(call)),
        _ => Err(wrongly_given(name, "no number", words)),
    }
}

fn enter(words: &[&str]) -> Result<Call, String> {
    match numbers(words)?[..] {
        [train, route, speed] => Ok(Call::Enter { train, route, speed, length: 1 }),
        [train, route, speed, length] => Ok(Call::Enter { train, route, speed, length }),
        _ => Err(wrongly_given("enter", "TRAIN ROUTE SPEED or TRAIN ROUTE SPEED LENGTH", words)),
    }
}

/// `WISH` for all trains, `WISH TRAIN=WISH ..` for all but some, or `WISH WISH ..`, just these.
fn speed(words: &[&str]) -> Result<Vec<u16>, String> {
    match words {
        [] => Err(format!("'speed' takes one WISH for all trains or up to {MOST_WISHES} WISHES, and no number is given")),
        [wish] => Ok(vec![number_16(wish)?; TRAINS]),
        [wish, others @ ..] if others.iter().any(|word| word.contains('=')) => wishes(number_16(wish)?, others),
        _ if words.len() > MOST_WISHES => Err(format!("'speed' takes up to {MOST_WISHES} wishes, and {} are given", words.len())),
        _ => numbers(words),
    }
}

/// `WISH [TRAIN=WISH ..] [xTIMES]`.
fn cycles(words: &[&str]) -> Result<Asked, String> {
    let (wish, others) = words.split_first().ok_or_else(|| wrongly_given("cycle", "WISH [TRAIN=WISH ..] [xTIMES]", words))?;
    let wish = number_16(wish)?;
    let (others, times) = match others.split_last() {
        Some((last, before)) if last.starts_with('x') => (before, Some(times(last)?)),
        _ => (others, None),
    };
    Ok(Asked::Cycles { wishes: wishes(wish, others)?, times })
}

fn times(word: &str) -> Result<u16, String> {
    match number_16(&word[1..]).map_err(|wrong| format!("{} is no xTIMES, as x20: {wrong}", quoted(word)))? {
        0 => Err("'x0': a cycle is run once or more".into()),
        times => Ok(times),
    }
}

/// One wish for all trains but those that have their own.
fn wishes(wish: u16, others: &[&str]) -> Result<Vec<u16>, String> {
    let mut wishes = vec![wish; TRAINS];
    let mut named = vec![];
    for word in others {
        let pair = word.split_once('=').filter(|(train, wish)| is_digits(train) && is_digits(wish));
        let (train, wish) = pair.ok_or_else(|| format!("{} is not TRAIN=WISH, as 3=250", quoted(word)))?;
        let wish = number_16(wish)?;
        let train = match number(train, TRAINS as u32) {
            Ok(train @ 1..) => train as usize,
            _ => return Err(format!("there is no train {}: trains are 1 to {TRAINS}", quoted(train).trim_matches('\''))),
        };
        if named.contains(&train) {
            return Err(format!("train {train} has two wishes"));
        }
        named.push(train);
        wishes[train - 1] = wish;
    }
    Ok(wishes)
}
