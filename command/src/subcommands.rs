//! The subcommands, a row each, and how their use is told.
use crate::arguments::{Form, Given, Opt};
use crate::lines::{listed, quoted};
use crate::streams::{print, Failure, Status};
use crate::{check, make, run, script, show};
use std::ffi::OsString;

/// A subcommand: its name, what it takes, what it does, and an example that works as it stands.
struct Subcommand {
    name: &'static str,
    form: Form,
    /// in a few words
    does: &'static str,
    /// in full, and what its inputs look like
    tells: &'static str,
    inputs: &'static [&'static str],
    example: &'static str,
    run: fn(&Given) -> Result<Status, Failure>,
}

const TABLE: &[Subcommand] = &[
    Subcommand {
        name: "check",
        form: Form {
            needed: &["AREA"],
            more: &[],
            many: true,
            options: &[Opt {
                name: "--all",
                value: None,
                what: "every fault that can be found; of an accepted area what nobody wants",
            }],
        },
        does: "say whether the core takes an area, and why not",
        tells: "Prints NAME: NUMBER PLACE WORD for each area, the core's answer; below a refused\none, what is wrong, its value, its bound, and where it stands. The status is 1 where\none is refused.",
        inputs: &[AREAS, TEXT],
        example: "printf 'area gmax 300 b 10 d 4650\\nsegment 1 length 600 m limit 300 entry exit\\nroute 1 1\\n' | rbu check -",
        run: check::run,
    },
    Subcommand {
        name: "show",
        form: Form {
            needed: &["AREA"],
            more: &[],
            many: false,
            options: &[
                Opt { name: "--metres", value: None, what: "lengths in metres, not in decimetres" },
                Opt { name: "-o", value: Some("TEXT"), what: "write to this file" },
            ],
        },
        does: "write an area as text",
        tells: "The text has a line for the area and for each segment and route. Of a refused area\nthe core's answer is its first line, a comment, and the status is 1; where no text can\nspell it, the first such byte is named.",
        inputs: &[AREAS, TEXT],
        example: "printf 'area gmax 300 b 10 d 4650\\nsegment 1 length 6000 limit 300 entry exit\\nroute 1 1\\n' | rbu show --metres -",
        run: show::run,
    },
    Subcommand {
        name: "make",
        form: Form {
            needed: &["TEXT"],
            more: &[],
            many: false,
            options: &[
                Opt { name: "-o", value: Some("FILE"), what: "write to this file" },
                Opt { name: "--anyway", value: None, what: "write the bytes of a refused text too" },
            ],
        },
        does: "make the area file of 2,560 bytes from a text",
        tells: "The bytes are those that the core itself writes of the area. Of a refused text the\ncore's answer and every fault are told, nothing is written, and the status is 1.",
        inputs: &[TEXT],
        example: "printf 'area gmax 300 b 10 d 4650\\nsegment 1 length 600 m limit 300 entry exit\\nroute 1 1\\n' | rbu make - -o siding.area.bin",
        run: make::run,
    },
    Subcommand {
        name: "run",
        form: Form {
            needed: &["SCENARIO"],
            more: &["AREA"],
            many: false,
            options: &[
                Opt { name: "--trace", value: None, what: "a table in place of it: a row for each train after each call" },
                Opt { name: "--strict", value: None, what: "a refused call makes the status 1" },
            ],
        },
        does: "run the calls of a scenario on an area",
        tells: "Prints the answer to each line of the scenario, how much was run, and where every\ntrain stands at the end. Where no area is named, Area A is taken.",
        inputs: &[AREAS, SCENARIO],
        example: "printf 'enter 1 1 250 1\\nenter 2 2 200 1\\ncycle 300 x6\\n' | rbu run -",
        run: run::run,
    },
    Subcommand {
        name: "script",
        form: Form {
            needed: &["SCENARIO"],
            more: &[],
            many: false,
            options: &[Opt { name: "-o", value: Some("FILE"), what: "write to this file" }],
        },
        does: "write the calls of a scenario as bytes, for firmware and C",
        tells: "A call has 64 bytes.",
        inputs: &[SCENARIO],
        example: "printf 'enter 1 1 250 1\\ncycle 300 x6\\n' | rbu script - -o six_cycles.script",
        run: script::run,
    },
];

const AREAS: &str = "An AREA is a file of 2,560 bytes, or its text.\n";
const STATUSES: &str = "- is standard input or output. Status: 0 done, 1 refused by the core, 2 could not be run.\n";
const TEXT: &str = "\
The lines of an area's text; # starts a comment:
    area gmax G b B d D           top speed, speed lost by a cycle of braking, end distance
    segment N length L limit V    and where it is so: entry, exit, to A, to A B
    route N A B C ..              its segments
Lengths are decimetres, or metres as 600 m; speeds are decimetres per cycle.
";
const SCENARIO: &str = "\
The lines of a scenario; # starts a comment:
    area NAME                            the area that it runs on, before the first call
    enter TRAIN ROUTE SPEED [LENGTH]     a length in decimetres; 1 where there is none
    leave TRAIN
    cycle WISH [TRAIN=WISH ..] [xTIMES]  speed, request, grant, position; x20: twenty times
    speed WISH [TRAIN=WISH ..]           the speed that trains are to have, if they may
    request, grant, position
";

/// Runs what the words ask for.
pub fn run(words: &[OsString]) -> Result<Status, Failure> {
    let Some((first, rest)) = words.split_first() else {
        return tell(&overview());
    };
    match (first.to_str(), rest) {
        (Some("--version"), []) => tell(&version()),
        (Some("help" | "--help" | "-h"), []) => tell(&overview()),
        (Some("help"), [name]) => tell(&found(name)?.help()),
        (Some("help"), _) => Err(Failure::Because("help takes one subcommand".into())),
        (Some(option @ ("--version" | "--help" | "-h")), _) => Err(Failure::Because(format!("{option} stands alone"))),
        _ => {
            let subcommand = found(first)?;
            let usage = |wrong| format!("{}: {wrong}; usage: {}", subcommand.name, subcommand.usage());
            let given = subcommand.form.read(rest).map_err(usage)?;
            if given.help {
                return tell(&subcommand.help());
            }
            (subcommand.run)(&given)
        }
    }
}

fn tell(text: &str) -> Result<Status, Failure> {
    print(text.as_bytes())?;
    Ok(Status::Done)
}

fn found(name: &OsString) -> Result<&'static Subcommand, Failure> {
    let names: Vec<&str> = TABLE.iter().map(|subcommand| subcommand.name).collect();
    let wrong = || format!("there is no {}; there are {} (rbu help)", quoted(&name.to_string_lossy()), listed(&names, "and"));
    TABLE.iter().find(|subcommand| name == subcommand.name).ok_or_else(|| Failure::Because(wrong()))
}

impl Subcommand {
    fn usage(&self) -> String {
        format!("rbu {} {}", self.name, self.form.usage())
    }

    fn help(&self) -> String {
        let wide = self.form.options.iter().map(|option| option.usage().len()).max().unwrap_or(0);
        let option = |option: &Opt| format!("    {:wide$}  {}\n", option.usage(), option.what);
        let options: String = self.form.options.iter().map(option).collect();
        let inputs: String = self.inputs.iter().map(|input| format!("{input}\n")).collect();
        let head = format!("{}\n\n{}: {}.\n\n{}\n", self.usage(), self.name, self.does, self.tells);
        format!("{head}\n{options}\n{inputs}{STATUSES}\nExample:\n    {}\n", self.example)
    }
}

fn overview() -> String {
    let wide = TABLE.iter().map(|subcommand| subcommand.usage().len()).max().unwrap_or(0);
    let row = |subcommand: &Subcommand| format!("    {:wide$}  {}\n", subcommand.usage(), subcommand.does);
    let rows: String = TABLE.iter().map(row).collect();
    let example = TABLE.iter().find(|subcommand| subcommand.name == "run").map_or("", |subcommand| subcommand.example);
    format!(
        "rbu: areas and runs of a radio block unit, by its proved core\n\n{rows}    {:wide$}  how to use a subcommand, with an example\n    {:wide$}  the version, and which core is linked in\n\n{AREAS}{STATUSES}\nExample:\n    {}\n",
        "rbu help [SUBCOMMAND]", "rbu --version", example
    )
}

/// The version, and the core that is linked in by the checksum of its archive.
fn version() -> String {
    format!("rbu {}\nlibrbu.a SHA-256 {}\n", env!("CARGO_PKG_VERSION"), env!("RBU_ARCHIVE_SHA256"))
}
