//! The arguments of a subcommand: what it takes, what it is given, and how its use is written.
use crate::lines::quoted;
use crate::streams::is_standard;
use std::ffi::{OsStr, OsString};

/// What a subcommand takes.
pub struct Form {
    /// the operands that must be given, and those that may be
    pub needed: &'static [&'static str],
    pub more: &'static [&'static str],
    /// the last one may be given any number of times
    pub many: bool,
    pub options: &'static [Opt],
}

/// An option, such as `--all` or `-o FILE`.
pub struct Opt {
    pub name: &'static str,
    /// what the word after it is
    pub value: Option<&'static str>,
    pub what: &'static str,
}

/// What a subcommand is given.
#[derive(Debug, PartialEq, Eq)]
pub struct Given {
    pub operands: Vec<OsString>,
    options: Vec<(&'static str, OsString)>,
    /// its use is asked for
    pub help: bool,
}

impl Given {
    pub fn has(&self, option: &str) -> bool {
        self.value(option).is_some()
    }

    /// The word after an option; an empty one where it takes none.
    pub fn value(&self, option: &str) -> Option<&OsStr> {
        self.options.iter().find(|(name, _)| *name == option).map(|(_, value)| value.as_os_str())
    }
}

impl Form {
    /// As it is written after the subcommand's name: `AREA.. [--all]`.
    pub fn usage(&self) -> String {
        let mut words: Vec<String> = self.needed.iter().map(|word| word.to_string()).collect();
        words.extend(self.more.iter().map(|word| format!("[{word}]")));
        if self.many {
            if let Some(last) = words.last_mut() {
                last.push_str("..");
            }
        }
        words.extend(self.options.iter().map(|option| format!("[{}]", option.usage())));
        words.join(" ")
    }

    /// What these words give, or what is wrong with them.
    pub fn read(&self, words: &[OsString]) -> Result<Given, String> {
        let mut given = Given { operands: vec![], options: vec![], help: false };
        let mut words = words.iter();
        let mut options_end = false;
        while let Some(word) = words.next() {
            let text = word.to_string_lossy();
            if options_end || is_standard(word) || !text.starts_with('-') {
                given.operands.push(word.clone());
            } else if text == "--" {
                options_end = true;
            } else if matches!(&*text, "--help" | "-h") {
                return Ok(Given { help: true, ..given });
            } else {
                let option = self.options.iter().find(|option| word == option.name);
                let option = option.ok_or_else(|| format!("there is no option {}", quoted(&text)))?;
                if given.has(option.name) {
                    return Err(format!("{} is given twice", option.name));
                }
                let value = match option.value {
                    Some(what) => words.next().cloned().ok_or_else(|| format!("{} takes {what}, and nothing follows it", option.name))?,
                    None => OsString::new(),
                };
                given.options.push((option.name, value));
            }
        }
        self.counted(given)
    }

    fn counted(&self, given: Given) -> Result<Given, String> {
        if let Some(missing) = self.needed.get(given.operands.len()) {
            return Err(format!("no {missing} is named"));
        }
        if let (false, Some(over)) = (self.many, given.operands.get(self.needed.len() + self.more.len())) {
            return Err(format!("{} is one too many", quoted(&over.to_string_lossy())));
        }
        if given.operands.iter().filter(|operand| is_standard(operand)).count() > 1 {
            return Err("standard input can be read once, and - stands twice".into());
        }
        Ok(given)
    }
}

impl Opt {
    pub fn usage(&self) -> String {
        match self.value {
            Some(value) => format!("{} {value}", self.name),
            None => self.name.into(),
        }
    }
}

#[cfg(test)]
mod tests {
    use super::*;

    const FORM: Form = Form {
        needed: &["SCENARIO"],
        more: &["AREA"],
        many: false,
        options: &[Opt { name: "--trace", value: None, what: "" }, Opt { name: "-o", value: Some("FILE"), what: "" }],
    };

    fn read(form: &Form, words: &str) -> Result<(String, Vec<String>), String> {
        let words: Vec<OsString> = words.split_whitespace().map(OsString::from).collect();
        let given = form.read(&words)?;
        let options = form.options.iter().filter(|option| given.has(option.name));
        let options = options.map(|option| format!("{}{}", option.name, given.value(option.name).unwrap().to_string_lossy())).collect();
        Ok((given.operands.iter().map(|word| word.to_string_lossy().into_owned()).collect::<Vec<_>>().join(" "), options))
    }

    fn right(operands: &str, options: &[&str]) -> Result<(String, Vec<String>), String> {
        Ok((operands.into(), options.iter().map(|option| option.to_string()).collect()))
    }

    #[test]
    fn usage() {
        assert_eq!(FORM.usage(), "SCENARIO [AREA] [--trace] [-o FILE]");
        assert_eq!(Form { needed: &["AREA"], more: &[], many: true, options: &[] }.usage(), "AREA..");
    }

    #[test]
    fn options_stand_anywhere() {
        assert_eq!(read(&FORM, "a b"), right("a b", &[]));
        assert_eq!(read(&FORM, "--trace a -o b"), right("a", &["--trace", "-ob"]));
        assert_eq!(read(&FORM, "-o -o -"), right("-", &["-o-o"]));
        assert_eq!(read(&FORM, "a -- --trace"), right("a --trace", &[]));
        assert_eq!(read(&FORM, "-- -o"), right("-o", &[]));
    }

    #[test]
    fn what_is_wrong() {
        let wrong = |words: &str| read(&FORM, words).unwrap_err();
        assert_eq!(wrong(""), "no SCENARIO is named");
        assert_eq!(wrong("--trace"), "no SCENARIO is named");
        assert_eq!(wrong("a b c"), "'c' is one too many");
        assert_eq!(wrong("a --tracing"), "there is no option '--tracing'");
        assert_eq!(wrong("- -"), "standard input can be read once, and - stands twice");
        assert_eq!(wrong("a -o"), "-o takes FILE, and nothing follows it");
        assert_eq!(wrong("a --trace --trace"), "--trace is given twice");
        assert_eq!(wrong("a -o b -o c"), "-o is given twice");
    }

    /// Help is asked for by an option, and not by the word after one.
    #[test]
    fn help() {
        let asks = |words: &str| FORM.read(&words.split_whitespace().map(OsString::from).collect::<Vec<_>>()).is_ok_and(|given| given.help);
        assert!(asks("--help") && asks("a -h b c d") && asks("a -o b -h"));
        assert!(!asks("a") && !asks("a -o -h") && !asks("a -- -h"));
    }

    #[test]
    fn any_number_of_operands() {
        let many = Form { needed: &["AREA"], more: &[], many: true, options: &[] };
        assert_eq!(read(&many, "a b c"), right("a b c", &[]));
        assert_eq!(read(&many, "").unwrap_err(), "no AREA is named");
    }
}
