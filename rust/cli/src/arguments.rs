//! Options and operands of a command.

use std::ffi::{OsStr, OsString};

/// An option of a command.
pub struct Opt {
    /// Its letter, as in `-q`.
    pub letter: Option<char>,
    /// Its name, as in `--quiet`.
    pub name: &'static str,
    /// The name of its value, if it takes one.
    pub value: Option<&'static str>,
    /// What it does.
    pub about: &'static str,
}

/// Every command has it.
pub const HELP: Opt = Opt {
    letter: Some('h'),
    name: "help",
    value: None,
    about: "tells this",
};

/// The options and operands that were given.
#[derive(Default)]
pub struct Arguments {
    given: Vec<(&'static str, OsString)>,
    operands: Vec<OsString>,
}

impl Arguments {
    /// Splits words into the options that a command knows, and operands; after `--` all are operands.
    /// The error says what is wrong.
    pub fn parse(words: &[OsString], known: &[&'static Opt]) -> Result<Self, String> {
        let mut arguments = Arguments::default();
        let mut words = words.iter();
        while let Some(word) = words.next() {
            match word.to_str() {
                Some("--") => arguments.operands.extend(words.by_ref().cloned()),
                Some(text) if text.starts_with('-') && text != "-" => {
                    let (name, inline) = split(text);
                    let option = find(name, known).ok_or(format!("no option {name}"))?;
                    let value = match (option.value, inline) {
                        (None, None) => OsString::new(),
                        (None, Some(_)) => return Err(format!("{name} takes no value")),
                        (Some(_), Some(value)) => value.into(),
                        (Some(what), None) => {
                            let next = words.next().ok_or(format!("{name} needs {what}"))?;
                            next.clone()
                        }
                    };
                    arguments.given.push((option.name, value));
                }
                _ => arguments.operands.push(word.clone()),
            }
        }
        Ok(arguments)
    }

    /// Whether an option was given.
    pub fn has(&self, option: &Opt) -> bool {
        self.values(option).next().is_some()
    }

    /// The values given for an option, in order.
    pub fn values<'a>(&'a self, option: &Opt) -> impl Iterator<Item = &'a OsStr> + 'a {
        let name = option.name;
        let given = self.given.iter().filter(move |(other, _)| *other == name);
        given.map(|(_, value)| value.as_os_str())
    }

    /// The first operand, and the arguments without it.
    pub fn split_first(&self) -> Option<(OsString, Arguments)> {
        let (first, rest) = self.operands.split_first()?;
        let rest = Arguments {
            given: self.given.clone(),
            operands: rest.to_vec(),
        };
        Some((first.clone(), rest))
    }

    /// The words that are no options.
    pub fn operands(&self) -> &[OsString] {
        &self.operands
    }
}

/// `--name=value` in its two parts; `-xvalue` too.
fn split(word: &str) -> (&str, Option<&str>) {
    if word.starts_with("--") {
        return match word.split_once('=') {
            Some((name, value)) => (name, Some(value)),
            None => (word, None),
        };
    }
    let end = word.chars().take(2).map(char::len_utf8).sum();
    let (name, value) = word.split_at(end);
    (name, (!value.is_empty()).then_some(value))
}

/// The option that is written so.
fn find(word: &str, known: &[&'static Opt]) -> Option<&'static Opt> {
    let is_it = |option: &Opt| match word.strip_prefix("--") {
        Some(name) => option.name == name,
        None => option
            .letter
            .is_some_and(|letter| word[1..] == *letter.encode_utf8(&mut [0; 4])),
    };
    let all = known.iter().copied().chain([&HELP]);
    all.into_iter().find(|option| is_it(option))
}
