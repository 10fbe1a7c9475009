//! The commands, each in a file of its own. A new one joins by a line in [`COMMANDS`].

mod check;
mod kekulize;
mod key;
mod matchings;
mod register;
mod report;
mod same;
mod sides;
mod withdrawn;

use crate::arguments::{Arguments, Opt, HELP};
use crate::failure::{Failure, Verdict};

pub static COMMANDS: [&Command; 9] = [
    &check::COMMAND,
    &kekulize::COMMAND,
    &matchings::COMMAND,
    &sides::COMMAND,
    &same::COMMAND,
    &key::COMMAND,
    &report::COMMAND,
    &register::COMMAND,
    &withdrawn::COMMAND,
];

/// A command: how it is written, what it does and what runs it.
pub struct Command {
    pub name: &'static str,
    /// The operands, a line for each form.
    pub operands: &'static [&'static str],
    pub about: &'static str,
    /// What its output looks like.
    pub more: &'static str,
    pub options: &'static [&'static Opt],
    pub run: fn(&Arguments) -> Result<Verdict, Failure>,
}

impl Command {
    /// How the command is written.
    pub fn synopsis(&self) -> String {
        let mut lines = String::new();
        for (i, operands) in self.operands.iter().enumerate() {
            let lead = if i == 0 { "usage:" } else { "      " };
            lines += &format!("{lead} balsa {} {operands}\n", self.name);
        }
        lines
    }

    /// All about the command.
    pub fn help(&self) -> String {
        let mut lines = format!("{}\n{}. {}\n\n", self.synopsis(), self.about, self.more);
        for option in self.options.iter().copied().chain([&HELP]) {
            let letter = option
                .letter
                .map_or("    ".into(), |letter| format!("-{letter}, "));
            let value = option
                .value
                .map_or(String::new(), |value| format!(" {value}"));
            let name = format!("{}{value}", option.name);
            lines += &format!("  {letter}--{name:12} {}\n", option.about);
        }
        lines + "\nExit status: 0 accepted, 1 refused, 2 usage or input and output.\n"
    }
}
