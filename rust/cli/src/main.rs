//! `balsa`: the proved calls at the prompt. Exit status: 0 accepted, 1 refused, 2 usage or input and output.

mod arguments;
mod commands;
mod failure;
mod json;
mod lines;
mod output;
mod progress;
mod texts;

use arguments::Arguments;
use commands::{Command, COMMANDS};
use failure::{Failure, Verdict};
use std::env;
use std::ffi::OsString;
use std::process::ExitCode;

fn main() -> ExitCode {
    let words: Vec<OsString> = env::args_os().skip(1).collect();
    match run(&words) {
        Ok(Verdict::Accepted) => ExitCode::SUCCESS,
        Ok(Verdict::Refused) => ExitCode::from(1),
        // whoever read the output has seen enough
        Err(failure) if failure.is_broken_pipe() => ExitCode::SUCCESS,
        Err(failure) => {
            output::complain(&failure);
            ExitCode::from(2)
        }
    }
}

fn run(words: &[OsString]) -> Result<Verdict, Failure> {
    let Some((first, rest)) = words.split_first() else {
        return Err(Failure::usage(format!("which command?\n{}", overview())));
    };
    match first.to_str() {
        Some("-h" | "--help" | "help") => output::print(&overview()),
        Some("-V" | "--version") => output::print(&format!(
            "balsa {} (edition {} of the rules)\n",
            env!("CARGO_PKG_VERSION"),
            balsa::EDITION
        )),
        _ => run_command(find(first)?, rest),
    }
}

fn run_command(command: &Command, words: &[OsString]) -> Result<Verdict, Failure> {
    let arguments = Arguments::parse(words, command.options)
        .map_err(|what| Failure::usage(format!("{what}\n{}", command.synopsis())))?;
    if arguments.has(&arguments::HELP) {
        return output::print(&command.help());
    }
    (command.run)(&arguments)
}

fn find(name: &OsString) -> Result<&'static Command, Failure> {
    let found = COMMANDS.iter().find(|command| name == command.name);
    let unknown = || format!("no command {}\n{}", name.display(), overview());
    found.copied().ok_or_else(|| Failure::usage(unknown()))
}

/// All commands, a line for each.
fn overview() -> String {
    let mut lines = String::from("usage: balsa COMMAND [OPTION]... [TEXT]...\n\n");
    for command in COMMANDS {
        lines += &format!("  {:10} {}\n", command.name, command.about);
    }
    lines + "\n`balsa COMMAND --help` tells more; `balsa --version` the version.\n"
}
