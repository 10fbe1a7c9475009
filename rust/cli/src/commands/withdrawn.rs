//! `balsa withdrawn`: whether texts are withdrawn by a register, in any drawing.

use super::{register, Command};
use crate::arguments::Arguments;
use crate::failure::{Failure, Verdict};
use crate::lines::{self, Text};
use crate::output::{self, Messages};
use crate::progress::Progress;
use crate::texts;
use balsa::{Refusal, RegisterFile, Withdrawn};
use std::io::{self, Write};
use std::path::Path;

pub static COMMAND: Command = Command {
    name: "withdrawn",
    operands: &["[OPTION]... FILE [TEXT]..."],
    about: "Tells whether texts are withdrawn by the register in FILE, in any drawing",
    more: "`LINE: clear`, `LINE: withdrawn, entry N, tag T` or `LINE: undecided, entry N`; the register is read anew for each text, and each answer is written at once. The exit status is 0 where all are clear, 1 where one is withdrawn, undecided or refused: release on 0 and on nothing else",
    options: &texts::OPTIONS,
    run,
};

/// Where whoever reads the answers has gone, not all were heard: that is not 0 here.
fn run(arguments: &Arguments) -> Result<Verdict, Failure> {
    match answer_all(arguments) {
        Err(failure) if failure.is_broken_pipe() => Ok(Verdict::Refused),
        done => done,
    }
}

fn answer_all(arguments: &Arguments) -> Result<Verdict, Failure> {
    let Some((file, arguments)) = arguments.split_first() else {
        let what = format!("which register?\n{}", COMMAND.synopsis());
        return Err(Failure::usage(what));
    };
    let path = Path::new(&file);
    let is_json = arguments.has(&output::JSON);
    let is_quiet = arguments.has(&output::QUIET) && !is_json;
    let messages = Messages::new(&arguments)?;
    if let Err(error) = RegisterFile::read(path) {
        return register::verdict(path, Err(error), &messages);
    }
    let mut out = output::stdout();
    let mut progress = Progress::new();
    let mut verdict = Verdict::Accepted;
    let texts = lines::each_text(&arguments, |text| {
        progress.step();
        let answer = answer(path, text.bytes)?;
        if answer != Ok(Withdrawn::Clear) {
            verdict = Verdict::Refused;
        }
        match answer {
            Ok(answer) if is_json => print_json(&text, answer, &mut out)?,
            Ok(_) if is_quiet => {}
            Ok(answer) => print(&text, answer, &mut out)?,
            Err(refusal) if is_json => {
                let object = texts::refused(texts::object(&text), refusal);
                out.write_all(object.line().as_bytes())?;
            }
            Err(refusal) => {
                progress.clear();
                messages.refused(&text, refusal)?;
            }
        }
        // who asks through a pipe waits for the answer
        Ok(out.flush()?)
    });
    progress.clear();
    out.flush()?;
    texts.map(|()| verdict)
}

/// What the register of a file, as it is now, says of a text.
fn answer(path: &Path, text: &[u8]) -> Result<Result<Withdrawn, Refusal>, Failure> {
    let register = RegisterFile::read(path).map_err(|error| {
        let error = io::Error::other(error.to_string());
        Failure::File(path.display().to_string(), error)
    })?;
    Ok(register.withdrawn(text))
}

fn print(text: &Text<'_>, answer: Withdrawn, out: &mut dyn Write) -> io::Result<()> {
    write!(out, "{}: {answer}", text.line)?;
    out.write_all(text.title)?;
    writeln!(out)
}

fn print_json(text: &Text<'_>, answer: Withdrawn, out: &mut dyn Write) -> io::Result<()> {
    let object = texts::object(text);
    let object = match answer {
        Withdrawn::Clear => object.string("answer", b"clear"),
        Withdrawn::Withdrawn { tag, entry } => object
            .string("answer", b"withdrawn")
            .number("entry", entry)
            .number("tag", tag.into()),
        Withdrawn::Undecided { entry } => {
            object.string("answer", b"undecided").number("entry", entry)
        }
    };
    out.write_all(object.line().as_bytes())
}
