//! `balsa register`: a register of entries in a file.

use super::Command;
use crate::arguments::{Arguments, Opt};
use crate::failure::{Failure, Verdict};
use crate::json::Object;
use crate::lines::{Text, ARGUMENTS, STDIN};
use crate::output::{self, Messages};
use balsa::{FileError, RegisterFile};
use std::ffi::{OsStr, OsString};
use std::io::{self, Read, Write};
use std::path::Path;

const FORCE: Opt = Opt {
    letter: None,
    name: "force",
    value: None,
    about: "init: empties a register that is there",
};

pub static COMMAND: Command = Command {
    name: "register",
    operands: &[
        "init [--force] FILE",
        "withdraw FILE TAG [TEXT]",
        "add FILE TAG [TEXT]",
        "list [--json] FILE",
    ],
    about: "Keeps entries, each a tag and a text, in a file that survives a power cut",
    more: "A tag is a number from 0 to 65535. `withdraw` takes a text that is read, without TEXT the line that standard input has; `add` takes any body, without TEXT all that standard input has; `list` prints `TAG<tab>TEXT`",
    options: &[&FORCE, &output::JSON, &output::QUIET, &output::COLOR],
    run,
};

fn run(arguments: &Arguments) -> Result<Verdict, Failure> {
    let Some((action, rest)) = arguments.operands().split_first() else {
        return Err(usage("init, withdraw, add or list?"));
    };
    let (path, done) = match (action.to_str(), rest) {
        (Some("init"), [file]) => (file, init(file, arguments.has(&FORCE))?),
        (Some("withdraw"), [file, tag, rest @ ..]) if rest.len() < 2 => {
            return withdraw(file, number(tag)?, rest.first(), &Messages::new(arguments)?);
        }
        (Some("add"), [file, tag]) => (file, add(file, number(tag)?, &stdin()?)?),
        (Some("add"), [file, tag, text]) => {
            (file, add(file, number(tag)?, text.as_encoded_bytes())?)
        }
        (Some("list"), [file]) => (file, list(file, arguments.has(&output::JSON))?),
        _ => return Err(usage("these words do not fit together")),
    };
    verdict(path.as_ref(), done, &Messages::new(arguments)?)
}

/// What a call on a register's file answers; a failure of the output stops the run at once.
type Done = Result<(), FileError>;

fn init(file: &OsStr, may_empty: bool) -> Result<Done, Failure> {
    let path = Path::new(file);
    if !may_empty && path.exists() {
        let what = io::Error::new(
            io::ErrorKind::AlreadyExists,
            "it is there; --force empties it",
        );
        return Err(Failure::File(path.display().to_string(), what));
    }
    Ok(RegisterFile::create(path).map(drop))
}

fn add(file: &OsStr, tag: u16, body: &[u8]) -> Result<Done, Failure> {
    let path = existing(file)?;
    Ok(RegisterFile::open(path).and_then(|mut register| register.add(tag, body)))
}

/// Withdraws a text, the word at the prompt or the line of standard input; a refusal of the text is told
/// with a caret.
fn withdraw(
    file: &OsStr,
    tag: u16,
    word: Option<&OsString>,
    messages: &Messages,
) -> Result<Verdict, Failure> {
    let path = existing(file)?;
    let line = match word {
        Some(word) => word.as_encoded_bytes().to_vec(),
        None => stdin()?,
    };
    let bytes = match word {
        Some(_) => &line[..],
        None => line.strip_suffix(b"\n").unwrap_or(&line),
    };
    let done = RegisterFile::open(path).and_then(|mut register| register.withdraw(tag, bytes));
    if let Err(FileError::Unread(refusal)) = done {
        let file = word.map_or(STDIN, |_| ARGUMENTS);
        messages.refused(&Text::alone(file, bytes), refusal)?;
        return Ok(Verdict::Refused);
    }
    verdict(path, done, messages)
}

/// The path of a file that must be there.
fn existing(file: &OsStr) -> Result<&Path, Failure> {
    let path = Path::new(file);
    if path.exists() {
        return Ok(path);
    }
    let what = io::Error::new(
        io::ErrorKind::NotFound,
        "no register; `balsa register init` makes one",
    );
    Err(Failure::File(path.display().to_string(), what))
}

fn list(file: &OsStr, is_json: bool) -> Result<Done, Failure> {
    let register = match RegisterFile::read(file) {
        Ok(register) => register,
        Err(error) => return Ok(Err(error)),
    };
    let entries = match register.entries() {
        Ok(entries) => entries,
        Err(code) => return Ok(Err(code.into())),
    };
    let mut out = output::stdout();
    for (tag, body) in entries {
        if is_json {
            let object = Object::new()
                .number("tag", tag.into())
                .number("length", body.len())
                .string("text", body);
            out.write_all(object.line().as_bytes())?;
        } else {
            write!(out, "{tag}\t")?;
            out.write_all(body)?;
            writeln!(out)?;
        }
    }
    out.flush()?;
    Ok(Ok(()))
}

/// Tells of a refusal; what is none is a failure.
pub fn verdict(path: &Path, done: Done, messages: &Messages) -> Result<Verdict, Failure> {
    match done {
        Ok(()) => return Ok(Verdict::Accepted),
        Err(FileError::Damaged(damage)) => {
            messages.refused_file(path, damage.code(), Some(&damage.to_string()))?;
        }
        Err(FileError::Refused(code)) => messages.refused_file(path, code, None)?,
        Err(FileError::Io(error)) => return Err(Failure::File(path.display().to_string(), error)),
        Err(other) => {
            let error = io::Error::other(other.to_string());
            return Err(Failure::File(path.display().to_string(), error));
        }
    }
    Ok(Verdict::Refused)
}

fn number(tag: &OsStr) -> Result<u16, Failure> {
    let number = tag.to_str().and_then(|tag| tag.parse().ok());
    number.ok_or_else(|| usage("a tag is a number from 0 to 65535"))
}

fn stdin() -> Result<Vec<u8>, Failure> {
    let mut body = Vec::new();
    let read = io::stdin().read_to_end(&mut body);
    read.map_err(|error| Failure::File(STDIN.into(), error))?;
    Ok(body)
}

fn usage(what: &str) -> Failure {
    Failure::usage(format!("{what}\n{}", COMMAND.synopsis()))
}
