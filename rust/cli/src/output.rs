//! What goes to standard output and standard error.

use crate::arguments::{Arguments, Opt};
use crate::failure::{Failure, Verdict};
use crate::lines::{Text, ARGUMENTS};
use balsa::{Code, Excerpt, Refusal};
use std::env;
use std::io::{self, BufWriter, IsTerminal, LineWriter, Write};
use std::path::Path;

/// Results as JSON.
pub const JSON: Opt = Opt {
    letter: None,
    name: "json",
    value: None,
    about: "prints an object on a line for each answer, refusals too, on standard output",
};
/// No words about refusals.
pub const QUIET: Opt = Opt {
    letter: Some('q'),
    name: "quiet",
    value: None,
    about:
        "says nothing of refusals, the exit status does; `check`, `same` and `withdrawn` then say nothing at all",
};
/// When to colour.
pub const COLOR: Opt = Opt {
    letter: None,
    name: "color",
    value: Some("WHEN"),
    about: "colours refusals: auto (on a terminal, unless NO_COLOR is set), always, never",
};

/// Standard output: a line at once on a terminal, else in large pieces.
pub fn stdout() -> Box<dyn Write> {
    let stdout = io::stdout();
    if stdout.is_terminal() {
        Box::new(LineWriter::new(stdout))
    } else {
        Box::new(BufWriter::with_capacity(1 << 16, stdout))
    }
}

/// Prints words that were asked for.
pub fn print(words: &str) -> Result<Verdict, Failure> {
    io::stdout().write_all(words.as_bytes())?;
    Ok(Verdict::Accepted)
}

/// Tells why the run stopped. Where standard error is gone, there is nobody to tell.
pub fn complain(failure: &Failure) {
    let _ = writeln!(io::stderr(), "balsa: {failure}");
}

/// Tells of refusals on standard error.
pub struct Messages {
    is_quiet: bool,
    paint: Paint,
}

/// What begins and ends a coloured part.
#[derive(Clone, Copy)]
struct Paint(&'static str, &'static str);

impl Messages {
    pub fn new(arguments: &Arguments) -> Result<Self, Failure> {
        let is_painted = match arguments.values(&COLOR).last().map(|when| when.to_str()) {
            None | Some(Some("auto")) => io::stderr().is_terminal() && allows_color(),
            Some(Some("always")) => true,
            Some(Some("never")) => false,
            Some(_) => return Err(Failure::usage("--color is auto, always or never")),
        };
        Ok(Messages {
            is_quiet: arguments.has(&QUIET),
            paint: if is_painted {
                Paint("\x1b[1;31m", "\x1b[0m")
            } else {
                Paint("", "")
            },
        })
    }

    /// `file:line:column: refusal 7: a bridge joins an atom to itself`, the text and a caret.
    pub fn refused(&self, text: &Text<'_>, refusal: Refusal) -> io::Result<()> {
        if self.is_quiet {
            return Ok(());
        }
        let Text { file, line, .. } = text;
        let Refusal { code, place } = refusal;
        let column = if code.has_place() {
            format!(":{}", text.start + place + 1)
        } else {
            String::new()
        };
        let Paint(begin, end) = self.paint;
        let Excerpt {
            line: shown,
            column: caret,
        } = refusal.excerpt(text.bytes);
        let mut message = format!("{file}:{line}{column}: {}\n", self.code(code));
        if !text.bytes.is_empty() {
            message += &format!("  {shown}\n");
        }
        if let Some(caret) = caret {
            message += &format!("  {:caret$}{begin}^{end}\n", "");
        }
        if let Some(hint) = hint(text, refusal) {
            message += &format!("  ({hint})\n");
        }
        io::stderr().write_all(message.as_bytes())
    }

    /// `name: refusal 18: the register has no room for the body`, or the reason that is told instead.
    pub fn refused_file(&self, name: &Path, code: Code, reason: Option<&str>) -> io::Result<()> {
        if self.is_quiet {
            return Ok(());
        }
        let reason = reason
            .map(|reason| format!(": {reason}"))
            .unwrap_or_default();
        writeln!(
            io::stderr(),
            "{}: {}{reason}",
            name.display(),
            self.code(code)
        )
    }

    /// `refusal 7: a bridge joins an atom to itself`
    fn code(&self, code: Code) -> String {
        let Paint(begin, end) = self.paint;
        format!("{begin}refusal {}{end}: {}", code.number(), code.words())
    }
}

/// NO_COLOR, where it is set and not empty, forbids colour.
fn allows_color() -> bool {
    env::var_os("NO_COLOR").is_none_or(|value| value.is_empty())
}

/// What may help with the byte at the place of a refusal.
fn hint(text: &Text<'_>, refusal: Refusal) -> Option<&'static str> {
    if refusal.code != Code::Grammar {
        return None;
    }
    match text.bytes.get(refusal.place) {
        None => Some("the text ends too early"),
        Some(b'\r') => Some("a carriage return: --titles takes lines that end in CR LF"),
        Some(b' ' | b'\t') => Some("a blank: --titles takes lines with a name after the text"),
        Some(_) if text.file == ARGUMENTS && is_file(text.bytes) => {
            Some("there is a file of this name: -f reads it")
        }
        Some(_) => None,
    }
}

fn is_file(name: &[u8]) -> bool {
    std::str::from_utf8(name).is_ok_and(|name| Path::new(name).is_file())
}
