//! The run of a command that answers text by text.

use crate::arguments::{Arguments, Opt};
use crate::failure::{Failure, Verdict};
use crate::json::Object;
use crate::lines::{self, Text};
use crate::output::{self, Messages};
use crate::progress::Progress;
use balsa::Refusal;
use std::io::{self, Write};

/// The options of every such command.
pub const OPTIONS: [&Opt; 5] = [
    &lines::FILE,
    &lines::TITLES,
    &output::JSON,
    &output::QUIET,
    &output::COLOR,
];

/// What a command does with a text.
pub trait Answering {
    type Answer;
    /// The answer to a text.
    fn answer(&self, text: &[u8]) -> Result<Self::Answer, Refusal>;
    /// Prints an answer in lines.
    fn print(&self, text: &Text<'_>, answer: Self::Answer, out: &mut dyn Write) -> io::Result<()>;
    /// Prints an answer in objects.
    fn print_json(
        &self,
        text: &Text<'_>,
        answer: Self::Answer,
        out: &mut dyn Write,
    ) -> io::Result<()>;
}

/// Answers every text that the arguments name.
pub fn run(arguments: &Arguments, command: &impl Answering) -> Result<Verdict, Failure> {
    let is_json = arguments.has(&output::JSON);
    let messages = Messages::new(arguments)?;
    let mut out = output::stdout();
    let mut progress = Progress::new();
    let mut verdict = Verdict::Accepted;
    let texts = lines::each_text(arguments, |text| {
        progress.step();
        match command.answer(text.bytes) {
            Ok(answer) if is_json => command.print_json(&text, answer, &mut out)?,
            Ok(answer) => command.print(&text, answer, &mut out)?,
            Err(refusal) => {
                verdict = Verdict::Refused;
                if is_json {
                    out.write_all(refused(object(&text), refusal).line().as_bytes())?;
                } else {
                    // so that results and refusals stand in order where both go to one place
                    out.flush()?;
                    progress.clear();
                    messages.refused(&text, refusal)?;
                }
            }
        }
        Ok(())
    });
    progress.clear();
    out.flush()?;
    texts.map(|()| verdict)
}

/// An object that names a text.
pub fn object(text: &Text<'_>) -> Object {
    let object = Object::new()
        .string("file", text.file.as_bytes())
        .number("line", text.line);
    if text.title.is_empty() {
        object
    } else {
        object.string("title", text.name())
    }
}

/// The object that names a text, with its refusal.
pub fn refused(object: Object, refusal: Refusal) -> Object {
    let Refusal { code, place } = refusal;
    let object = object.number("refusal", code.number().into());
    let object = if code.has_place() {
        object.number("place", place)
    } else {
        object.null("place")
    };
    object.string("message", code.words().as_bytes())
}
