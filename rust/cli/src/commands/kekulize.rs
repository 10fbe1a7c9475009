//! `balsa kekulize`: each text with its double bonds placed.

use super::Command;
use crate::lines::Text;
use crate::texts::{self, Answering};
use balsa::Refusal;
use std::io::{self, Write};

pub static COMMAND: Command = Command {
    name: "kekulize",
    operands: &["[OPTION]... [TEXT]..."],
    about: "Writes each text with its double bonds placed",
    more: "The first matching decides; with --titles the name follows as it stands",
    options: &texts::OPTIONS,
    run: |arguments| texts::run(arguments, &Kekulize),
};

struct Kekulize;

impl Answering for Kekulize {
    type Answer = Vec<u8>;

    fn answer(&self, text: &[u8]) -> Result<Vec<u8>, Refusal> {
        balsa::standardize(text)
    }

    fn print(&self, text: &Text<'_>, written: Vec<u8>, out: &mut dyn Write) -> io::Result<()> {
        out.write_all(&written)?;
        out.write_all(text.title)?;
        out.write_all(b"\n")
    }

    fn print_json(&self, text: &Text<'_>, written: Vec<u8>, out: &mut dyn Write) -> io::Result<()> {
        let object = texts::object(text).string("text", &written);
        out.write_all(object.line().as_bytes())
    }
}
