//! `balsa key`: a number of each text that all its redrawings have.

use super::Command;
use crate::lines::Text;
use crate::texts::{self, Answering};
use balsa::{Molecule, Refusal};
use std::io::{self, Write};

pub static COMMAND: Command = Command {
    name: "key",
    operands: &["[OPTION]... [TEXT]..."],
    about: "Tells the key of each text, which all drawings of its compound have",
    more: "`LINE: KEY` for each, 16 hexadecimal digits. Texts with different keys are different compounds; texts with the same key need not be the same",
    options: &texts::OPTIONS,
    run: |arguments| texts::run(arguments, &Key),
};

struct Key;

impl Answering for Key {
    type Answer = String;

    fn answer(&self, text: &[u8]) -> Result<String, Refusal> {
        let key = Molecule::read(text)?.key();
        Ok(format!("{key:016x}"))
    }

    fn print(&self, text: &Text<'_>, key: String, out: &mut dyn Write) -> io::Result<()> {
        write!(out, "{}: {key}", text.line)?;
        out.write_all(text.title)?;
        writeln!(out)
    }

    fn print_json(&self, text: &Text<'_>, key: String, out: &mut dyn Write) -> io::Result<()> {
        let object = texts::object(text).string("key", key.as_bytes());
        out.write_all(object.line().as_bytes())
    }
}
