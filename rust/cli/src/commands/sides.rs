//! `balsa sides`: on which side of its double bonds each text places the marked neighbours.

use super::Command;
use crate::lines::Text;
use crate::texts::{self, Answering};
use balsa::{Molecule, Refusal};
use std::io::{self, Write};

pub static COMMAND: Command = Command {
    name: "sides",
    operands: &["[OPTION]... [TEXT]..."],
    about: "Tells the sides of the double bonds of each text",
    more: "`LINE: ROW` for each: a digit for each bond, 1 where the lowest marked neighbours of a double bond's ends lie on the same side, 2 on opposite sides, else 0; - where there are no bonds. Ring bonds of selected atoms have no sides before they are kekulized",
    options: &texts::OPTIONS,
    run: |arguments| texts::run(arguments, &Sides),
};

struct Sides;

impl Answering for Sides {
    type Answer = String;

    fn answer(&self, text: &[u8]) -> Result<String, Refusal> {
        let sides = Molecule::read(text)?.sides();
        Ok(sides.iter().map(|&cell| char::from(b'0' + cell)).collect())
    }

    fn print(&self, text: &Text<'_>, sides: String, out: &mut dyn Write) -> io::Result<()> {
        let row = if sides.is_empty() { "-" } else { &sides };
        write!(out, "{}: {row}", text.line)?;
        out.write_all(text.title)?;
        writeln!(out)
    }

    fn print_json(&self, text: &Text<'_>, sides: String, out: &mut dyn Write) -> io::Result<()> {
        let object = texts::object(text).string("sides", sides.as_bytes());
        out.write_all(object.line().as_bytes())
    }
}
