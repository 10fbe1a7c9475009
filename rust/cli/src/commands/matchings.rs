//! `balsa matchings`: every way to place the double bonds of each text.

use super::Command;
use crate::arguments::Opt;
use crate::failure::Failure;
use crate::lines::{self, Text};
use crate::output;
use crate::texts::{self, Answering};
use balsa::{Molecule, Refusal};
use std::io::{self, Write};

const LIMIT: Opt = Opt {
    letter: Some('n'),
    name: "limit",
    value: Some("N"),
    about: "stops after N matchings of a text",
};

pub static COMMAND: Command = Command {
    name: "matchings",
    operands: &["[OPTION]... [TEXT]..."],
    about: "Lists the matchings of each text",
    more: "`LINE: ROW TEXT` for each: a digit for each bond, 1 where it becomes double, and the text kekulized by it; - where a row or a text is empty or the text cannot be written",
    options: &[
        &LIMIT,
        &lines::FILE,
        &lines::TITLES,
        &output::JSON,
        &output::QUIET,
        &output::COLOR,
    ],
    run: |arguments| {
        let limit = match arguments.values(&LIMIT).last() {
            None => usize::MAX,
            Some(value) => {
                let number = value.to_str().and_then(|value| value.parse().ok());
                number.ok_or_else(|| Failure::usage("--limit is a number"))?
            }
        };
        texts::run(arguments, &Matchings { limit })
    },
};

struct Matchings {
    limit: usize,
}

impl Matchings {
    /// Each matching as digits, with the text of the molecule kekulized by it, if that can be written.
    fn each<'a>(
        &self,
        molecule: &'a Molecule,
    ) -> impl Iterator<Item = (String, Option<Vec<u8>>)> + 'a {
        molecule.matchings().take(self.limit).map(|row| {
            let mut drawn = molecule.clone();
            let written = drawn.kekulize(&row).and_then(|()| drawn.write());
            let digits = row.iter().map(|&cell| char::from(b'0' + cell));
            (digits.collect(), written.ok().map(|written| written.text))
        })
    }
}

impl Answering for Matchings {
    type Answer = Molecule;

    fn answer(&self, text: &[u8]) -> Result<Molecule, Refusal> {
        Molecule::read(text)
    }

    fn print(&self, text: &Text<'_>, molecule: Molecule, out: &mut dyn Write) -> io::Result<()> {
        for (row, written) in self.each(&molecule) {
            let row = if row.is_empty() { "-" } else { &row };
            let written = written.filter(|written| !written.is_empty());
            write!(out, "{}: {row} ", text.line)?;
            out.write_all(written.as_deref().unwrap_or(b"-"))?;
            out.write_all(text.title)?;
            writeln!(out)?;
        }
        Ok(())
    }

    fn print_json(
        &self,
        text: &Text<'_>,
        molecule: Molecule,
        out: &mut dyn Write,
    ) -> io::Result<()> {
        for (row, written) in self.each(&molecule) {
            let object = texts::object(text).string("matching", row.as_bytes());
            let object = match written {
                Some(written) => object.string("text", &written),
                None => object.null("text"),
            };
            out.write_all(object.line().as_bytes())?;
        }
        Ok(())
    }
}
