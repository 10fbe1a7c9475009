//! `balsa check`: which texts are accepted.

use super::Command;
use crate::lines::Text;
use crate::output;
use crate::texts::{self, Answering};
use balsa::{Molecule, Refusal};
use std::io::{self, Write};

pub static COMMAND: Command = Command {
    name: "check",
    operands: &["[OPTION]... [TEXT]..."],
    about: "Tells which texts are accepted",
    more: "`LINE: N atoms, M bonds` for each that is; for the others the reason and a caret under the place",
    options: &texts::OPTIONS,
    run: |arguments| {
        let is_quiet = arguments.has(&output::QUIET);
        texts::run(arguments, &Check { is_quiet })
    },
};

struct Check {
    is_quiet: bool,
}

impl Answering for Check {
    type Answer = Molecule;

    fn answer(&self, text: &[u8]) -> Result<Molecule, Refusal> {
        Molecule::read(text)
    }

    fn print(&self, text: &Text<'_>, molecule: Molecule, out: &mut dyn Write) -> io::Result<()> {
        if self.is_quiet {
            return Ok(());
        }
        let counts = molecule.counts();
        write!(
            out,
            "{}: {} atoms, {} bonds",
            text.line, counts.atoms, counts.bonds
        )?;
        if molecule.overfull() > 0 {
            write!(out, ", {} over-full", molecule.overfull())?;
        }
        out.write_all(text.title)?;
        writeln!(out)
    }

    fn print_json(
        &self,
        text: &Text<'_>,
        molecule: Molecule,
        out: &mut dyn Write,
    ) -> io::Result<()> {
        let counts = molecule.counts();
        let object = texts::object(text)
            .number("atoms", counts.atoms)
            .number("bonds", counts.bonds)
            .number("overfull", molecule.overfull());
        out.write_all(object.line().as_bytes())
    }
}
