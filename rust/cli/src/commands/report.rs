//! `balsa report`: what the proved program `report` writes, byte for byte.

use super::Command;
use crate::arguments::Arguments;
use crate::failure::{Failure, Verdict};
use crate::lines;
use crate::output;
use crate::progress::Progress;
use balsa::tables::{self, ATOM_TABLE, BOND_TABLE, RENUMBERING, ROW, TEXT};
use balsa::Refusal;
use std::io::{self, Write};

pub static COMMAND: Command = Command {
    name: "report",
    operands: &["[OPTION]... [TEXT]..."],
    about: "Reports each text on a line",
    more: "`LINE: 0 ATOMS BONDS OVERFULL ROW TEXT` or `LINE: REFUSAL PLACE`, and the totals, as the proved program `report` does; lines count on from file to file. The exit status is 0 also where texts are refused",
    options: &[&lines::FILE, &lines::TITLES],
    run,
};

fn run(arguments: &Arguments) -> Result<Verdict, Failure> {
    let mut out = output::stdout();
    let mut progress = Progress::new();
    let mut buffers = Buffers::new();
    let mut line = Vec::new();
    let (mut accepted, mut refused) = (0_u64, 0_u64);
    out.write_all(b"balsa report\n")?;
    let texts = lines::each_text(arguments, |text| {
        progress.step();
        line.clear();
        write!(line, "{}: ", accepted + refused + 1)?;
        match buffers.answer(text.bytes) {
            Ok(answer) => {
                accepted += 1;
                answer.print(&mut line)?;
            }
            Err(Refusal { code, place }) => {
                refused += 1;
                writeln!(line, "{} {place}", code.number())?;
            }
        }
        Ok(out.write_all(&line)?)
    });
    progress.clear();
    if texts.is_ok() {
        writeln!(out, "accepted {accepted} refused {refused}")?;
    }
    out.flush()?;
    texts.map(|()| Verdict::Accepted)
}

/// What the calls are lent, text after text.
struct Buffers {
    atoms: Vec<i32>,
    bonds: Vec<i32>,
    row: Vec<u8>,
    text: Vec<u8>,
    renumbering: Vec<u16>,
}

/// What is said of an accepted text.
struct Answer<'a> {
    read: tables::Read,
    row: &'a [u8],
    text: &'a [u8],
}

impl Buffers {
    fn new() -> Self {
        Buffers {
            atoms: vec![0; ATOM_TABLE],
            bonds: vec![0; BOND_TABLE],
            row: vec![0; ROW],
            text: vec![0; TEXT],
            renumbering: vec![0; RENUMBERING],
        }
    }

    /// Reads a text, kekulizes by the first matching and writes.
    fn answer(&mut self, text: &[u8]) -> Result<Answer<'_>, Refusal> {
        let Buffers {
            atoms,
            bonds,
            row,
            text: written,
            renumbering,
        } = self;
        let read = tables::read(text, atoms, bonds)?;
        let counts = read.counts;
        tables::first(atoms, bonds, counts, row)?;
        tables::kekulize(atoms, bonds, counts, row)?;
        let length = tables::write(atoms, bonds, counts, written, renumbering)?;
        Ok(Answer {
            read,
            row: &row[..counts.bonds],
            text: &written[..length],
        })
    }
}

impl Answer<'_> {
    fn print(&self, line: &mut Vec<u8>) -> io::Result<()> {
        let tables::Read { counts, overfull } = self.read;
        write!(line, "0 {} {} {overfull} ", counts.atoms, counts.bonds)?;
        line.extend(self.row.iter().map(|cell| b'0' + cell));
        line.extend(if self.row.is_empty() {
            &b"- "[..]
        } else {
            b" "
        });
        line.extend(if self.text.is_empty() {
            b"-"
        } else {
            self.text
        });
        line.push(b'\n');
        Ok(())
    }
}
