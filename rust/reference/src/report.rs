//! The report: a line for each text.

use crate::matching::{first, kekulize};
use crate::read::{reading, Reading};
use crate::refusal::{Code, Refusal};
use crate::write::write;
use crate::MAX_TEXT;
use std::io::{self, BufRead, Write};

/// What is reported of an accepted text.
#[derive(Clone, Debug, PartialEq, Eq)]
pub struct Accepted {
    /// The number of atoms.
    pub atoms: usize,
    /// The number of bonds.
    pub bonds: usize,
    /// The number of over-full atoms outside brackets.
    pub overfull: usize,
    /// The first matching.
    pub row: Vec<u8>,
    /// The text of the kekulized molecule.
    pub text: Vec<u8>,
}

/// Reads, kekulizes by the first matching and writes one text.
pub fn report_line(text: &[u8]) -> Result<Accepted, Refusal> {
    let Reading {
        mut molecule,
        overfull,
    } = reading(text)?;
    let row = first(&molecule).ok_or(Code::Unmatchable)?;
    kekulize(&mut molecule, &row)?;
    let written = write(&molecule)?;
    Ok(Accepted {
        atoms: molecule.atoms.len(),
        bonds: molecule.bonds.len(),
        overfull,
        row,
        text: written.text,
    })
}

/// Reports the texts that stand on the lines of the input.
pub fn report(mut input: impl BufRead, mut output: impl Write) -> io::Result<()> {
    writeln!(output, "balsa report")?;
    let mut line = Vec::new();
    let (mut accepted, mut refused) = (0, 0);
    while read_line(&mut input, &mut line)? {
        let number = accepted + refused + 1;
        match report_line(&line) {
            Ok(answer) => {
                accepted += 1;
                write_accepted(&mut output, number, &answer)?;
            }
            Err(Refusal { code, place }) => {
                refused += 1;
                writeln!(output, "{number}: {} {place}", code.number())?;
            }
        }
    }
    writeln!(output, "accepted {accepted} refused {refused}")?;
    output.flush()
}

fn write_accepted(output: &mut impl Write, number: u64, answer: &Accepted) -> io::Result<()> {
    let Accepted {
        atoms,
        bonds,
        overfull,
        ..
    } = answer;
    write!(output, "{number}: 0 {atoms} {bonds} {overfull} ")?;
    let digits: Vec<u8> = answer.row.iter().map(|cell| b'0' + cell).collect();
    output.write_all(or_dash(&digits))?;
    output.write_all(b" ")?;
    output.write_all(or_dash(&answer.text))?;
    output.write_all(b"\n")
}

fn or_dash(field: &[u8]) -> &[u8] {
    if field.is_empty() {
        b"-"
    } else {
        field
    }
}

/// Reads a line without its end, and tells whether there was one. Of a line that is too long to
/// be a text one byte more than a text may have is stored.
fn read_line(input: &mut impl BufRead, line: &mut Vec<u8>) -> io::Result<bool> {
    line.clear();
    let mut has_bytes = false;
    loop {
        let bytes = match input.fill_buf() {
            Err(error) if error.kind() == io::ErrorKind::Interrupted => continue,
            bytes => bytes?,
        };
        if bytes.is_empty() {
            return Ok(has_bytes);
        }
        has_bytes = true;
        let end = bytes.iter().position(|&byte| byte == b'\n');
        let stored = end.unwrap_or(bytes.len()).min(MAX_TEXT + 1 - line.len());
        line.extend_from_slice(&bytes[..stored]);
        let used = end.map_or(bytes.len(), |end| end + 1);
        input.consume(used);
        if end.is_some() {
            return Ok(true);
        }
    }
}
