//! `balsa same`: whether two texts are drawings of the same compound.

use super::Command;
use crate::arguments::Arguments;
use crate::failure::{Failure, Verdict};
use crate::lines::{self, Text};
use crate::output::{self, Messages};
use crate::progress::Progress;
use crate::texts;
use balsa::tables::SAME_ATOMS;
use balsa::{Molecule, Refusal, Sameness};
use std::io::{self, Write};

pub static COMMAND: Command = Command {
    name: "same",
    operands: &["[OPTION]... TEXT TEXT", "[OPTION]... [-f FILE]..."],
    about: "Tells whether two texts are the same compound, drawn differently",
    more: "Without operands each line has two texts, with blanks or a tab between them. `LINE: same ROW ROW NUMBERS`: a matching of each text, by which both become the same molecule, and for each atom of the first text its number in the second; - where there is none; or `LINE: different`. The exit status is 0 where all are the same, 1 where one is refused or different",
    options: &texts::OPTIONS,
    run,
};

fn run(arguments: &Arguments) -> Result<Verdict, Failure> {
    let is_json = arguments.has(&output::JSON);
    let is_quiet = arguments.has(&output::QUIET) && !is_json;
    let messages = Messages::new(arguments)?;
    let mut out = output::stdout();
    let mut progress = Progress::new();
    let mut verdict = Verdict::Accepted;
    let pairs = lines::each_pair(arguments, |pair| {
        progress.step();
        let answer = answer(&pair);
        if !matches!(answer, Ok(Some(_))) {
            verdict = Verdict::Refused;
        }
        match answer {
            Ok(answer) if is_json => print_json(&pair, answer.as_ref(), &mut out)?,
            Ok(_) if is_quiet => {}
            Ok(answer) => print(&pair, answer.as_ref(), &mut out)?,
            Err((which, refusal)) if is_json => {
                let object = texts::object(&pair[which]).number("which", which + 1);
                out.write_all(texts::refused(object, refusal).line().as_bytes())?;
            }
            Err((which, refusal)) => {
                out.flush()?;
                progress.clear();
                messages.refused(&pair[which], refusal)?;
            }
        }
        Ok(())
    });
    progress.clear();
    out.flush()?;
    pairs.map(|()| verdict)
}

/// Whether two texts are the same compound; of a refusal also which text it is about.
fn answer([one, other]: &[Text<'_>; 2]) -> Result<Option<Sameness>, (usize, Refusal)> {
    let first = Molecule::read(one.bytes).map_err(|refusal| (0, refusal))?;
    let second = Molecule::read(other.bytes).map_err(|refusal| (1, refusal))?;
    let large = usize::from(first.counts().atoms <= SAME_ATOMS);
    let answer = first.same_compound(&second);
    answer.map_err(|refusal| (large, refusal))
}

fn print(pair: &[Text<'_>; 2], answer: Option<&Sameness>, out: &mut dyn Write) -> io::Result<()> {
    let [Text { line, .. }, Text { title, .. }] = pair;
    match answer {
        None => write!(out, "{line}: different")?,
        Some(found) => {
            let numbers: Vec<String> = found.renumbering.iter().map(u16::to_string).collect();
            let words = [digits(&found.row1), digits(&found.row2), numbers.join(",")];
            write!(out, "{line}: same")?;
            for word in words {
                write!(out, " {}", if word.is_empty() { "-" } else { &word })?;
            }
        }
    }
    out.write_all(title)?;
    writeln!(out)
}

fn print_json(
    [one, other]: &[Text<'_>; 2],
    answer: Option<&Sameness>,
    out: &mut dyn Write,
) -> io::Result<()> {
    let named = Text {
        title: other.title,
        ..*one
    };
    let object = texts::object(&named).boolean("same", answer.is_some());
    let object = match answer {
        None => object,
        Some(found) => object
            .string("row1", digits(&found.row1).as_bytes())
            .string("row2", digits(&found.row2).as_bytes())
            .numbers("renumbering", &found.renumbering),
    };
    out.write_all(object.line().as_bytes())
}

/// A row as digits.
fn digits(row: &[u8]) -> String {
    row.iter().map(|&cell| char::from(b'0' + cell)).collect()
}
