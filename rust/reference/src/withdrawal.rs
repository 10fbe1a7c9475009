//! Withdrawing a text, and whether a text is withdrawn, in whatever drawing.

use crate::redrawn::{are_one, folded};
use crate::refusal::{Code, Refusal};
use crate::register::{self, Entry, REGISTER};
use crate::{read, Molecule};

/// Whether a text is withdrawn.
#[derive(Clone, Copy, Debug, PartialEq, Eq)]
pub enum Withdrawn {
    /// Every body is read, and no entry is a redrawing.
    Clear,
    /// The first entry that is a redrawing.
    Withdrawn {
        /// Its tag.
        tag: u16,
        /// Its place.
        entry: usize,
    },
    /// None is a redrawing, and the body of this entry, the first such, is not read.
    Undecided {
        /// Its place.
        entry: usize,
    },
}

/// Withdraws a text: 1 first, then reading's refusal, then 17 and 18.
pub fn withdraw(register: &mut [u8], tag: u16, text: &[u8]) -> Result<(), Refusal> {
    if register.len() < REGISTER {
        return Err(Code::ShortBuffer.into());
    }
    read(text)?;
    Ok(register::add(register, tag, text)?)
}

/// Whether a text is withdrawn: 1 and 17 first, then reading's refusal.
pub fn withdrawn(register: &[u8], text: &[u8]) -> Result<Withdrawn, Refusal> {
    let entries = register::entries(register)?;
    let molecule = folded(&read(text)?);
    let listed = entries.iter().map(|entry| folded_body(register, entry));
    let listed: Vec<Option<Molecule>> = listed.collect();
    let is_listed =
        |body: &Option<Molecule>| body.as_ref().is_some_and(|body| are_one(body, &molecule));
    if let Some(entry) = listed.iter().position(is_listed) {
        let tag = entries[entry].tag;
        return Ok(Withdrawn::Withdrawn { tag, entry });
    }
    match listed.iter().position(Option::is_none) {
        Some(entry) => Ok(Withdrawn::Undecided { entry }),
        None => Ok(Withdrawn::Clear),
    }
}

/// The folded molecule of a body that is read.
fn folded_body(register: &[u8], entry: &Entry) -> Option<Molecule> {
    let body = &register[entry.start..entry.start + entry.length];
    read(body).ok().map(|molecule| folded(&molecule))
}
