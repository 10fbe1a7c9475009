//! A register: a table of contents and bodies in one run of bytes.

use crate::Code;

/// The bytes of a register.
pub const REGISTER: usize = 32_768;
/// The most entries.
pub const MAX_ENTRIES: usize = 64;
/// The longest body.
pub const MAX_BODY: usize = 4096;
/// The bytes of an entry in the table of contents.
const LINE: usize = 6;
/// The byte of the first body.
const BODIES: usize = 2 + MAX_ENTRIES * LINE;

/// A line of the table of contents.
#[derive(Clone, Copy, Debug, PartialEq, Eq)]
pub struct Entry {
    /// The caller's tag.
    pub tag: u16,
    /// The first byte of the body.
    pub start: usize,
    /// The bytes of the body.
    pub length: usize,
}

impl Entry {
    fn parse(line: &[u8]) -> Entry {
        let [start, length, tag] = [0, 2, 4].map(|i| u16::from_le_bytes([line[i], line[i + 1]]));
        Entry {
            tag,
            start: start.into(),
            length: length.into(),
        }
    }

    fn line(&self) -> Vec<u8> {
        let numbers = [self.start as u16, self.length as u16, self.tag];
        numbers.iter().flat_map(|n| n.to_le_bytes()).collect()
    }
}

/// All entries, in the order of the contents: 1 if the register is short, 17 if its layout breaks a rule.
pub fn entries(register: &[u8]) -> Result<Vec<Entry>, Code> {
    if register.len() < REGISTER {
        return Err(Code::ShortBuffer);
    }
    let count = register[1] as usize;
    if register[0] != 1 || count > MAX_ENTRIES {
        return Err(Code::InvalidRegister);
    }
    let lines = register[2..BODIES].chunks_exact(LINE).take(count);
    let entries: Vec<Entry> = lines.map(Entry::parse).collect();
    let mut end = BODIES;
    for entry in &entries {
        if entry.start != end || entry.length > MAX_BODY {
            return Err(Code::InvalidRegister);
        }
        end += entry.length;
    }
    if end > REGISTER {
        return Err(Code::InvalidRegister);
    }
    Ok(entries)
}

/// The entry at a place, if there is one.
pub fn entry(register: &[u8], place: usize) -> Result<Option<Entry>, Code> {
    Ok(entries(register)?.get(place).copied())
}

/// Makes a register empty, whatever it holds.
pub fn empty(register: &mut [u8]) -> Result<(), Code> {
    if register.len() < REGISTER {
        return Err(Code::ShortBuffer);
    }
    register[..2].copy_from_slice(&[1, 0]);
    Ok(())
}

/// Adds an entry.
pub fn add(register: &mut [u8], tag: u16, body: &[u8]) -> Result<(), Code> {
    let entries = entries(register)?;
    let start = entries
        .last()
        .map_or(BODIES, |last| last.start + last.length);
    let has_room = entries.len() < MAX_ENTRIES && start + body.len() <= REGISTER;
    if !has_room || body.len() > MAX_BODY {
        return Err(Code::RegisterFull);
    }
    let length = body.len();
    let line = 2 + LINE * entries.len();
    register[start..start + length].copy_from_slice(body);
    register[line..line + LINE].copy_from_slice(&Entry { tag, start, length }.line());
    register[1] += 1;
    Ok(())
}
