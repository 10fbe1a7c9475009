//! A text in pieces: the calls on a state and tables that the caller keeps, as they are proved, and a
//! reader that owns them.

use crate::ffi;
use crate::molecule::Molecule;
use crate::refusal::{Code, Refusal};
use crate::tables::{Counts, Read, ATOM_TABLE, BOND_TABLE, RENUMBERING, ROW};
use std::io;

/// The most branches that are open at once.
pub const BRANCHES: usize = 64;
/// Bridge numbers; no bridge has the number 0.
pub const BRIDGES: usize = 100;

/// A reading between two pieces: numbers only, so that it can be stored and sent elsewhere, with the
/// tables. A caller hands it back as it was left. Every cell is 0 before the first byte; once the
/// reading was refused or has ended, every one but the first two.
#[derive(Clone, Debug, PartialEq, Eq)]
#[repr(C)]
pub struct State {
    /// 0 while the reading goes on, 24 once it has ended, else the refusal that was told.
    pub told: u8,
    /// The place of that refusal.
    pub place: u16,
    /// Bytes read.
    pub read: u16,
    /// Where the grammar's machine stands: from 10 on in a bracket, 7 after `%` and a digit.
    pub mode: u8,
    /// The first letter of a half-read symbol.
    pub letter: u8,
    /// What stands before the next atom or bridge: 0 nothing, a symbol's kind and 1, above those a dot.
    pub pending: u8,
    /// The first digit after `%`.
    pub tens: u8,
    /// The bracket's element so far; the other fields follow.
    pub element: u16,
    /// 1 for a selected letter.
    pub selected: u16,
    /// The isotope.
    pub isotope: u16,
    /// The hydrogens.
    pub hydrogens: u16,
    /// The charge.
    pub charge: i32,
    /// The extension.
    pub extension: u16,
    /// The tetrahedral mark.
    pub mark: u16,
    /// The atom to which the next one is joined.
    pub hub: u16,
    /// Used rows of the atom table.
    pub atoms: u16,
    /// Used rows of the bond table.
    pub bonds: u16,
    /// Open branches.
    pub depth: u16,
    /// The hub of each open branch.
    pub hubs: [u16; BRANCHES],
    /// For each bridge number the atom and 1 where it opened, or 0.
    pub openers: [u16; BRIDGES],
    /// The kind of the symbol at each opening.
    pub symbols: [u8; BRIDGES],
    /// The place of each opening.
    pub offsets: [u16; BRIDGES],
    /// 1 for each atom outside brackets.
    pub outsides: [u8; RENUMBERING],
    /// Two numbers for each bond: where its bridge's digits stood, for tetrahedral marks.
    pub keys: [u16; 2 * ROW],
}

// As in include/balsa.h.
const _: () = assert!(size_of::<State>() == 6064);

/// What a call answers, and the state for the next one.
#[derive(Clone, Debug, PartialEq, Eq)]
pub struct Fed {
    /// What was read, which is nothing before the end; or the refusal. Where [`State::told`] is no
    /// number of the rules, which no call leaves so, it is given as 25.
    pub answer: Result<Read, Refusal>,
    /// The state.
    pub state: State,
}

impl From<ffi::FedReply> for Fed {
    fn from(reply: ffi::FedReply) -> Self {
        let answer = match reply.code {
            0 => Ok(Read {
                counts: Counts {
                    atoms: reply.atoms,
                    bonds: reply.bonds,
                },
                overfull: reply.overfull,
            }),
            number => Err(Refusal {
                code: Code::known(number).unwrap_or(Code::BrokenState),
                place: reply.place,
            }),
        };
        Fed {
            answer,
            state: reply.state,
        }
    }
}

/// Begins a reading: the state is fresh, and the tables are zeroed.
///
/// # Errors
/// In the answer: 1 leaves the tables as they were.
pub fn start(atoms: &mut [i32], bonds: &mut [i32]) -> Fed {
    ffi::start(atoms, bonds).into()
}

/// Reads a piece, which may be empty.
///
/// # Errors
/// In the answer: 1 (a table is short), 25 (the state or the tables are broken) and 24 (the text had
/// ended) change nothing; 2 to 9 zero the tables as soon as a byte is known to be refused, and every
/// later call repeats them.
pub fn feed(state: &State, piece: &[u8], atoms: &mut [i32], bonds: &mut [i32]) -> Fed {
    ffi::feed(state, piece, atoms, bonds).into()
}

/// Says that the text has ended. With the state and the tables as they were left, the answer and the
/// tables are those of reading the whole text.
///
/// # Errors
/// In the answer: 1, 25 and 24 as for [`feed`]; what was told before, 3 at the length, 10, 20 to 23 and
/// 11 zero the tables.
pub fn end(state: &State, atoms: &mut [i32], bonds: &mut [i32]) -> Fed {
    ffi::end(state, atoms, bonds).into()
}

/// A reader of one text that comes in pieces, by [`std::io::Write`]: however it is cut, what
/// [`PieceReader::finish`] gives is what [`Molecule::read`] gives of the whole text. A text over
/// 16,384 bytes is refused as 2 when the first byte too many arrives, unless a byte before it was
/// refused.
///
/// ```
/// use balsa::{Code, PieceReader, Refusal};
/// use std::io::Write;
///
/// let mut reader = PieceReader::new();
/// reader.write_all(b"c1cc")?;
/// reader.write_all(b"ccc1")?;
/// assert_eq!(reader.finish()?.counts().bonds, 6);
///
/// let mut reader = PieceReader::new();
/// std::io::copy(&mut &b"C1"[..], &mut reader)?;
/// let error = reader.write(b"1CCC").unwrap_err();
/// let told = error.get_ref().and_then(|error| error.downcast_ref());
/// assert_eq!(told, Some(&Refusal { code: Code::SelfBridge, place: 2 }));
/// # Ok::<(), Box<dyn std::error::Error>>(())
/// ```
#[derive(Clone, Debug)]
pub struct PieceReader {
    state: State,
    atoms: Vec<i32>,
    bonds: Vec<i32>,
}

impl PieceReader {
    /// A reader to which nothing was written.
    pub fn new() -> Self {
        let mut atoms = vec![0; ATOM_TABLE];
        let mut bonds = vec![0; BOND_TABLE];
        let state = start(&mut atoms, &mut bonds).state;
        PieceReader {
            state,
            atoms,
            bonds,
        }
    }

    /// Reads a piece.
    ///
    /// # Errors
    /// The refusals 2 to 9, with the piece that brings their byte and with every later one.
    pub fn feed(&mut self, piece: &[u8]) -> Result<(), Refusal> {
        let Fed { answer, state } = feed(&self.state, piece, &mut self.atoms, &mut self.bonds);
        self.state = state;
        answer.map(|_| ())
    }

    /// How many bytes were read; 0 once one was refused.
    pub fn bytes(&self) -> usize {
        self.state.read.into()
    }

    /// The molecule of the text that was written.
    ///
    /// # Errors
    /// The refusals of [`Molecule::read`].
    pub fn finish(mut self) -> Result<Molecule, Refusal> {
        let read = end(&self.state, &mut self.atoms, &mut self.bonds).answer?;
        Ok(Molecule::of_tables(self.atoms, self.bonds, read))
    }
}

impl Default for PieceReader {
    fn default() -> Self {
        PieceReader::new()
    }
}

impl io::Write for PieceReader {
    /// Reads all of the piece. A refusal is the source of the error, whose kind is `InvalidData`.
    fn write(&mut self, piece: &[u8]) -> io::Result<usize> {
        self.feed(piece)?;
        Ok(piece.len())
    }

    /// Does nothing: a piece is read when it is written.
    fn flush(&mut self) -> io::Result<()> {
        Ok(())
    }
}

impl From<Refusal> for io::Error {
    fn from(refusal: Refusal) -> Self {
        io::Error::new(io::ErrorKind::InvalidData, refusal)
    }
}
