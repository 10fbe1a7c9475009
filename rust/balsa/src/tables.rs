//! The calls on buffers that the caller lends, as they are proved.

use crate::ffi;
use crate::refusal::{Code, Refusal};

/// The most atoms of a molecule that [`same`] compares.
pub const SAME_ATOMS: usize = 64;
/// Cells of an atom: element, selected, isotope, hydrogens, charge, extension, mark.
pub const ATOM_CELLS: usize = 7;
/// Cells of a bond: first end, second end, kind.
pub const BOND_CELLS: usize = 3;
/// Cells of a full atom table.
pub const ATOM_TABLE: usize = 7000;
/// Cells of a full bond table.
pub const BOND_TABLE: usize = 3300;
/// Cells of a matching row.
pub const ROW: usize = 1100;
/// Cells of a renumbering.
pub const RENUMBERING: usize = 1000;
/// Bytes of the longest text.
pub const TEXT: usize = 16_384;

/// How many atoms and bonds the tables hold.
#[derive(Clone, Copy, Debug, Default, PartialEq, Eq)]
pub struct Counts {
    /// Atoms.
    pub atoms: usize,
    /// Bonds.
    pub bonds: usize,
}

/// The two tables of a molecule, with their counts.
#[derive(Clone, Copy, Debug)]
pub struct Tables<'a> {
    /// The table of atoms.
    pub atoms: &'a [i32],
    /// The table of bonds.
    pub bonds: &'a [i32],
    /// How many atoms and bonds they hold.
    pub counts: Counts,
}

/// What reading answers.
#[derive(Clone, Copy, Debug, Default, PartialEq, Eq)]
pub struct Read {
    /// How many atoms and bonds the tables hold.
    pub counts: Counts,
    /// How many atoms outside brackets are over-full: their bond sum is above every target valence.
    pub overfull: usize,
}

/// What asking for the next matching answers.
#[derive(Clone, Copy, Debug, PartialEq, Eq)]
pub enum Step {
    /// The row holds the next matching.
    Given,
    /// There is none after it.
    End,
}

fn accepted(code: u32) -> Result<(), Code> {
    match code {
        0 => Ok(()),
        number => Err(Code::of(number)),
    }
}

/// Reads a text into the tables.
///
/// # Errors
/// 1 leaves the tables as they were; 2 to 11 and 20 to 23 zero them.
pub fn read(text: &[u8], atoms: &mut [i32], bonds: &mut [i32]) -> Result<Read, Refusal> {
    let reply = ffi::read(text, atoms, bonds);
    match reply.code {
        0 => Ok(Read {
            counts: Counts {
                atoms: reply.atoms,
                bonds: reply.bonds,
            },
            overfull: reply.overfull,
        }),
        number => Err(Refusal {
            code: Code::of(number),
            place: reply.place,
        }),
    }
}

/// Whether the tables can be worked with.
///
/// # Errors
/// 1 or 13.
pub fn check(atoms: &[i32], bonds: &[i32], counts: Counts) -> Result<(), Code> {
    accepted(ffi::check(atoms, bonds, counts.atoms, counts.bonds))
}

/// Stores the first matching in the row.
///
/// # Errors
/// 1 leaves the row as it was; 13 and 11 zero it.
pub fn first(atoms: &[i32], bonds: &[i32], counts: Counts, row: &mut [u8]) -> Result<(), Code> {
    accepted(ffi::first(atoms, bonds, counts.atoms, counts.bonds, row))
}

/// Stores the matching after the row in the row; the end zeroes it.
///
/// # Errors
/// 1 leaves the row as it was; 13 and 12 zero it.
pub fn next(atoms: &[i32], bonds: &[i32], counts: Counts, row: &mut [u8]) -> Result<Step, Code> {
    step(ffi::next(atoms, bonds, counts.atoms, counts.bonds, row))
}

/// Stores the first matching in the row, by the engine that pairs atoms as long as a pair is forced,
/// and the pairs that are forced before any choice in the list: their bond numbers in turn, which are
/// in every matching. Gives their number.
///
/// # Errors
/// 1 leaves the row and the list, which is as long as a row, as they were; 13 and 11 zero them.
pub fn first_forced(
    atoms: &[i32],
    bonds: &[i32],
    counts: Counts,
    row: &mut [u8],
    pairs: &mut [u16],
) -> Result<usize, Code> {
    let reply = ffi::first_forced(atoms, bonds, counts.atoms, counts.bonds, row, pairs);
    accepted(reply.code).map(|()| reply.forced)
}

/// As [`next`], by the engine of [`first_forced`].
///
/// # Errors
/// 1 leaves the row as it was; 13 and 12 zero it.
pub fn next_forced(
    atoms: &[i32],
    bonds: &[i32],
    counts: Counts,
    row: &mut [u8],
) -> Result<Step, Code> {
    step(ffi::next_forced(
        atoms,
        bonds,
        counts.atoms,
        counts.bonds,
        row,
    ))
}

fn step(code: u32) -> Result<Step, Code> {
    match code {
        0 => Ok(Step::Given),
        255 => Ok(Step::End),
        number => Err(Code::of(number)),
    }
}

/// Stores the row of sides in the row: 1 at each double bond whose two ends have their lowest marked
/// neighbours on the same side, 2 if on opposite sides, 0 at every other bond.
///
/// # Errors
/// 1 leaves the row as it was; 13 zeroes it.
pub fn sides(atoms: &[i32], bonds: &[i32], counts: Counts, row: &mut [u8]) -> Result<(), Code> {
    accepted(ffi::sides(atoms, bonds, counts.atoms, counts.bonds, row))
}

/// Whether the row is a matching.
///
/// # Errors
/// 1 or 13.
pub fn is_matching(atoms: &[i32], bonds: &[i32], counts: Counts, row: &[u8]) -> Result<bool, Code> {
    match ffi::is_matching(atoms, bonds, counts.atoms, counts.bonds, row) {
        0 => Ok(true),
        12 => Ok(false),
        number => Err(Code::of(number)),
    }
}

/// Kekulizes the tables by the row.
///
/// # Errors
/// 1, 13, 12 or 20, and the tables stay as they were.
pub fn kekulize(
    atoms: &mut [i32],
    bonds: &mut [i32],
    counts: Counts,
    row: &[u8],
) -> Result<(), Code> {
    accepted(ffi::kekulize(atoms, bonds, counts.atoms, counts.bonds, row))
}

/// Whether two molecules are the same compound, drawn differently: some matching of one and some
/// matching of the other kekulize to the same molecule under some renumbering. Where they are, the
/// first such row of the first is stored, the first of the second that goes with it, and the smallest
/// renumbering, each atom of the first by its number in the second; where not, all three are zeroed.
///
/// # Errors
/// 1 leaves both rows and the renumbering as they were; 13 for either molecule and then 19 (a molecule
/// has over 64 atoms) zero them.
pub fn same(
    one: Tables<'_>,
    other: Tables<'_>,
    row1: &mut [u8],
    row2: &mut [u8],
    renumbering: &mut [u16],
) -> Result<bool, Code> {
    match ffi::same(one, other, row1, row2, renumbering) {
        0 => Ok(true),
        254 => Ok(false),
        number => Err(Code::of(number)),
    }
}

/// The key of a molecule of any size: a number that all its redrawings have. Molecules with different
/// keys are no redrawings; those with the same key need not be any.
///
/// # Errors
/// 1 or 13.
pub fn key(atoms: &[i32], bonds: &[i32], counts: Counts) -> Result<u64, Code> {
    let reply = ffi::key(atoms, bonds, counts.atoms, counts.bonds);
    accepted(reply.code).map(|()| reply.key)
}

/// Writes the molecule of the tables: the length of the text, with each atom's place in it.
///
/// # Errors
/// 1 leaves the buffers as they were; 13, 14, 15 and 16 zero them.
pub fn write(
    atoms: &[i32],
    bonds: &[i32],
    counts: Counts,
    text: &mut [u8],
    renumbering: &mut [u16],
) -> Result<usize, Code> {
    let reply = ffi::write(atoms, bonds, counts.atoms, counts.bonds, text, renumbering);
    accepted(reply.code).map(|()| reply.length)
}

/// Runs a list of calls on one row, 0 for the first matching and any other byte for the next, and
/// stores the number of each answer: 0 given, 255 end, or the refusal's.
///
/// # Errors
/// 1 if there are fewer cells than calls, and nothing changes.
pub fn replay(
    calls: &[u8],
    atoms: &[i32],
    bonds: &[i32],
    counts: Counts,
    row: &mut [u8],
    codes: &mut [u8],
) -> Result<(), Code> {
    accepted(ffi::replay(
        calls,
        atoms,
        bonds,
        counts.atoms,
        counts.bonds,
        row,
        codes,
    ))
}
